"""The page's policy: the one script and the one style that are in it, and nothing else."""

import base64
import hashlib
import threading
from collections.abc import Callable
from functools import partial
from html.parser import HTMLParser
from http.server import SimpleHTTPRequestHandler, ThreadingHTTPServer
from pathlib import Path
from typing import Any, Optional

from alive import held, loads
from common import Bad
from opened import Opened

NAME = "Content-Security-Policy"
DATA = ("application/json", "application/octet-stream")  # kinds of script elements that aren't run
# Each tries to set `window.ran`; an expression that gives the page a moment for it.
INJECTED = (
    "document.body.append(Object.assign(document.createElement('script'), { textContent: 'window.ran = 1' }))",
    "document.body.insertAdjacentHTML('beforeend', '<button onclick=\"window.ran = 1\"></button>');"
    "document.body.lastElementChild.click()",
    "document.body.append(Object.assign(document.createElement('script'),"
    " { src: URL.createObjectURL(new Blob(['window.ran = 1'])) }))",
    "document.body.append(Object.assign(document.createElement('script'), { src: 'data:,window.ran = 1' }))",
)


class Inside(HTMLParser):
    """The policy, the scripts and the styles of a page."""

    def __init__(self) -> None:
        super().__init__()
        self.policies: list[str] = []
        self.texts: dict[str, list[str]] = {"script": [], "style": []}
        self.inline: list[str] = []
        self.open: Optional[str] = None

    def handle_starttag(self, tag: str, attrs: list[tuple[str, Optional[str]]]) -> None:
        given = dict(attrs)
        self.inline += [name for name in given if name.startswith("on") or name == "style"]
        if tag == "meta" and given.get("http-equiv") == NAME:
            self.policies.append(given.get("content") or "")
        self.open = tag if tag in self.texts and given.get("type") not in DATA else None
        if self.open:
            self.texts[self.open].append("")

    def handle_data(self, data: str) -> None:
        if self.open:
            self.texts[self.open][-1] += data

    def handle_endtag(self, tag: str) -> None:
        self.open = None


def hashed(text: str) -> str:
    """How a policy names a script or a style."""
    return f"'sha256-{base64.b64encode(hashlib.sha256(text.encode()).digest()).decode()}'"


def names_what_is_there(page: Path) -> None:
    """The policy allows the page's script and style by their sums, and nothing that stands in a line."""
    inside = Inside()
    inside.feed(page.read_text(encoding="utf-8"))
    if len(inside.policies) != 1 or inside.inline:
        raise Bad(f"policies {inside.policies}, in a line {inside.inline}")
    rules = {words[0]: words[1:] for words in (rule.split() for rule in inside.policies[0].split(";"))}
    script, style = ([hashed(text) for text in inside.texts[kind]] for kind in ("script", "style"))
    wanted = {
        "default-src": ["'none'"],
        "script-src": [*script, "'wasm-unsafe-eval'"],
        "worker-src": ["blob:"],
        "style-src": style,
        "base-uri": ["'none'"],
        "form-action": ["'none'"],
    }
    if len(script) != 1 or len(style) != 1 or rules != wanted:
        raise Bad(f"{rules} in place of {wanted}")


def no_other_script(opened: Opened) -> None:
    """A script that is put into the page doesn't run."""
    said = len(opened.browser.events)
    opened.example("first.trace")
    for script in INJECTED:
        opened.value(f"{{ {script} }}")
        opened.value("new Promise((done) => setTimeout(done, 200))")
        if opened.value("window.ran !== undefined"):
            raise Bad(f"this ran: {script}")
    refused = [it for it in opened.browser.events[said:] if "violates" in str(it)]
    if len(refused) < len(INJECTED):
        raise Bad(f"{len(refused)} of {len(INJECTED)} scripts were refused")
    del opened.browser.events[said:]
    opened.open()


class Quiet(SimpleHTTPRequestHandler):
    """A server that says nothing of what it is asked for."""

    def log_message(self, format: str, *args: Any) -> None:
        """Says nothing."""


def over_http(opened: Opened) -> None:
    """From a server too the worker is started, and runs the program beside the page's own thread."""
    said = len(opened.browser.events)
    handler = partial(Quiet, directory=str(opened.page.resolve().parent))
    with ThreadingHTTPServer(("127.0.0.1", 0), handler) as server:
        thread = threading.Thread(target=server.serve_forever)
        thread.start()
        try:
            address = f"http://127.0.0.1:{server.server_port}/{opened.page.name}"
            served = Opened(opened.browser, opened.page, address)
            held(served, "over http", lambda: served.trace(loads().decode()))
            if served.text("status") != "0: done":
                raise Bad(f"over http: {served.text('status')}")
        finally:
            server.shutdown()
            thread.join()
    del opened.browser.events[said:]
    opened.open()


TESTS: list[tuple[str, Callable[[Opened], Any]]] = [
    ("a script that is put in doesn't run", no_other_script),
    ("the page from a server", over_http),
]
