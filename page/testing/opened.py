"""The page in a browser, by what a user does there and sees."""

import json
import random
import tempfile
from collections.abc import Iterator
from pathlib import Path
from typing import Any, Optional

from browser import Browser
from common import Bad
from crates import TOP

EXAMPLES = TOP / "examples"
IS_DONE = "document.body.dataset.state === 'done' && document.body.dataset.pictures !== 'waiting'"


def quoted(words: str) -> str:
    """Words as JavaScript writes them."""
    return json.dumps(words)


class Opened:
    """The page, opened."""

    def __init__(self, browser: Browser, page: Path, address: Optional[str] = None) -> None:
        self.browser, self.page = browser, page
        self.address = address or page.resolve().as_uri()
        browser.size(1_400, 1_000)
        self.open()

    def open(self, place: str = "") -> None:
        """Opens the page anew, and waits for its first run."""
        self.browser.open(f"{self.address}{place}")
        self.browser.wait(f"document.body?.dataset.state === 'failed' || (document.body && {IS_DONE})")
        # What is saved is taken here, in place of the user's folder.
        self.value("HTMLAnchorElement.prototype.click = () => {}")
        self.value(
            "(() => { const before = URL.createObjectURL.bind(URL); URL.createObjectURL = (blob) =>"
            "{ if (blob.type === 'text/plain') window.saved = blob; return before(blob); }; })()"
        )

    def value(self, script: str) -> Any:
        """What an expression of JavaScript gives."""
        return self.browser.value(script)

    def text(self, ident: str) -> str:
        """The text of an element."""
        words: str = self.value(f"document.getElementById({quoted(ident)}).textContent")
        return words

    def texts(self, selector: str) -> list[str]:
        """The texts of all elements that a selector names."""
        script = f"[...document.querySelectorAll({quoted(selector)})].map((it) => it.textContent)"
        found: list[str] = self.value(script)
        return found

    def count(self, selector: str) -> int:
        """How many elements a selector names."""
        return int(self.value(f"document.querySelectorAll({quoted(selector)}).length"))

    def put(self, ident: str, value: str, event: str = "input") -> None:
        """Writes into a field, or chooses in a list or by a slider."""
        self.value(
            f"(() => {{ const it = document.getElementById({quoted(ident)}); it.value = {quoted(value)};"
            f"it.dispatchEvent(new Event({quoted(event)})); }})()"
        )

    def press(self, ident: str) -> None:
        """Presses a button."""
        self.value(f"document.getElementById({quoted(ident)}).click()")

    def await_run(self) -> None:
        """Waits until the program has ended and the page shows it."""
        self.browser.wait(IS_DONE)

    def begin(self) -> None:
        """What was done is forgotten, so that the next end is seen."""
        self.value("document.body.dataset.state = 'waiting'")

    def example(self, name: str) -> None:
        """Chooses an example in the list."""
        self.begin()
        self.put("example", name, "change")
        self.await_run()

    def command(self, name: str) -> None:
        """Chooses a command and runs it."""
        self.begin()
        self.value(f"document.querySelector('input[value={quoted(name)}]').click()")
        self.press("go")
        self.await_run()

    def drill(self, seed: int, lines: int) -> None:
        """Runs a drill by its fields."""
        self.put("seed", str(seed))
        self.put("lines", str(lines))
        self.command("drill")

    def file(self, path: Path) -> None:
        """Opens a file by the page's button."""
        self.begin()
        root = self.browser.call("DOM.getDocument")["root"]["nodeId"]
        field = self.browser.call("DOM.querySelector", nodeId=root, selector="#file")["nodeId"]
        self.browser.call("DOM.setFileInputFiles", files=[str(path)], nodeId=field)
        self.await_run()

    def trace(self, text: str, kind: str = "trace") -> None:
        """Opens a text as a file."""
        with tempfile.NamedTemporaryFile("w", suffix=f".{kind}", encoding="latin-1", newline="") as file:
            file.write(text)
            file.flush()
            self.file(Path(file.name))

    def status(self) -> int:
        """The program's status."""
        return int(self.value("document.body.dataset.status"))

    def written(self) -> str:
        """What the program wrote: a verdict or a refusal stands in the status, all else is saved."""
        said = self.text("status")
        if self.value("document.body.dataset.command") == "check" and self.status() in (0, 6):
            return said.partition(": ")[2] + "\n"
        if self.status() == 2 and " is refused: " in said:
            line, reason = said.removeprefix("2: line ").split(" is refused: ")
            return f"papr: line {line}: {reason}\n"
        self.press("save")
        text: str = self.value("window.saved.text()")
        return text

    def called(self, words: list[str], given: bytes) -> tuple[int, bytes]:
        """The status and the text of a command on an input."""
        kind = {"check": "judged", "set": "set"}.get(words[0], "trace")
        with tempfile.NamedTemporaryFile(suffix=f".{kind}") as file:
            file.write(given)
            file.flush()
            self.file(Path(file.name))
        if words[0] == "image":
            self.command(" ".join(words))
        return self.status(), self.written().encode()

    def shown(self, side: str) -> list[str]:
        """The lines that a list has drawn and that hold something."""
        rows = f"[...document.querySelectorAll('#{side} .row')]"
        parts: list[list[str]] = self.value(f"{rows}.map((it) => [...it.children].map((x) => x.textContent))")
        between = " " if side == "trace" else ""
        return [between.join(it) for it in parts if it]

    def row(self, side: str, line: int) -> str:
        """JavaScript for the row that has a line of the trace, where it is drawn."""
        rows = "[...document.querySelectorAll('#trace .row')]"
        found = f"{rows}.find((it) => it.firstChild?.textContent === '{line}')"
        return f"document.getElementById('{side}-' + {found}?.dataset.row)"

    def goto(self, line: int) -> None:
        """Chooses a line by keys, from the first one on; no row of a dump may stand before it."""
        self.value("document.getElementById('trace').focus()")
        self.browser.key("Home", 36)
        for _ in range(line - 1):
            self.browser.key("ArrowDown", 40)

    def click_line(self, line: int) -> None:
        """Clicks a line of the trace."""
        self.browser.click(self.row("trace", line))

    def classes(self, side: str, line: int) -> set[str]:
        """The marks of a row."""
        return set(str(self.value(f"{self.row(side, line)}.className")).split())


# ---- changed inputs

WORDS = ("0x0", "1", "0x20", "18", "19", "load", "0x8000000000", "0xffffffffffffffff", "", "dump", "begin")
COMMANDS = {
    "trace": (["run"], ["run"], ["image", "old"], ["image", "new"]),
    "judged": (["check"],),
    "set": (["set"],),
}


def changed(text: str, draw: random.Random) -> str:
    """The text with a few of its lines changed, moved, doubled or left out."""
    lines = text.split("\n")
    for _ in range(draw.randint(1, 4)):
        at, how = draw.randrange(len(lines)), draw.randrange(5)
        if how == 0 and len(lines) > 1:
            del lines[at]
        elif how == 1:
            lines.insert(at, draw.choice(lines))
        elif how == 2:
            words = lines[at].split(" ")
            words[draw.randrange(len(words))] = draw.choice(WORDS)
            lines[at] = " ".join(words)
        elif how == 3:
            other = draw.randrange(len(lines))
            lines[at], lines[other] = lines[other], lines[at]
        else:
            place = draw.randint(0, len(lines[at]))
            rest = lines[at][place + draw.randrange(2) :]
            lines[at] = lines[at][:place] + chr(draw.randint(32, 251)) + rest
    return "\n".join(lines)


def joined(text: str) -> str:
    """A text for `check` as the page has it, in two fields: what it has no line `replies` for is a trace."""
    lines = text.split("\n")
    plain = [line.removesuffix("\r") for line in lines]
    at = plain.index("replies") if "replies" in plain else len(lines)
    trace, replies = lines[:at], lines[at + 1 :]
    head = "\n".join(trace)
    return head + ("\n" if head and not head.endswith("\n") else "") + "replies\n" + "\n".join(replies)


def changed_inputs(count: int, seed: int) -> Iterator[tuple[list[str], bytes]]:
    """Changed examples, each with the words of a command."""
    draw = random.Random(seed)
    files = sorted(path for kind in COMMANDS for path in EXAMPLES.glob(f"*.{kind}"))
    if not files:
        raise Bad("there are no examples")
    for _ in range(count):
        path = draw.choice(files)
        text = changed(path.read_text(encoding="utf-8"), draw)
        words = draw.choice(COMMANDS[path.suffix[1:]])
        yield words, (joined(text) if words == ["check"] else text).encode("latin-1")
