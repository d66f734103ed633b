"""A page that answers all the time, whatever it is given.

The page promises that no task of its own thread takes more than a tenth of a second of processor time. The bound
here is larger, since a busy machine makes each step slower too.
"""

import lzma
import tempfile
from collections.abc import Callable
from pathlib import Path
from typing import Any

from common import Bad
from opened import Opened
from tasks import longest_task

MOST_SECONDS = 0.3
MOST_INPUT = 2**24  # bytes that the program doesn't refuse
MOST_LINES = 2**17
GRANT = "order 18\nram 0x0 0x2000000000 0x40000000\nbegin\n"
ENTER = "0 H_ENTER 0x8000000000 0x27 0x1001 0x3012\n"


def loads() -> bytes:
    """As many accesses as a trace may have, each with sixteen receipts of the same entries."""
    head = f"{GRANT}0 slbmte 0x8000000 0x1000\n"
    return (head + "0 load 0x0 priv\n" * (MOST_LINES - head.count("\n"))).encode()


def judged(replies: str) -> bytes:
    """A text to judge, cut to the bytes that aren't refused."""
    return f"{GRANT}{ENTER}replies\n{replies}".encode()[:MOST_INPUT]


BACKWARD = range(2**19, 0, -1)  # stamps of one entry, the last one first

# A name by whose end the command is chosen, what is in the file, and what the status begins with.
INPUTS: tuple[tuple[str, Callable[[], bytes], str], ...] = (
    ("feeds.trace", lambda: b"\n" * MOST_INPUT, "2: line 131073 is refused: lines"),
    ("word.trace", lambda: b"a" * MOST_INPUT, "2: line 1 is refused: word"),
    ("packed.trace.xz", lambda: lzma.compress(b"0 load 0x0 priv\n" * 2**20), "2: line 1 is refused: place"),
    ("loads.trace", loads, "0: done"),
    ("dump.judged", lambda: judged(f"4 0 H_ENTER 0 0x27 | 0x27.0.0.entered\n{' x' * 8}\n" + " x\n" * 2**21), "6: bad"),
    ("backward.judged", lambda: judged("".join(f"4 0 n | 0x27.{at}.0.taken\n" for at in BACKWARD)), "6: bad"),
    ("names.judged", lambda: judged("".join(f"4 0 n{at} 0 | 0x27.0.0.taken\n" for at in range(2**18))), "6: bad"),
    ("spread.judged", lambda: judged("".join(f"4 0 n x | 0x{at:x}.0.0.taken\n" for at in range(2**18))), "6: bad"),
    ("reply.judged", lambda: judged("4 0 H_ENTER 0 0x27 |" + " 0x27.0.0.entered" * 2**20), "6: bad"),
    ("name.judged", lambda: judged("4 0 " + "n" * 2**23 + " 0 | 0x27.0.0.entered\n"), "6: bad"),
    ("words.trace", lambda: b"# x\n" * 4_000, "2: line 4001 is refused: begin"),
)
# What a user does with a part of the page that is shown, as an expression on it.
CLICK, END = "it.click()", "it.scrollTop = it.scrollHeight"
ACTS = (
    ("a line is chosen", "#trace-3, #trace .row", CLICK),
    ("the slider is moved", "#time", "it.value = 3, it.dispatchEvent(new Event('input'))"),
    ("only changes are asked for", "#changes", CLICK),
    ("all receipts are asked for", "#changes", CLICK),
    ("the last row is shown", "#replies", END),
    ("the field is opened", "#trace-edit", CLICK),
    ("the field is closed", "#trace-edit", CLICK),
)


def held(opened: Opened, words: str, work: Callable[[], Any]) -> None:
    """Fails where some work holds the page's thread."""
    longest = longest_task(opened.browser, work)
    if longest > MOST_SECONDS:
        raise Bad(f"{words}: the page's thread was held for {longest:.2f} s")


def act(opened: Opened, selector: str, script: str) -> None:
    """Does what a user does, where that part is shown, and waits until two frames have been drawn."""
    named = f"document.querySelector('{selector}')"
    opened.value(f"((it) => {{ if (it?.checkVisibility()) {{ {script} }} }})({named})")
    opened.value("new Promise((done) => requestAnimationFrame(() => requestAnimationFrame(done)))")


def inputs(opened: Opened) -> None:
    """No input holds the page's thread, neither while it is opened nor when it is looked at."""
    with tempfile.TemporaryDirectory() as folder:
        for name, made, status in INPUTS:
            path = Path(folder) / name
            path.write_bytes(made())
            held(opened, name, lambda path=path: opened.file(path))  # type: ignore[misc]
            found = opened.text("status")
            if not found.startswith(status):
                raise Bad(f"{name}: {found!r} in place of {status!r}")
            for words, *what in ACTS:
                held(opened, f"{name}, {words}", lambda what=what: act(opened, *what))  # type: ignore[misc]


TESTS: list[tuple[str, Callable[[Opened], Any]]] = [
    ("no input holds the page's thread", inputs),
]
