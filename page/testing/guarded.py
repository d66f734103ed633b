"""What texts, files and addresses from elsewhere can't do to the page."""

import gzip
import lzma
import re
import tempfile
from collections.abc import Callable
from pathlib import Path
from typing import Any

from common import Bad
from crates import TOP
from opened import IS_DONE, Opened

TRACE = "order 18\nram 0x0 0x2000000000 0x40000000\nbegin\n0 H_ENTER 0x8000000000 0x27 0x1001 0x3012\n"
BAD = "6: bad section 1"
MOST_UNPACKED = 2**27  # bytes that the page takes of a file
TOO_MUCH = "the file holds more than papr takes"
FIRST = "sharing.trace"  # what the page opens with


def need(found: object, wanted: object, words: str) -> None:
    """Fails where something else was found."""
    if found != wanted:
        raise Bad(f"{words}: {str(found)[:300]!r} in place of {str(wanted)[:300]!r}")


def most_entries() -> int:
    """The entries of the largest table that a trace may have, by FORMATS.md: of 2^S bytes, 16 each."""
    formats = (TOP / "docs" / "FORMATS.md").read_text(encoding="utf-8")
    found = re.search(r"^\| `order S` .* \| 18 to (\d+) \|$", formats, re.MULTILINE)
    if found is None:
        raise Bad("FORMATS.md has no line `order S`")
    return 1 << (int(found[1]) - 4)


def judge(opened: Opened, receipts: str) -> None:
    """Opens a text to judge, whose reply has these receipts and isn't good."""
    opened.trace(f"{TRACE}replies\n4 0 H_ENTER 0 0x27 | {receipts}\n", "judged")


def far_entries(opened: Opened) -> None:
    """The last entry that a table has is in the pictures; those beyond it are listed alone."""
    last = most_entries() - 1
    judge(opened, f"{last:#x}.0.0.entered")
    need(opened.text("status"), BAD, "the last entry")
    need(opened.value("document.getElementById('entry').value"), f"{last:#x}", "the entry that is looked at")
    need(opened.text("history-label"), "1 receipt", "its history")
    for entry in (last + 1, 0x3FFFFFFF, 0xFFFFFFFF, 0x100000027):
        judge(opened, f"{entry:#x}.0.0.entered 0x27.0.0.entered 0x27.1.0.taken")
        need(opened.text("status"), BAD, f"{entry:#x}")
        need(opened.text("history-label"), "2 receipts", f"{entry:#x}: the history of 0x27")
        label = opened.text("busiest").partition(": ")[2]
        need(label, "0x20 (2)", f"{entry:#x}: the busiest groups")
        opened.click_line(4)
        need(opened.count("#map .ring"), 1, f"{entry:#x}: rings")
        need(opened.count(".chip"), 3, f"{entry:#x}: receipts of the line")
        judge(opened, f"{entry:#x}.0.0.entered")
        need(opened.text("status"), BAD, f"{entry:#x} alone")
        need(opened.value("document.getElementById('pictures').hidden"), True, f"{entry:#x} alone: no pictures")


def failing_pictures(opened: Opened) -> None:
    """Where the pictures can't be drawn, the verdict and the lists stay, and the page says so below."""
    judge(opened, "0x27.1.0.entered")
    opened.value(
        "Object.defineProperty(document.getElementById('map'), 'innerHTML',"
        " { configurable: true, set() { throw new RangeError('no room'); } })"
    )
    opened.command("check")
    need(opened.text("status"), BAD, "the verdict")
    need(opened.shown("replies"), ["4 0 H_ENTER 0 0x27 | 0x27.1.0.entered"], "the list")
    need(opened.value("document.getElementById('pictures').hidden"), True, "the pictures are hidden")
    need(opened.text("no-pictures"), "The pictures aren't drawn: no room.", "below the lists")
    opened.value("delete document.getElementById('map').innerHTML")
    opened.command("check")
    need(opened.value("document.getElementById('no-pictures').hidden"), True, "the words are gone")
    need(opened.count("#map svg"), 1, "the map is drawn again")


def failing_lists(opened: Opened) -> None:
    """Where the lists can't be shown, the verdict stays."""
    judge(opened, "0x27.1.0.entered")
    opened.value(
        "Object.defineProperty(document.getElementById('right-size'), 'textContent',"
        " { configurable: true, set() { throw new RangeError('no room'); } })"
    )
    opened.begin()
    opened.press("go")
    opened.await_run()
    opened.value("delete document.getElementById('right-size').textContent")
    need(opened.text("status"), BAD, "the verdict")
    need(opened.texts("#told p")[-1], "The lists aren't shown: no room.", "below the verdict")


def bad_fragments(opened: Opened) -> None:
    """A fragment that isn't well formed, or names nothing, opens the first example; the page stays usable."""
    for place in ("#%", "#%E0%A4%A", "#nothing.trace/run", "#__proto__/run", "#first.trace%/run", f"#{'a' * 100_000}"):
        opened.open(place)
        need((opened.text("status"), opened.text("name")), ("0: done", FIRST), place[:40])
    opened.open("#first")
    for place, name in (("#%", FIRST), ("#cache", "cache.trace"), ("#%zz/run", FIRST)):
        opened.begin()
        opened.value(f"location.hash = '{place}'")
        opened.browser.wait(f"{IS_DONE} && document.getElementById('name').textContent === '{name}'")
        need(opened.text("status"), "0: done", f"the fragment becomes {place}")
    opened.open()


def large_files(opened: Opened) -> None:
    """A packed file is given up at the bound, before its end is read; one of just that size is read."""
    whole, more = bytes(MOST_UNPACKED), bytes(MOST_UNPACKED + 2**26)
    packed = bytearray(gzip.compress(more, 9))
    packed[-8] ^= 1  # its sum is wrong, which is known only at its end
    cases = (
        ("a.trace.gz", bytes(packed), f"a.trace.gz: {TOO_MUCH}"),
        ("b.trace.xz", lzma.compress(more, preset=0), f"b.trace.xz: {TOO_MUCH}"),
        ("c.trace", more, f"c.trace: {TOO_MUCH}"),
        ("d.trace.gz", gzip.compress(whole, 1), "2: line 0 is refused: long"),
    )
    with tempfile.TemporaryDirectory() as folder:
        for name, data, status in cases:
            path = Path(folder) / name
            path.write_bytes(data)
            opened.file(path)
            need(opened.text("status"), status, name)
    opened.open()


TESTS: list[tuple[str, Callable[[Opened], Any]]] = [
    ("entries that no table has", far_entries),
    ("pictures that can't be drawn", failing_pictures),
    ("lists that can't be shown", failing_lists),
    ("addresses that name nothing", bad_fragments),
    ("files that hold too much", large_files),
]
