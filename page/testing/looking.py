"""What a user sees and does: marks, words of refusals, keys, fields, files, and a page that stays alive."""

import gzip
import importlib.machinery
import importlib.util
import lzma
import sys
import tempfile
from collections.abc import Callable
from pathlib import Path
from typing import Any

import grants
from common import Bad
from crates import TOP
from opened import IS_DONE, Opened
from refusals import Refused, form_of, rules_of

EXAMPLES = TOP / "examples"
CONTROL = 2
ENTER, DOWN, UP, HOME, END = ("Enter", 13), ("ArrowDown", 40), ("ArrowUp", 38), ("Home", 36), ("End", 35)
# A trace with each reason that one line can show, and the line that is refused.
HEAD = "order 18\nram 0x0 0x2000000000 0x40000000\n"
REFUSED = (
    ("order 18\nrom 1\n", 2, "word"),
    ("order 18\norder 18\n", 2, "place"),
    ("order\n", 1, "count"),
    ("order x\n", 1, "number"),
    ("order 99\n", 1, "range"),
    ("ram 0x0 0x1 0x1000\n", 1, "unaligned"),
    ("ram 0x0 0x0 0\n", 1, "empty"),
    (HEAD + "ram 0x0 0x3000000000 0x1000\n", 3, "overlap"),
    (HEAD + "begin\n7 load 0x0 priv\n", 4, "cpu"),
    (HEAD + "begin\n0 load 0x0 both\n", 4, "mode"),
    (HEAD + "begin\n0 H_PROTECTED 1 2\n", 4, "word"),
    (HEAD + "begin\n0 H_PROTECT 1 2\n", 4, "count"),
    (HEAD + "entry old 0x20 12\n", 3, "entry"),
    ("window 0x1 0x1 0x10\n", 1, "window"),
    ("order 18\n", 2, "begin"),
    ("#\tümlaut\n", 1, "ascii"),
)
# Doublewords worked out by hand of docs/FORMATS.md and the Power ISA's fields, each with the layout and the
# index, and what has to stand there. The first: a page of 4 KB in segment 1, at 0x5000, since its group is 4,
# and 4 is 5 xor 1.
OFFSET, PROTECTION, ADDRESS = "offset in the segment", "protection (PP)", "logical address"
NO_SEGMENT = "none: B is above 1, or no page of that size lies where the tag says"
OTHER_GROUP = "none: the page's group isn't the one of this index"
ENTRIES = (
    ("0x1001", "0x3012", "old", "0x20", {"VSID": "0x1", "page": "4 KB", ADDRESS: "0x3000", OFFSET: "0x5000"}),
    ("0x1001", "0x3012", "old", "0x20", {"W, I, M, G": "M", "bolted": "no", "group (H)": "primary"}),
    ("0x1001", "0x3012", "old", "0x20", {PROTECTION: "2: key 0 read and write, key 1 read and write"}),
    ("0x1013", "0x80000000000031f8", "old", "", {"bolted": "yes", "group (H)": "secondary"}),
    ("0x1013", "0x80000000000031f8", "old", "", {"referenced (R)": "yes", "changed (C)": "yes"}),
    ("0x1013", "0x80000000000031f8", "old", "", {"W, I, M, G": "W I M G", "fetches refused (N, G)": "yes"}),
    ("0x1013", "0x80000000000031f8", "old", "", {PROTECTION: "4: key 0 nothing, key 1 nothing"}),
    ("0x1013", "0x80000000000031f8", "old", "", {OFFSET: "known with the entry's index"}),
    ("0x1003", "0x3012", "old", "0x3fd8", {OFFSET: "0x5000"}),
    ("0x1005", "0x2000000000402c12", "old", "0x20", {"page": "none: no page size is encoded", ADDRESS: "–"}),
    ("0x1005", "0x2000000000402c12", "old", "0x20", {"key of AMR and IAMR": "22"}),
    ("0x1005", "0x11012", "old", "0x20", {"page": "64 KB", ADDRESS: "0x10000", OFFSET: "0x50000"}),
    ("0x1005", "0x17012", "old", "0x20", {"page": "4 KB inside 64 KB", ADDRESS: "0x10000"}),
    ("0x1005", "0x38012", "old", "0x20", {"page": "4 KB inside 16 MB", ADDRESS: "0x0"}),
    ("0x1005", "0x1008012", "old", "0x20", {"page": "64 KB inside 16 MB", ADDRESS: "0x1000000"}),
    ("0x1005", "0x2000012", "old", "0x8", {"page": "16 MB", ADDRESS: "0x2000000", OFFSET: "0x0"}),
    ("0x1005", "0x2000012", "old", "", {"page": "16 MB", ADDRESS: "0x2000000", OFFSET: "0x0"}),
    ("0x1005", "0x2000012", "old", "0x20", {"page": OTHER_GROUP, "VSID": "–"}),
    ("0x1001", "0x3012", "old", "0x40000000", {"page": "none: no table has this index"}),
    ("0x1000001", "0x0400000000003012", "new", "", {"segment (B)": "1 TB", "VSID": "0x1"}),
    ("0x4000000001000001", "0x3012", "old", "", {"segment (B)": "1 TB", "VSID": "0x1"}),
    ("0x8000000000001001", "0x3012", "old", "", {"page": NO_SEGMENT, "segment (B)": "–", "valid (V)": "yes"}),
    ("0x1000", "0x3012", "old", "0x20", {"page": "none: V is clear", "valid (V)": "no"}),
)


def tool(name: str) -> Any:
    """A tool's functions."""
    loader = importlib.machinery.SourceFileLoader(name, str(TOP / "tools" / name))
    spec = importlib.util.spec_from_loader(name, loader)
    if spec is None:
        raise Bad(f"no tool {name}")
    module = importlib.util.module_from_spec(spec)
    sys.modules[name] = module
    loader.exec_module(module)
    return module


def need(holds: object, words: str) -> None:
    """Fails with these words."""
    if not holds:
        raise Bad(words)


def shows(opened: Opened, status: str, words: str = "") -> None:
    """The page's status is this one."""
    found = opened.text("status")
    need(found == status, f"{words}: {found!r} in place of {status!r}")


def refusals(opened: Opened) -> None:
    """A refused line is marked at its place, with its rule and its form as FORMATS.md has them."""
    formats = (TOP / "docs" / "FORMATS.md").read_text(encoding="utf-8")
    for text, line, reason in REFUSED:
        opened.trace(text)
        shows(opened, f"2: line {line} is refused: {reason}", repr(text))
        told = opened.texts("#told p")
        lines = text.split("\n")[:-1]
        refused = Refused(line, reason, lines, "run")
        wanted = [f"rule: {rules_of(formats, refused)}"]
        if line <= len(lines):
            wanted.append(f"form: {form_of(formats, refused)}")
            need("refused" in opened.classes("trace", line), f"line {line} isn't marked in {text!r}")
            need(opened.count("#trace .refused") == 1, f"{text!r}: marks")
        need(told == wanted, f"{text!r}: {told} in place of {wanted}")
    opened.trace("#" * (2**24 + 1))
    shows(opened, "2: line 0 is refused: long")
    need(opened.texts("#trace .refused") == [""], "a line is marked, and none is refused")
    opened.trace(REFUSED[-1][0])
    beside = opened.shown("replies")
    need(beside == ["papr: line 1: ascii"], f"beside the last one: {beside}")


def set_refusals(opened: Opened) -> None:
    """Of a set the rules and forms are a set's."""
    formats = (TOP / "docs" / "FORMATS.md").read_text(encoding="utf-8")
    for text, reason in (("9 order 18\n", "lpar"), ("0 order\n", "count"), ("shared 1\n", "count")):
        line = 1
        opened.trace(text, "set")
        told = opened.texts("#told p")
        refused = Refused(line, reason, [text.strip()], "set")
        wanted = [f"rule: {rules_of(formats, refused)}", f"form: {form_of(formats, refused)}"]
        shows(opened, f"2: line {line} is refused: {reason}", repr(text))
        need(told == wanted, f"{text!r}: {told} in place of {wanted}")


def line_by_line(opened: Opened) -> None:
    """A click on a line marks it and its reply, lists its receipts, rings their groups, marks the history."""
    opened.example("sharing.trace")
    opened.click_line(27)
    need("selected" in opened.classes("trace", 27), "line 27 isn't marked")
    reply = opened.value(f"{opened.row('replies', 27)}.textContent")
    need(reply.startswith("27 1 load nopage walk | 0x20.5.0.nomatch"), f"beside line 27: {reply}")
    need("selected" in opened.classes("replies", 27), "the reply of line 27 isn't marked")
    chips = opened.texts(".chip")
    receipts = reply.partition(" | ")[2].split()
    need(chips == [f"{it.split('.')[0]} {it.split('.')[3]}" for it in receipts], f"receipts {chips}")
    need(opened.count("#map .ring") == 2, "two groups aren't ringed")
    need(opened.count("#history .here") == 1, "the history isn't marked")
    opened.browser.click("document.querySelectorAll('.chip')[3]")
    need(opened.value("document.getElementById('entry').value") == "0x23", "a receipt's entry isn't chosen")
    need(opened.count("#replies .touches") == 1, "its one line isn't marked")
    opened.browser.click("document.querySelector('#history .mark[data-line]')")
    need(opened.text("line-number") == "Line 27", "the history's mark doesn't lead to its line")


def entries_apart(opened: Opened) -> None:
    """An entry of a window, or of another partition, is another one than the page table's with its number."""
    opened.example("dma.trace")
    opened.goto(30)
    need(opened.count("#replies .touches") == 1, "a window's entry is marked with the table's")
    opened.example("two-partitions.set")
    for line, part, count in ((20, "1", 3), (21, "0", 3)):
        opened.goto(line)
        need(opened.value("document.getElementById('part').value") == part, f"line {line}: another partition")
        found = opened.count("#replies .touches")
        need(found == count, f"line {line}: {found} marks")


def dumps(opened: Opened) -> None:
    """A dump's entries stand below its line, and an entry that is clicked is told in words."""
    opened.example("resize.trace")
    row = "[...document.querySelectorAll('#replies .row')].find((it) => it.textContent.startsWith(' 0x21 '))"
    place = int(opened.value(f"{row}.dataset.row"))
    need(opened.text(f"trace-{place}") == "", "beside an entry stands a line")
    opened.browser.click(row)
    need(opened.text("line-number") == "Line 11", "the entry's dump isn't chosen")
    need(opened.value("document.getElementById('dword0').value") == "0x1001", "its doublewords aren't shown")


def verdicts(opened: Opened) -> None:
    """The section that no good run explains is marked, on both sides; a good text has no mark."""
    opened.example("bad-stale-byte.judged")
    shows(opened, "6: bad section 1")
    for side in ("trace", "replies"):
        need(opened.count(f"#{side} .section") > 5, f"no section in {side}")
    dump = "3 dump table 0 order 18 place 0x1000000000 entries 0\n"
    opened.trace(f"order 18\nbegin\ndump\n0 slbclear\nreplies\n{dump}", "judged")
    shows(opened, "6: bad section 2")
    need(opened.count("#trace .section") == 1, "more than line 4 is marked")
    need("section" in opened.classes("trace", 4), "line 4 isn't marked")
    opened.example("good-schedule.judged")
    shows(opened, "0: good")
    need(opened.count(".section") == 0, "a good text has a mark")


def changed_and_judged(opened: Opened) -> None:
    """The replies of a run can be judged as they are, and with a change."""
    opened.example("first.trace")
    opened.command("check")
    shows(opened, "0: good")
    opened.press("replies-edit")
    text = str(opened.value("document.getElementById('replies-field').value"))
    need("0x27.1.0.taken" in text, f"the field has {text!r}")
    opened.put("replies-field", text.replace("0x27.1.0.taken", "0x27.2.0.taken"))
    opened.command("check")
    shows(opened, "6: bad section 1")


def keys(opened: Opened) -> None:
    """Lines are chosen by keys, a changed trace is run by Control and Enter."""
    opened.example("first.trace")
    opened.value("document.getElementById('trace').focus()")
    for key, line in ((DOWN, 1), (DOWN, 2), (UP, 1), (END, 5), (HOME, 1)):
        opened.browser.key(*key)
        need(opened.text("line-number") == f"Line {line}", f"{key[0]}: {opened.text('line-number')}")
    active = opened.value("document.getElementById('trace').getAttribute('aria-activedescendant')")
    need(active == "trace-0", f"the chosen row is {active}")
    opened.press("trace-edit")
    text = (EXAMPLES / "first.trace").read_text(encoding="ascii")
    opened.put("trace-field", f"{text}0 slbclear\n")
    opened.begin()
    opened.browser.key(*ENTER, modifiers=CONTROL)
    opened.await_run()
    need(opened.shown("replies")[-1] == "6 0 slbclear ok", f"the last reply is {opened.shown('replies')[-1]}")


def by_address(opened: Opened) -> None:
    """page.html#example/command opens with an example; a third part chooses a line."""
    for place, status, line in (
        ("#bad-torn-read.judged/check", "6: bad section 1", ""),
        ("#image-new.trace/image%20new", "0: done", ""),
        ("#first/run/5", "0: done", "Line 5"),
        ("#drill%201%20100", "0: done", ""),
    ):
        opened.open(place)
        opened.browser.wait(f"document.getElementById('line-number').textContent === '{line}'")
        need(opened.text("status") == status, f"{place}: {opened.text('status')}")
    opened.open()


def files(opened: Opened) -> None:
    """Files that are dropped: plain, packed by gzip and by xz, and one that is broken."""
    text = (EXAMPLES / "first.trace").read_bytes() + b"0 slbclear\n"
    broken = bytearray(lzma.compress(text))
    broken[40] ^= 0x55
    cases = {"a.trace": text, "b.trace.gz": gzip.compress(text), "c.trace.xz": lzma.compress(text), "d": text}
    with tempfile.TemporaryDirectory() as folder:
        for name, data in cases.items():
            path = Path(folder) / name
            path.write_bytes(data)
            opened.example("sharing.trace")
            opened.begin()
            opened.browser.drop(path, "document.getElementById('trace')")
            opened.await_run()
            need(opened.shown("replies")[-1] == "6 0 slbclear ok", f"{name}: {opened.text('status')}")
            need(opened.text("name") == name, f"the name is {opened.text('name')}")
        path = Path(folder) / "e.trace.xz"
        path.write_bytes(broken)
        opened.browser.drop(path, "document.getElementById('trace')")
        status = "document.getElementById('status').textContent"
        opened.browser.wait(f"{status}.startsWith('e.trace.xz: the file is')")


def entries(opened: Opened) -> None:
    """An entry in words, against values worked out by hand."""
    for dword0, dword1, layout, index, wanted in ENTRIES:
        for name, value in (("dword0", dword0), ("dword1", dword1), ("layout", layout), ("index", index)):
            opened.put(name, value)
        found = dict(zip(opened.texts("#fields th"), opened.texts("#fields td")))
        for name, words in wanted.items():
            need(found[name] == words, f"{dword0} {dword1}: {name} is {found[name]!r}, not {words!r}")


def entries_by_tool(opened: Opened) -> None:
    """The pages of the boot's entries, against what tools/grants.py finds in the same doublewords."""
    text = lzma.decompress((EXAMPLES / "linux-boot.trace.xz").read_bytes()).decode("ascii")
    given = sorted({tuple(it.split()[4:6]) for it in text.splitlines() if " H_ENTER " in it})[::97]
    names = {12: "4 KB", 16: "64 KB", 24: "16 MB", 34: "16 GB"}
    for dword0, dword1 in given:
        for name, value in (("dword0", dword0), ("dword1", dword1), ("layout", "old"), ("index", "")):
            opened.put(name, value)
        words = opened.texts("#fields td")
        shift = grants.actual_shift(int(dword0, 16), int(dword1, 16))
        page = grants.entered_page(int(dword0, 16), int(dword1, 16))
        need(shift in names and page is not None, f"the tool finds no page in {dword0} {dword1}")
        start = page[1][0] if page else 0
        need(words[5] == f"{start:#x}", f"{dword0} {dword1}: {words[5]}, and the tool has {start:#x}")
        need(words[4].split(" inside ")[-1] == names[shift or 0], f"{dword0} {dword1}: {words[4]}, {shift}")


def behind_a_line(opened: Opened) -> None:
    """An entry as the table has it behind a line is the image of the trace up to there."""
    opened.example("sharing.trace")
    opened.click_line(14)
    opened.press("behind")
    opened.browser.wait("document.getElementById('entry-from').textContent.includes('after line 14')")
    words = opened.value("['dword0', 'dword1', 'index'].map((it) => document.getElementById(it).value)")
    need(words == ["0x1011", "0x3192", "0x20"], f"after line 14: {words}")


def narrow(opened: Opened) -> None:
    """At 360 pixels nothing stands beyond the edge."""
    opened.browser.size(360, 700)
    try:
        for name in ("sharing.trace", "refused.trace", "bad-torn-read.judged", "two-partitions.set"):
            opened.example(name)
            width = opened.value("document.documentElement.scrollWidth")
            need(width <= 360, f"{name} is {width} pixels wide")
    finally:
        opened.browser.size(1_400, 1_000)


def long_run(opened: Opened) -> None:
    """In a run with 43 MB of replies the page answers all the time, draws little, and shows the last line."""
    head = "order 18\ncpus 4\nram 0x0 0x2000000000 0x40000000\nbegin\n0 slbmte 0x8000000 0x1000\n"
    count = 2**17 - 5
    lines = "".join(f"0 load {(at * 4096) & 0xFFFFFFF:#x} priv\n" for at in range(count))
    with tempfile.NamedTemporaryFile("w", suffix=".trace", encoding="ascii") as file:
        file.write(head + lines)
        file.flush()
        opened.value(
            "window.ticks = 0; window.ticking = setInterval(() => {"
            "window.ticks += document.body.dataset.state === 'running' ? 1 : 0; }, 10)"
        )
        opened.file(Path(file.name))
    opened.value("clearInterval(window.ticking)")
    need(opened.status() == 0, opened.text("status"))
    need(opened.count(".row") < 250, "more rows are drawn than seen")
    ticks = opened.value("window.ticks")
    need(ticks > 10, f"the page stood still while the program ran: {ticks} ticks")
    opened.value("document.getElementById('trace').focus()")
    opened.browser.key(*END)
    last, line = opened.shown("replies")[-1], opened.shown("trace")[-1]
    need(last.startswith("131072 0 load nopage walk | "), last[:60])
    need(line.startswith("131072 0 load "), line)


def stopped(opened: Opened) -> None:
    """A run can be stopped, and the next one runs."""
    opened.put("lines", "100000")
    opened.begin()
    opened.value("document.querySelector('input[value=drill]').click()")
    opened.value("['go', 'stop'].forEach((it) => document.getElementById(it).click())")
    opened.browser.wait(IS_DONE)
    shows(opened, "stopped")
    opened.example("first.trace")
    shows(opened, "0: done")


TESTS: list[tuple[str, Callable[[Opened], Any]]] = [
    ("refused lines are marked and explained", refusals),
    ("refused lines of a set", set_refusals),
    ("line against line", line_by_line),
    ("entries that have a number in common", entries_apart),
    ("dumps stand below their lines", dumps),
    ("verdicts mark their sections", verdicts),
    ("replies that are changed and judged", changed_and_judged),
    ("keys", keys),
    ("examples by the page's address", by_address),
    ("files that are dropped", files),
    ("entries in words", entries),
    ("entries in words as the tools read them", entries_by_tool),
    ("an entry behind a line", behind_a_line),
    ("a narrow page", narrow),
    ("a run can be stopped", stopped),
    ("a long run", long_run),
]
