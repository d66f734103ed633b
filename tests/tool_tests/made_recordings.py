"""Recordings for tests: written here word by word, as the head of papr-record.h describes them, or by QEMU's files for
papr, which four threads use without a QEMU.
"""

import shutil
import struct
from pathlib import Path
from typing import Sequence

from .support import DATA, LIBRARY, SHARED_TABLE, TOOLS, TOP, Ran, ToolTest, run

OWN = TOOLS / "qemu-papr"
JUDGE = OWN / "judge-recording"
THREADS = DATA / "qemu-papr" / "threads"
HEADERS = ("qemu/error-report.h", "qemu/thread.h", "qemu/atomic.h", "qemu/timer.h", "cpu.h", "hw/ppc/spapr.h")
CALL, WALK, MASKS, MARK, PART, END = range(1, 7)
H_REMOVE, H_ENTER, H_PROTECT, H_BULK_REMOVE, PREPARE, COMMIT = 0x04, 0x08, 0x18, 0x124, 0x36C, 0x370
ANSWERS = "entered taken removed protected was read notfound nomatch denied at worn masked".split()
LOAD, STORE, FETCH = range(3)
AT, DENIED, NO_PAGE = range(3)
USER = 1 << 40

# A segment of 256 MB with VSID 1, its page 5, and the entries of the page's groups in a table of order 18.
SEGMENT, PAGE, FRAME = 0x1000, 0x5000, 0x3000
PRIMARY, SECONDARY = range(0x20, 0x28), range(0x3FD8, 0x3FE0)
HEAD = """order 18
limit 22
cpus 2
ram 0x0 0x2000000000 0x40000000
begin
"""
ENTERED = "entry old 0x20 00000000000010010000000000003112\n"


def receipt(text: str) -> int:
    """The word of a receipt, which is written as replies show it."""
    entry, stamp, bits, answer = text.split(".")
    return ANSWERS.index(answer) << 60 | int(bits) << 56 | int(stamp) << 24 | int(entry, 16)


class Recording:
    """A recording with two actors, in the order in which its records were made."""

    def __init__(self, has_places: bool = False) -> None:
        """Nothing yet. The heads may say at which words the parts begin."""
        self.has_places = has_places
        self.words: list[list[int]] = [[], []]
        self.heads: list[str] = []
        self.clock = self.marks = 0

    def put(self, actor: int, header: int, words: Sequence[int], receipts: str = "", late: int = 0) -> None:
        """One record; the clock may be read late."""
        made = [receipt(text) for text in receipts.split()]
        self.clock += 10
        self.words[actor] += [header | len(made) << 8, self.clock + late, *words, *made]

    def part(self, head: str = HEAD) -> None:
        """A new part."""
        places = f"# begins at {' '.join(str(len(words)) for words in self.words)}\n" if self.has_places else ""
        self.heads.append(places + head)
        for actor in range(2):
            self.put(actor, PART, [len(self.heads)])

    def mark(self) -> None:
        """A quiet point."""
        self.marks += 1
        for actor in range(2):
            self.put(actor, MARK, [self.marks])

    def call(
        self,
        actor: int,
        number: int,
        args: Sequence[int],
        code: int,
        told: Sequence[int] = (),
        receipts: str = "",
        late: int = 0,
    ) -> None:
        """A call, with its code and words."""
        words = [number, code % 2**64, *args, *[0] * (8 - len(args)), *told]
        self.put(actor, CALL | len(told) << 16, words, receipts, late)

    def walk(self, actor: int, want: int, ea: int, outcome: int, receipts: str, mode: int = 0, late: int = 0) -> None:
        """A walk in the segment."""
        logical = FRAME + ea % 4096 if outcome == AT else 0
        header = WALK | outcome << 16 | want << 24 | 12 << 32 | mode
        self.put(actor, header, [ea, SEGMENT, logical], receipts, late)

    def quiet(self, actor: int, number: int, shift: int, code: int) -> None:
        """A resize call, alone."""
        self.mark()
        self.call(actor, number, [0, shift], code)
        self.mark()

    def end(self) -> None:
        """The end."""
        for actor in range(2):
            self.put(actor, END, [0])

    def write(self, folder: Path) -> None:
        """The files of the recording."""
        for number, head in enumerate(self.heads, 1):
            (folder / f"part-{number}.head").write_text(head, encoding="ascii")
        for actor, words in enumerate(self.words):
            (folder / f"actor-{actor}").write_bytes(struct.pack(f"={len(words)}Q", *words))


def no_match(stamp: int) -> str:
    """The receipts of a walk that finds nothing; the first entry has changed so often."""
    entries = [*PRIMARY, *SECONDARY]
    return " ".join(f"{entry:#x}.{stamp if entry == PRIMARY[0] else 0}.0.nomatch" for entry in entries)


def enter(recording: Recording, late: int = 0) -> None:
    """An H_ENTER of the page by actor 0."""
    recording.call(0, H_ENTER, [0, 0x20, 0x1001, 0x3012], 0, [0x20], "0x20.0.0.entered", late)


def two_parts(it: Recording) -> None:
    """Two processors, a stale translation that is noticed, a resize, and a second part."""
    enter(it)
    it.walk(1, LOAD, PAGE, AT, "0x20.1.0.at")
    it.walk(1, STORE, PAGE, AT, "0x20.1.2.at")
    it.call(0, H_REMOVE, [0, 0x20, 0], 0, [0x1001, 0x3192], receipts="0x20.1.3.removed")
    it.walk(1, LOAD, PAGE, NO_PAGE, no_match(2))
    it.quiet(0, PREPARE, 18, 0)
    it.quiet(1, COMMIT, 18, 0)
    enter(it)
    it.walk(1, LOAD, PAGE, AT, "0x20.1.0.at")
    it.part(HEAD.replace("begin", f"{ENTERED}begin"))
    it.walk(0, LOAD, PAGE, AT, "0x20.0.2.at")


class RecordingTest(ToolTest):
    """A test of a recording."""

    def setUp(self) -> None:
        """Makes its folders, and begins its first part."""
        super().setUp()
        self.recorded, self.parts = self.folder / "recorded", self.folder / "parts"
        self.recorded.mkdir()
        self.parts.mkdir()
        self.it = Recording()
        self.it.part()

    def convert(self, *words: str) -> Ran:
        """Ends the recording and writes it, and runs the tool on it."""
        self.it.end()
        self.it.write(self.recorded)
        return run(JUDGE, self.recorded, "--parts", self.parts, *words)

    def text(self, kind: str, part: int = 1) -> str:
        """A part's trace behind its head, or its replies."""
        text = (self.parts / f"part-{part}.{kind}").read_text(encoding="ascii")
        return text.partition("begin\n")[2] if kind == "trace" else text

    def assert_written(self, trace: str, replies: str) -> None:
        """What is made of the recording."""
        self.assert_ran(self.convert("--unjudged"), out=None)
        self.assert_text(self.text("trace"), trace)
        self.assert_text(self.text("replies"), replies)


class ThreadsTest(ToolTest):
    """A test of recordings of four threads that call and walk at once."""

    def setUp(self) -> None:
        """Compiles the program, with empty files in the place of QEMU's headers."""
        super().setUp()
        for name in HEADERS:
            (self.folder / name).parent.mkdir(parents=True, exist_ok=True)
            (self.folder / name).touch()
        shutil.copy(OWN / "papr-hooks.h", self.folder / "hw" / "ppc")
        self.program, self.recorded, self.parts = (self.folder / name for name in ("threads", "recorded", "parts"))
        self.recorded.mkdir()
        self.parts.mkdir()
        flags = [f"-I{folder}" for folder in (self.folder, THREADS, OWN, TOP / "include")]
        sources = [THREADS / "threads.c", OWN / "papr-table.c", OWN / "papr-record.c", LIBRARY, SHARED_TABLE]
        words = ("-O1", "-Wall", "-Wextra", "-Werror", *flags, "-o")
        self.assert_ran(run("cc", *words, self.program, *sources, "-lpthread"))
