"""Runs of the tools on changed inputs: words, and the files that they name."""

import random
import re
import struct
from dataclasses import dataclass
from pathlib import Path
from typing import Callable, Sequence

from checks.mutations import changed
from checks.running import EXAMPLES
from crates import TOP

DATA = TOP / "tests" / "data"
RECORDED = DATA / "qemu-papr" / "recorded"
NUMBERS = [
    *("0", "1", "0x20", "32", "0x3fd8", "262144", str(2**63), str(2**64), "9" * 30),
    *("x", "", "-1", "\u00b2", "0x_1"),
]
RANGES = ["..", "1..", "..9", "5..1", "4..20", "x", f"{2**64}..", "0x5", ""]
PAGES = ["0x1:0x5", "0x1:", ":", "1", f"{2**64}:1", "0x1:\u00b2"]
ORDERS = ["18", "18", "20", "22", "17", "23", str(2**64), "x"]


def texts(*patterns: str) -> list[bytes]:
    """The files with these names in examples/ and in the tests' data."""
    paths = [path for folder in (EXAMPLES, DATA) for pattern in patterns for path in sorted(folder.glob(pattern))]
    return [path.read_bytes() for path in paths]


REPLIES, TRACES = texts("*.replies"), texts("*.trace")
SETS, IMAGES, LOGS, HTABS = texts("*.set"), texts("*.image-*"), texts("small.log"), texts("*.debugfs")
STREAMS = [bytes.fromhex(re.sub(r"(?m)^#.*$", "", text.decode())) for text in texts("htab.stream.hex")]


@dataclass(frozen=True)
class Case:
    """A tool with its words. Standard input is the text, and what it writes may be this file."""

    tool: str
    words: list[str]
    given: bytes = b""
    written: str = ""


class Cases:
    """Cases that are drawn, whose files are in a folder."""

    def __init__(self, draw: random.Random, folder: Path) -> None:
        self.draw, self.folder = draw, folder

    def file(self, name: str, given: Sequence[bytes]) -> str:
        """A changed text in a file."""
        path = self.folder / name
        path.write_bytes(changed(self.draw, given))
        return str(path)

    def some(self, *options: list[str]) -> list[str]:
        """Some of these options."""
        return [word for option in options if self.draw.random() < 0.2 for word in option]

    def one(self, values: Sequence[str]) -> str:
        """One of these values."""
        return self.draw.choice(values)

    def choice(self) -> list[str]:
        """Some of the options that choose receipts."""
        return self.some(
            ["--lines", self.one(RANGES)],
            ["--page", self.one(PAGES)],
            ["--decode"],
            ["--trace", self.file("trace", TRACES)],
            ["--order", self.one(ORDERS)],
        )

    def receipts(self) -> Case:
        """Tables of receipts."""
        base = str(self.folder / "base")
        form = self.draw.choice([["--csv"], ["--json"], ["--sqlite", base]])
        words = form + self.choice() + self.some(["--replies"], ["--entry", self.one(NUMBERS)])
        return Case("receipts", words, changed(self.draw, REPLIES), base)

    def run_picture(self) -> Case:
        """Pictures of runs."""
        return Case("run-picture", [*self.choice(), self.file("replies", REPLIES)])

    def entry_history(self) -> Case:
        """Pictures of an entry."""
        entry = self.draw.choice(["0x20", "0x27", self.one(NUMBERS)])
        return Case("entry-history", [*self.choice(), *self.some(["--changes"]), entry], changed(self.draw, REPLIES))

    def diff(self) -> Case:
        """A text against another one, or against itself."""
        one = self.file("one", REPLIES)
        other = one if self.draw.random() < 0.5 else self.file("other", REPLIES)
        return Case("diff", [*self.some(["--short"]), one, other])

    def decode(self) -> Case:
        """Words, receipts and files."""
        options = self.some(["--order", self.one(ORDERS)], ["--index", self.one(NUMBERS)])
        kind = self.draw.randrange(4)
        if kind == 0:
            return Case("decode", [*options, "-"], changed(self.draw, REPLIES + TRACES + IMAGES))
        if kind == 1:
            return Case("decode", [*options, "entry", "old", self.one(NUMBERS), "00000000000010010000000000003012"])
        if kind == 2:
            return Case("decode", [*options, f"{self.one(NUMBERS)}.{self.one(NUMBERS)}.0.at"])
        return Case("decode", [*options, self.one(NUMBERS), self.one(NUMBERS)])

    def why(self) -> Case:
        """Refusals: those of the program, or one that is told."""
        reason = self.one(["word", "number", "ascii", "entry", "place", "window", "overlap", "cpu", "lines", "x"])
        told = self.some(["--known", f"line {self.draw.choice([0, 1, 5, 9, 10**25])}: {reason}"])
        is_set = self.draw.random() < 0.3
        lines = [] if is_set else self.some([self.one(RANGES)])
        words = [*(["--set"] if is_set else []), *told, "-", *lines]
        return Case("why", words, changed(self.draw, SETS if is_set else TRACES))

    def groups(self) -> Case:
        """The table at any line."""
        return Case("groups", [*self.some(["--at", self.one(NUMBERS)]), "-"], changed(self.draw, TRACES))

    def bad_line(self) -> Case:
        """Replies of a trace, one of them or both changed."""
        place = self.draw.randrange(len(REPLIES))
        trace = self.file("trace", TRACES[place : place + 1] or TRACES)
        return Case("bad-line", [trace, self.file("replies", REPLIES[place : place + 1])])

    def find_order(self) -> Case:
        """Replies of a trace, one of them or both changed, in a search of few steps."""
        place = self.draw.randrange(len(REPLIES))
        trace, replies = TRACES[place : place + 1] or TRACES, REPLIES[place : place + 1]
        files = [self.file("trace", trace), self.file("replies", replies)]
        steps = self.draw.choice(["100", "10000", self.one(NUMBERS)])
        allowed = self.some(["--allow", self.one(["kvm", "bit-62", "words-of-empty"])])
        return Case("find-order", [*allowed, "--steps", steps, *files])

    def cut_trace(self) -> Case:
        """Traces that are cut."""
        options = self.some(["--lines", self.one(NUMBERS)], ["--before", self.one(NUMBERS)])
        return Case("cut-trace", options, changed(self.draw, TRACES))

    def htab_to_entries(self) -> Case:
        """Tables of KVM."""
        made = str(self.folder / "made")
        form, given = self.draw.choice([("--debugfs", HTABS), ("--stream", STREAMS)])
        words = [form, *self.some(["-o", made], ["--big-endian"], self.grant(), ["--order", self.one(ORDERS)])]
        return Case("htab-to-entries", words, changed(self.draw, given), made)

    def qemu_log_to_trace(self) -> Case:
        """Logs of QEMU."""
        made = str(self.folder / "made")
        numbers = [["--skip", self.one(NUMBERS)], ["--calls", self.one(NUMBERS)], ["--limit", self.one(ORDERS)]]
        words = self.some(["-o", made], ["--long"], ["--as-recorded"], self.grant(), *numbers)
        return Case("qemu-log-to-trace", words, changed(self.draw, LOGS), made)

    def grant(self) -> list[str]:
        """An option that grants memory."""
        kind = self.one(["--ram", "--io"])
        if self.draw.random() < 0.7:
            return [kind, "0x0", "0x2000000000", "0x40000000"]
        bounds = ["0x0", "0x1000", "0x2000000000", "0x1000000000", str(2**60), self.one(NUMBERS)]
        return [kind, *(self.one(bounds) for _ in range(3))]

    def judge_recording(self) -> Case:
        """Recordings, of which some words are others."""
        paths = sorted(self.draw.choice(sorted(RECORDED.iterdir())).iterdir())
        other = self.draw.choice(paths)
        for path in paths:
            data = path.read_bytes()
            if path == other:
                data = changed(self.draw, [data]) if path.suffix == ".head" else self.changed_words(data)
            (self.folder / path.name).write_bytes(data)
        return Case("judge-recording", [*self.some(["--first", self.one(NUMBERS)], ["--unjudged"]), str(self.folder)])

    def changed_words(self, data: bytes) -> bytes:
        """An actor's words, some of them changed, or cut off."""
        words = list(struct.unpack(f"={len(data) // 8}Q", data))
        for _ in range(self.draw.choice([0, 0, 1, 4])):
            place = self.draw.randrange(len(words))
            words[place] = self.draw.choice([self.draw.getrandbits(64), words[place] ^ 1 << self.draw.randrange(64), 0])
        end = self.draw.randrange(len(words)) if self.draw.random() < 0.2 else len(words)
        return struct.pack(f"={end}Q", *words[:end])

    def any(self) -> Case:
        """A case of some tool."""
        kinds: list[Callable[[], Case]] = [
            *(self.receipts, self.run_picture, self.entry_history, self.diff, self.decode, self.why, self.bad_line),
            self.groups,
            *(self.find_order, self.cut_trace, self.htab_to_entries, self.qemu_log_to_trace, self.judge_recording),
        ]
        return self.draw.choice(kinds)()
