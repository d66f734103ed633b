"""Each allocation refused in turn, as a table in docs/HOSTILE.md.

Runs the program on traces with a store and an H_PROTECT, with resizes, of two and of three processors under `par`,
with a dump, on a refused trace, a set, drills and wrong words, with the first allocation refused, then the second, and
so on until none is. Each run has to end with status 5 and nothing written, or as it ends where none is refused.
Compares how many allocations were refused for each, and which of them the program did without, with the table.

An allocation is a call of malloc, calloc, realloc or an aligned one, by the program or by its C library: a
small library that counts them (refuse.c) is compiled by `cc` and loaded before the others. --try does the
same for these numbers by `rt try --fail-alloc`, which counts what the program itself asks for and builds it
anew for each.
"""

import argparse
import os
import re
import shutil
import subprocess
import tempfile
from concurrent.futures import ThreadPoolExecutor
from dataclasses import dataclass
from pathlib import Path
from typing import Callable, Optional

from checks.page import Table, add_write
from checks.running import EXAMPLES, Ended, Failed, Program, add_program, program_of
from crates import CRATES, TOP

TABLE = Table(TOP / "docs" / "HOSTILE.md", "fail-alloc")
HEAD = [
    "| what | command | allocations refused | status 5, nothing written | the whole text nevertheless |",
    "|---|---|---|---|---|",
]
SOURCE = Path(__file__).with_name("refuse.c")
MOST = 5000
SECONDS = 100
NOTHING = (5, b"")


@dataclass(frozen=True)
class Case:
    """A command with an input. `seen` is what of its text has to be the same each time."""

    name: str
    words: list[str]
    given: bytes
    seen: Callable[[bytes], object] = bytes

    def row(self, memory: int, without: list[int]) -> str:
        """The row of the table, by how many runs had no memory, and which allocations it did without."""
        said = ", ".join(map(str, without)) or "none"
        count = memory + len(without)
        return f"| {self.name} | `{' '.join(self.words)}` | 1 to {count} | {memory} | {said} |"


def heads(text: bytes) -> list[list[bytes]]:
    """Number, processor and name of each reply: `par` may say another thing of contended entries."""
    return [line.split()[:3] for line in text.split(b"\n")]


def dump_trace() -> bytes:
    """Entries in twenty groups, and a dump."""
    lines = ["ram 0x0 0x2000000000 0x40000000", "begin"]
    lines += [f"0 H_ENTER 0x0 {8 * group:#x} 0x1001 0x3012" for group in range(20)]
    return "\n".join([*lines, "dump", ""]).encode()


BASIS = "order 18\nram 0x0 0x2000000000 0x40000000\nbegin\n"
PROTECTED = """\
0 slbmte 0x8000000 0x1000
0 H_ENTER 0x0 0x20 0x1001 0x3013
0 store 0x5000 priv
0 H_PROTECT 0x2 0x20 0x0
0 store 0x5000 priv
0 H_CLEAR_MOD 0x0 0x20
0 store 0x5000 priv
0 H_REMOVE 0x0 0x20 0x0
"""
RESIZED = """\
0 H_ENTER 0x8000000000 0x20 0x801011 0x3012
0 H_ENTER 0x8000000000 0x400 0x1015 0x11012
0 H_ENTER 0x8000000000 0x21 0x1001 0x4012
0 H_RESIZE_HPT_PREPARE 0x0 19
0 H_RESIZE_HPT_PREPARE 0x0 19
0 H_RESIZE_HPT_COMMIT 0x0 19
dump
"""
APART = """\
order 18
cpus 2
ram 0x0 0x2000000000 0x40000000
begin
0 H_ENTER 0x8000000000 0x20 0x1001 0x3012
1 H_ENTER 0x8000000000 0x28 0x1001 0x4012
"""


def example(name: str, word: str, file: str, seen: Callable[[bytes], object] = bytes) -> Case:
    """A command with one of examples/."""
    return Case(f"{name}, `{file}`", [word], (EXAMPLES / file).read_bytes(), seen)


def cases() -> list[Case]:
    """The rows of the table."""
    return [
        Case("a store that is denied, and then let through", ["run"], (BASIS + PROTECTED).encode()),
        Case("a resize that carries one bolted page", ["run"], (BASIS + RESIZED).encode()),
        Case("two processors in two groups", ["par"], APART.encode()),
        Case("an empty drill", ["drill", "1", "0"], b""),
        example("a refused trace", "run", "refused.trace"),
        example("a resize", "run", "resize.trace"),
        example("three processors", "par", "sharing.trace", heads),
        Case("a dump", ["run"], dump_trace()),
        example("two partitions", "set", "two-partitions.set"),
        Case("a drill", ["drill", "1", "1000"], b""),
        Case("wrong arguments", ["ran", "x"], b""),
    ]


def library_in(folder: Path) -> Path:
    """Compiles the library that refuses."""
    library = folder / "refuse.so"
    subprocess.run(["cc", "-O1", "-w", "-shared", "-fPIC", "-o", library, SOURCE], check=True)
    return library


@dataclass(frozen=True)
class Refusing:
    """The program, and the library that refuses."""

    program: Program
    library: Path

    def run(self, case: Case, number: int) -> Optional[Ended]:
        """How a run ends with this allocation refused; none where there are not so many."""
        reading, writing = os.pipe()
        chosen = {"LD_PRELOAD": str(self.library), "REFUSED": str(number), "TOLD": str(writing)}
        try:
            ran = subprocess.run(
                [self.program.path, *case.words],
                input=case.given,
                capture_output=True,
                env={**os.environ, **chosen},
                pass_fds=[writing],
                timeout=SECONDS,
                check=False,
            )
        finally:
            os.close(writing)
            told = os.read(reading, 1)
            os.close(reading)
        return Ended(ran.returncode, ran.stdout, ran.stderr) if told else None

    def row(self, case: Case) -> str:
        """Tries each allocation of a case; its row of the table."""
        whole = self.program.run(case.words, case.given)
        memory, without = 0, []
        for number in range(1, MOST):
            ended = self.run(case, number)
            if ended is None:
                break
            at = f"{case.name}, allocation {number}:"
            if ended.message:
                raise Failed(f"{at} the message {ended.message[:60]!r}")
            if (ended.status, ended.out) == NOTHING:
                memory += 1
            elif (ended.status, case.seen(ended.out)) == (whole.status, case.seen(whole.out)):
                without.append(number)
            else:
                raise Failed(f"{at} status {ended.status}, {ended.out[:60]!r}")
        return case.row(memory, without)


def try_by_rt(numbers: list[int]) -> str:
    """The cases of `run` by `rt try --fail-alloc`, for these numbers: each ends with 5, 0 or 2."""
    with tempfile.TemporaryDirectory() as folder:
        for case in cases():
            if case.words == ["run"]:
                Path(folder, re.sub(r"\W+", "-", case.name)).write_bytes(case.given)
        for number in numbers:
            command = ["rt", "try", "--fail-alloc", str(number), "--cases", folder, "--", "run"]
            ran = subprocess.run(
                command,
                cwd=CRATES / "papr_main",
                stdout=subprocess.PIPE,
                stderr=subprocess.STDOUT,
                text=True,
                check=False,
            )
            ends = re.findall(r"^case=(\S+) run=(\w+) status=(\d+)", ran.stdout, re.M)
            print(f"{number}: " + ", ".join(f"{name} {status}" for name, _, status in ends))
            if not ends or any(run != "ended" or status not in ("0", "2", "5") for _, run, status in ends):
                raise Failed(ran.stdout)
    return f"{len(numbers)} numbers by rt try"


def add_options(parser: argparse.ArgumentParser) -> None:
    """The options of this check."""
    add_program(parser)
    add_write(parser)
    told = "by rt try --fail-alloc, in place of the table"
    parser.add_argument("--try", dest="numbers", metavar="N", type=int, nargs="+", default=[], help=told)


def check(given: argparse.Namespace) -> str:
    """Each allocation of each case, the cases side by side."""
    if given.numbers:
        return try_by_rt(given.numbers)
    program = program_of(given)
    if not shutil.which("cc"):
        raise Failed("it needs `cc`")
    with tempfile.TemporaryDirectory() as folder, ThreadPoolExecutor() as pool:
        refusing = Refusing(program, library_in(Path(folder)))
        rows = list(pool.map(refusing.row, cases()))
    for row in rows:
        print(row)
    TABLE.settle([*HEAD, *rows], given.write)
    return f"{len(rows)} rows, each as in docs/HOSTILE.md"
