"""The program where the system is short of something.

- Address space: at twenty sizes `run`, `par` and `drill` end with status 5 and nothing written, or with the
  whole text; never by a signal. Below what the loader needs the program doesn't begin; then nothing is
  written either. --long: in each of 400 further pages.
- A reader that goes away: status 4.
- `par` on one processor, and with threads refused: the text of the serial run, for a trace whose processors
  have entries of their own. --long: also beside other work on all processors.
- --long: `run`, `par` and `drill` under valgrind.
"""

import argparse
import os
import resource
import shutil
import subprocess
import sys
import tempfile
from collections import Counter
from dataclasses import dataclass, field
from pathlib import Path
from typing import Callable, Sequence

from checks.running import EXAMPLES, Ended, Failed, Program, add_program, program_of

MEGABYTE = 1024 * 1024
PAGE = 4096
CPUS = 16
NOBODY = 65534
TIMEOUT, UNDER_VALGRIND = 100, 600
NOTHING = (5, b"")
PASS, FAIL, SKIP = "pass", "FAIL", "skip"


@dataclass(frozen=True)
class Case:
    """A command, and the text that it is given."""

    words: list[str]
    given: bytes

    @property
    def name(self) -> str:
        """The command."""
        return " ".join(self.words)


@dataclass
class Limits:
    """The program, and how the tests with it ended."""

    program: Program
    counts: Counter[str] = field(default_factory=Counter)

    def report(self, word: str, name: str, reason: str = "") -> None:
        """A line for a test, and the count."""
        print(word, f"{name}: {reason}" if reason else name)
        self.counts[word] += 1

    def test(self, name: str, reason: str) -> None:
        """A test that failed for this reason, or for none."""
        self.report(FAIL if reason else PASS, name, reason)

    def has(self, tool: str, name: str) -> bool:
        """Whether a tool is there; else the test is skipped."""
        if not shutil.which(tool):
            self.report(SKIP, name, f"{tool} is not here")
            return False
        return True

    def run(self, case: Case, before: Sequence[str] = (), timeout: float = TIMEOUT) -> Ended:
        """How a case ends."""
        return self.program.run(case.words, case.given, before, timeout=timeout)

    def in_space(self, case: Case, size: int) -> Ended:
        """How a case ends in so much address space."""
        return self.run(case, ["prlimit", f"--as={size}"])


def apart_trace() -> bytes:
    """Each processor enters, uses and removes a page of its own group, many times."""
    lines = [f"cpus {CPUS}", "ram 0x0 0x2000000000 0x40000000", "begin"]
    lines += [f"{cpu} slbmte 0x8000000 0x1000" for cpu in range(CPUS)]
    for _ in range(20):
        for cpu in range(CPUS):
            entry, address = 8 * (cpu ^ 1), cpu * 4096
            lines += [f"{cpu} H_ENTER 0x0 {entry:#x} 0x1001 0x3012", f"{cpu} store {address:#x} priv"]
            lines += [f"{cpu} load {address:#x} priv", f"{cpu} H_REMOVE 0x0 {entry:#x} 0x0"]
    return "\n".join([*lines, "dump", ""]).encode()


def long_trace() -> bytes:
    """A trace whose text is longer than what a pipe holds."""
    lines = ["ram 0x0 0x2000000000 0x40000000", "begin", *["0 H_READ 0x2000000000 0x20"] * 20000]
    return "\n".join([*lines, ""]).encode()


def first_size(tests: Limits) -> int:
    """The least address space with which the program begins, up to a page: it answers wrong words."""
    low, high = 0, 1024 * MEGABYTE
    while high - low > PAGE:
        middle = (low + high) // 2 // PAGE * PAGE
        if tests.in_space(Case([], b""), middle).status in (1, 5):
            high = middle
        else:
            low = middle
    return high


def end_fault(ended: Ended, whole: bytes, size: int, begun: int) -> str:
    """What is wrong with how a run in so much address space ended."""
    if size < begun:
        return "something is written before the program begins" if ended.out else ""
    if ended.message:
        return f"at {size} bytes a message: {ended.message[:60]!r}"
    if (ended.status, ended.out) not in ((0, whole), NOTHING):
        return f"at {size} bytes status {ended.status}, {len(ended.out)} bytes written"
    return ""


def address_space(tests: Limits, case: Case, sizes: Sequence[int], begun: int) -> None:
    """A case in these sizes of address space."""
    name = f"{case.name} in {len(sizes)} sizes of address space"
    whole = tests.run(case)
    if whole.status != 0:
        tests.test(name, f"status {whole.status} without a limit")
        return
    ends = [(size, tests.in_space(case, size)) for size in sizes]
    faults = filter(None, (end_fault(ended, whole.out, size, begun) for size, ended in ends))
    kinds = [ended.status for size, ended in ends if size >= begun]
    said = f"{len(sizes) - len(kinds)} before it begins, {kinds.count(5)} times 5, {kinds.count(0)} times 0"
    tests.test(f"{name} ({said})", next(faults, ""))


def steps(count: int, begun: int) -> list[int]:
    """Sizes from 1 MB up: half of them below and around the first one with which the program begins."""
    low = [MEGABYTE + (begun - MEGABYTE) * step // (count // 4) for step in range(count // 4)]
    near = [begun + PAGE * 16 * step for step in range(count // 4)]
    far = [begun + MEGABYTE * (step + 1) ** 2 // 2 for step in range(count - len(low) - len(near))]
    return [size // PAGE * PAGE for size in low + near + far]


def little_space(tests: Limits, cases: Sequence[Case], long: bool) -> None:
    """The cases in little address space."""
    if not tests.has("prlimit", "address space"):
        return
    begun = first_size(tests)
    print(f"the program begins at {begun // 1024} KB of address space; at less its loader ends it")
    for case in cases:
        address_space(tests, case, steps(20, begun), begun)
        if long:
            address_space(tests, case, range(begun, begun + 400 * PAGE, PAGE), begun)


def reader_goes(tests: Limits, case: Case) -> None:
    """The reader takes one line, and closes the pipe."""
    with tempfile.TemporaryFile() as given:
        given.write(case.given)
        given.seek(0)
        command = [str(tests.program.path), *case.words]
        with subprocess.Popen(command, stdin=given, stdout=subprocess.PIPE, stderr=subprocess.PIPE) as ran:
            assert ran.stdout is not None and ran.stderr is not None
            ran.stdout.readline()
            ran.stdout.close()
            message = ran.stderr.read()
            status = ran.wait(timeout=TIMEOUT)
    fault = "" if (status, message) == (4, b"") else f"status {status}, message {message[:60]!r}"
    tests.test(f"a reader that goes away, {case.name}", fault)


def same_text(tests: Limits, name: str, ended: Ended, whole: bytes) -> None:
    """Whether a parallel run has the text of the serial one."""
    if (ended.status, ended.message) != (0, b""):
        tests.test(name, f"status {ended.status}, message {ended.message[:60]!r}")
    else:
        tests.test(name, "" if ended.out == whole else "another text than the serial run")


def no_threads(count: int) -> Callable[[], None]:
    """Another user than root, who may have no more than so many processes."""

    def limits() -> None:
        """Gives up all that root may."""
        resource.setrlimit(resource.RLIMIT_NPROC, (count, count))
        os.setgroups([])
        os.setgid(NOBODY)
        os.setuid(NOBODY)

    return limits


def refused_threads(tests: Limits, case: Case, whole: bytes) -> None:
    """A parallel run that may start no thread, or only some."""
    name = "par with threads refused"
    if os.getuid() != 0:
        tests.report(SKIP, name, "it needs root")
        return
    with tempfile.TemporaryDirectory() as folder:
        Path(folder).chmod(0o755)
        copy = Path(shutil.copy(tests.program.path, folder))
        copy.chmod(0o755)
        for count in (0, 1, 2, 5):
            ended = Program(copy).run(case.words, case.given, limits=no_threads(count), timeout=TIMEOUT)
            same_text(tests, f"{name}, {count} allowed", ended, whole)


def on_one_processor(tests: Limits, case: Case, whole: bytes) -> None:
    """A parallel run on one processor."""
    name = "par on one processor"
    if tests.has("taskset", name):
        same_text(tests, name, tests.run(case, ["taskset", "-c", "0"]), whole)


def beside_work(tests: Limits, case: Case, whole: bytes) -> None:
    """Parallel runs while all processors have other work."""
    count = 2 * (os.cpu_count() or 1)
    busy = [subprocess.Popen([sys.executable, "-c", "while True: pass"]) for _ in range(count)]
    try:
        for turn in range(10):
            same_text(tests, f"par beside other work, turn {turn + 1}", tests.run(case), whole)
    finally:
        for one in busy:
            one.kill()
            one.wait()


def under_valgrind(tests: Limits, case: Case) -> None:
    """A case under valgrind."""
    name = f"{case.name} under valgrind"
    if not tests.has("valgrind", name):
        return
    whole = tests.run(case).out
    ended = tests.run(case, ["valgrind", "-q", "--error-exitcode=99"], UNDER_VALGRIND)
    is_right = (ended.status, ended.out) == (0, whole)
    tests.test(name, "" if is_right else f"status {ended.status}: {ended.message[:200]!r}")


def add_options(parser: argparse.ArgumentParser) -> None:
    """The options of this check."""
    add_program(parser)
    told = "more sizes, beside other work, and under valgrind"
    parser.add_argument("--long", action="store_true", help=told)


def check(given: argparse.Namespace) -> str:
    """The program in each of these straits."""
    tests = Limits(program_of(given))
    apart, resize = apart_trace(), (EXAMPLES / "resize.trace").read_bytes()
    whole = tests.run(Case(["run"], apart)).out
    par = Case(["par"], apart)
    little_space(tests, [Case(["run"], resize), par, Case(["drill", "1", "5000"], b"")], given.long)
    for word in ("run", "par"):
        reader_goes(tests, Case([word], long_trace()))
    same_text(tests, "par", tests.run(par), whole)
    on_one_processor(tests, par, whole)
    refused_threads(tests, par, whole)
    if given.long:
        beside_work(tests, par, whole)
        serial = [Case(["run"], resize), Case(["par"], resize), Case(["drill", "1", "200"], b"")]
        for case in [*serial, par]:
            under_valgrind(tests, case)
    said = f"{tests.counts[PASS]} passed, {tests.counts[FAIL]} failed, {tests.counts[SKIP]} skipped"
    if tests.counts[FAIL]:
        raise Failed(said)
    return said
