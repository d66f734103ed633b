"""Tests of what is built for other processors, which qemu runs: it answers as the program and the libraries here do."""

import os
import re
import shutil
import subprocess
import sys
import tempfile
import unittest
from pathlib import Path
from typing import Callable, ClassVar

from .built import OBJECTS, declared
from .calls import trace_of
from .emulator import AARCH64, PPC64LE, RISCV64, Emulated
from .stand_in import Checkout
from .support import DATA, EXAMPLES, MAJOR, PROGRAM, TOP, VERSION, Ran, Test, Text, ToolTest, Word, for_each
from .support import needs, needs_program, run, run_bytes, write_script

sys.path[:0] = [str(TOP / "tools" / "targets"), str(TOP / "tools")]
from machines import OTHERS  # noqa: E402
from porting import ported_program  # noqa: E402
from workshop import TESTS, is_current  # noqa: E402

TRACES = sorted(path.stem for path in EXAMPLES.glob("*.trace"))
STRICT = ("-std=gnu11", "-O2", "-Wall", "-Wextra", "-Werror", f"-I{TOP / 'include'}")
# The programs over the libraries: the replayer, that of fields, and that of threads on one table.
SOURCES = {
    "replay": sorted((EXAMPLES / "c").glob("*.c")),
    "fields": [DATA / "fields.c"],
    "hammer": [path for path in sorted((EXAMPLES / "shared").glob("*.c")) if path.name != "two-threads.c"],
}
# A minute of calls, by either way to each of the three libraries.
THREADS, CALLS = 4, 200_000
WORDS = (
    "",
    "run",
    "run run",
    "image new",
    "image old new",
    "set",
    "check",
    "drill 1 1000",
    "drill 1",
    "drill 1 100001",
    "usage",
    "run a b c",
    "par",
    "par par",
)


# A test of a crate, in a file of its module.
TESTS_OF_GATES = TOP / "crates" / TESTS / "src"
OF_TEST = re.compile(r"^#\[test\]\n(?:pub )?fn (\w+)\(", re.M)


def tests_of_gates() -> list[str]:
    """The names of the tests in the sources, as the program of them lists them."""
    files = sorted(TESTS_OF_GATES.rglob("*.rt"))
    modules = {path: "::".join(path.relative_to(TESTS_OF_GATES).with_suffix("").parts) for path in files}
    found = [f"{modules[path]}::{name}" for path in files for name in OF_TEST.findall(path.read_text("utf-8"))]
    return sorted(found)


def needs_gates(machine: Emulated) -> Callable[[Test], Test]:
    """Skips the tests of a class where those of a gate aren't built of these sources, or can't be run."""
    place = machine.built / "gates"
    told = f"{place} is missing or older than its sources (tools/targets/build-for --gates {machine})"
    lacking = machine.unready or ("" if is_current(place, TESTS) else told)
    return unittest.skipIf(lacking, lacking)


class Without(ToolTest):
    """A build that can't be made here."""

    def setUp(self) -> None:
        super().setUp()
        self.checkout = Checkout(self.folder)
        shutil.copy(TOP / "VERSION", self.checkout.top)
        shutil.copytree(TOP / "tools" / "targets", self.checkout.top / "tools" / "targets")
        (self.folder / "bin").mkdir()
        (self.folder / "bin" / "python3").symlink_to(sys.executable)

    def build(self, *words: str) -> Ran:
        """Runs the build with no command but Python."""
        tool = self.checkout.top / "tools" / "targets" / "build-for"
        return run(tool, *words, environment={"PATH": str(self.folder / "bin")})

    def older(self, name: str) -> Path:
        """A program that was built for a processor before."""
        return write_script(self.checkout.top / "out" / name / "papr", "")

    @for_each(
        ("aarch64", "aarch64-linux-gnu-gcc", "gcc-aarch64-linux-gnu"),
        ("ppc64le", "clang-19", "clang-19"),
        ("riscv64", "riscv64-linux-gnu-gcc", "gcc-riscv64-linux-gnu"),
    )
    def test_it_is_refused_without(self, words: tuple[str, str, str]) -> None:
        name, command, package = words
        older = self.older(name)
        for given in ((name,), ("--gates", name)):
            told = f"build-for: {command} isn't here; Debian's package {package} has it"
            self.assert_refused(self.build(*given), told)
        self.assertTrue(older.exists())

    def test_where_it_need_not_be_built_nothing_older_is_left(self) -> None:
        older = [self.older(name) for name in ("aarch64", "ppc64le")]
        told = (("aarch64", "aarch64-linux-gnu-gcc"), ("ppc64le", "clang-19"))
        lines = [f"build-for: nothing is built for {name}: {command} isn't here\n" for name, command in told]
        self.assert_ran(self.build("--if-possible", "aarch64", "ppc64le"), err="".join(lines))
        self.assertEqual([path for path in older if path.parent.exists()], [])

    @for_each("s390x", "ppc64")
    def test_there_is_nothing_for_the_big_endian(self, name: str) -> None:
        told = (
            f"build-for: {name} is big-endian, and nothing is built for such a processor: the toolchain lowers the"
            " sources for memory in which a number's least significant byte comes first"
        )
        self.assert_refused(self.build("--if-possible", name), told)

    def test_a_processor_that_is_not_known(self) -> None:
        self.assert_refused(self.build("vax"), "build-for: vax is none of aarch64, ppc64le, riscv64")


class ProgramCases(ToolTest):
    """The program, which ends and writes as the one here. The classes below have the cases for each processor."""

    machine: ClassVar[Emulated]

    def setUp(self) -> None:
        super().setUp()
        self.papr = self.machine.emulated(self.machine.built / "papr", self.folder)

    def shell(self, command: str) -> Ran:
        """Runs a line of the shell, in which $0 is the program."""
        return run("sh", "-c", command, self.papr)

    @needs("xz")
    def test_it_writes_the_bytes_of_all_examples(self) -> None:
        ran = run(EXAMPLES / "check", self.papr)
        self.assert_ran(ran, out=None)
        self.assertRegex(ran.out.splitlines()[-1], r"\A[1-9][0-9]+ passed, 0 failed\Z")
        self.assertIn("\npass par first\n", ran.out)

    def test_it_answers_the_rows(self) -> None:
        ran = run(TOP / "tests" / "rows", self.papr)
        self.assert_ran(ran, out=None)
        self.assertRegex(ran.out, r"\A[1-9][0-9]+ passed, 0 failed, [0-9]+ skipped\n\Z")

    @needs_program
    @for_each(2, 8, 64)
    def test_the_replies_of_so_many_threads_are_those_of_a_good_run(self, processors: int) -> None:
        trace = trace_of(processors, processors, 20_000)
        ran = run(self.papr, "par", given=trace)
        self.assert_ran(ran, out=None)
        self.assertEqual(ran.out.count("\n"), processors + 20_000)
        self.assert_ran(run(PROGRAM, "check", given=f"{trace}replies\n{ran.out}"), "good\n")

    @needs_program
    def test_a_thread_has_stack_enough(self) -> None:
        """It is as large as the main one may be, as for the program here, and a small one is enough."""
        trace = trace_of(1, 8, 2_000)
        for stack in ("256", "8192"):
            ran = run("sh", "-c", f'ulimit -s {stack} && exec "$0" par', self.papr, given=trace)
            self.assert_ran(ran, out=None)
            self.assert_ran(run(PROGRAM, "check", given=f"{trace}replies\n{ran.out}"), "good\n")

    @needs_program
    @for_each(*WORDS)
    def test_it_ends_as_the_program_does_with_the_words(self, words: str) -> None:
        """On an input, and on none."""
        inputs: tuple[Text, ...] = (EXAMPLES / "image-new.trace", "", "begin\nfrob\n")
        for given in inputs:
            wanted = run(PROGRAM, *words.split(), given=given)
            self.assert_ran(run(self.papr, *words.split(), given=given), wanted.out, status=wanted.status)

    @needs_program
    def test_an_empty_word_is_no_word_of_a_command(self) -> None:
        for words in (("run", ""), ("", "run"), ("",)):
            wanted = run(PROGRAM, *words, given="begin\n")
            self.assert_ran(run(self.papr, *words, given="begin\n"), wanted.out, status=wanted.status)

    @needs_program
    @for_each((1 << 24), (1 << 24) + 1, (1 << 24) + 5000)
    def test_an_input_of_so_many_bytes(self, length: int) -> None:
        given = b"begin\n" + b"#" * (length - 7) + b"\n"
        wanted = run(PROGRAM, "run", given=given)
        self.assert_ran(run(self.papr, "run", given=given), wanted.out, status=wanted.status)

    def test_replies_of_more_bytes_than_there_was_room_for(self) -> None:
        """A short line whose access tries two groups of empty entries with long indices."""
        accesses = 30_000
        given = "order 22\nbegin\n0 slbmte 0x8000000 0x4000000\n" + "0 load 0 priv\n" * accesses
        ran = run(self.papr, "run", given=given)
        self.assert_ran(ran, out=None)
        lines = ran.out.splitlines()
        self.assertEqual(len(lines), accesses + 1)
        tried = [*range(0x20000, 0x20008), *range(0x1FFF8, 0x20000)]
        receipts = " ".join(f"{entry:#x}.0.0.nomatch" for entry in tried)
        self.assertEqual(lines[-1], f"{accesses + 3} 0 load nopage walk | {receipts}")
        self.assertGreater(len(ran.out), 24 * len(given) + (1 << 16))

    def test_words_that_are_no_command_need_no_input(self) -> None:
        """Standard input is a pipe that stays open, and has nothing in it."""
        unread, kept_open = os.pipe()
        try:
            command = [str(self.papr), "frob"]
            ended = subprocess.run(command, stdin=unread, capture_output=True, text=True, timeout=60, check=False)
        finally:
            os.close(unread)
            os.close(kept_open)
        self.assertEqual((ended.returncode, ended.stdout), (1, "papr: usage\n"))

    @needs("clang-19")
    def test_a_thread_waits_and_is_woken(self) -> None:
        """By the conversion of a program that does so; papr waits only after more steps than it will ever make."""
        machine = OTHERS[self.machine.name]
        text, compiled, program = (self.folder / f"waiting{ending}" for ending in (".ll", ".o", ""))
        text.write_text(ported_program((DATA / "waiting.ll").read_text(encoding="ascii"), machine), encoding="ascii")
        of_module = (f"--target={machine.triple}", *machine.flags, "-O2", "-fPIC", "-c", "-x", "ir")
        self.assert_ran(run("clang-19", *of_module, text, "-o", compiled))
        words = (*STRICT, *machine.flags, "-pthread")
        self.assert_ran(run(machine.compiler, *words, DATA / "waiting.c", compiled, "-o", program))
        self.assert_ran(run(self.machine.emulated(program, self.folder)))

    def test_what_cannot_be_read_or_written(self) -> None:
        trace = EXAMPLES / "first.trace"
        self.assertEqual(self.shell('"$0" run </').status, 3)
        self.assertEqual(self.shell('"$0" run <&-').status, 3)
        self.assertEqual(self.shell(f'"$0" run <"{trace}" >/dev/full').status, 4)


class LibraryCases(ToolTest):
    """The archives and the shared objects of the libraries. The classes below have the cases for each processor."""

    machine: ClassVar[Emulated]
    programs: ClassVar[Path]

    @classmethod
    def setUpClass(cls) -> None:
        """Builds programs over each, once for the class."""
        super().setUpClass()
        work = tempfile.TemporaryDirectory(prefix=f"papr-{cls.machine.name}-")
        cls.addClassCleanup(work.cleanup)
        cls.programs = Path(work.name)
        built = cls.machine.built
        ways: dict[str, list[Word]] = {
            "archive": [built / "libpapr_shared.a", built / "libpapr.a"],
            "shared": [f"-L{built}", "-lpapr"],
        }
        compiled = (cls.machine.compiler, *STRICT, "-pthread")
        for way, library in ways.items():
            for name, sources in SOURCES.items():
                ran = run(*compiled, *sources, *library, "-o", cls.programs / f"{name}-{way}")
                if (ran.status, ran.err) != (0, ""):
                    raise OSError(f"{name} doesn't build: {ran.err}")

    def run_program(self, name: str, *words: str, given: Text = "") -> Ran:
        """Runs one of the programs."""
        return run(self.machine.emulated(self.programs / name, self.folder), *words, given=given)

    @for_each("archive", "shared")
    def test_each_field_has_the_value_that_its_call_gives_it(self, way: str) -> None:
        self.assert_ran(self.run_program(f"fields-{way}"))

    @for_each(*TRACES)
    def test_the_replayer_writes_what_papr_writes_of(self, name: str) -> None:
        replies = (EXAMPLES / f"{name}.replies").read_text(encoding="ascii")
        status = 2 if replies.startswith("papr: ") else 0
        for way in ("archive", "shared"):
            ran = self.run_program(f"replay-{way}", given=EXAMPLES / f"{name}.trace")
            self.assert_ran(ran, replies, status=status)

    @for_each("archive", "shared")
    def test_threads_call_one_table(self, way: str) -> None:
        ran = self.run_program(f"hammer-{way}", str(THREADS), str(CALLS), "check")
        self.assert_ran(ran, out=None)
        self.assertIn("each entry has one legal history", ran.out)
        told = rf"hammer of papr {re.escape(VERSION)} on {self.machine.name} with [0-9]+ processors, Linux [^ ]+"
        made = f"{THREADS} threads, {THREADS * CALLS} calls"
        self.assertRegex(ran.out.splitlines()[-1], rf"\A{told}: {made}, check: well\Z")

    @for_each(*OBJECTS)
    def test_the_shared_object_is_as_the_one_here(self, variable: str) -> None:
        """It exports the functions of the headers, which that one does."""
        name, parts = OBJECTS[variable]
        place, tools = self.machine.built / name, self.machine.tools
        told = run_bytes(f"{tools}-nm", "-D", "--defined-only", place).decode().splitlines()
        self.assertEqual([line.split()[1:] for line in told], [["T", function] for function in declared(*parts)])
        head = run(f"{tools}-readelf", "-h", "-d", place).out
        self.assertIn(f"[{name.partition('.so')[0]}.so.{MAJOR}]", head)
        self.assertRegex(head, rf"Machine: +{self.machine.told}\n")


class GatesCases(ToolTest):
    """The tests of the whole program that `rt ci` runs, made for another processor. The classes below run them there.

    In those of `gates` the caller's gate holds processors of par at chosen steps: between two pairs of a bulk call, at
    an entry that another one wants, or 64 of them until all are there. Who is held goes on once another one has come
    where the test says. So they show that the threads there take the steps of these schedules in that order, and answer
    as the sources of each test say. Each runs in a process of its own, as `rt ci` runs it. What the processor's memory
    may reorder they don't show: the emulator runs on this one.
    """

    machine: ClassVar[Emulated]

    def setUp(self) -> None:
        super().setUp()
        self.gates = self.machine.emulated(self.machine.built / "gates", self.folder)

    def test_it_has_the_tests_of_the_sources(self) -> None:
        names = tests_of_gates()
        ran = run(self.gates, "--list")
        self.assert_ran(ran, out=None)
        *listed, count = ran.out.splitlines()
        self.assertEqual((sorted(listed), count), ([f"{name}: test" for name in names], f"tests: {len(names)}"))

    @for_each(*tests_of_gates())
    def test_it_passes(self, name: str) -> None:
        self.assert_ran(run(self.gates, name), "\ntest result: ok\n")

    def test_a_test_of_another_name_does_not(self) -> None:
        self.assertEqual((run(self.gates, "tests::gates::frob").status, run(self.gates).status), (2, 2))


@AARCH64.needed
class ProgramOfAarch64(ProgramCases):
    """The program for aarch64."""

    machine = AARCH64


@PPC64LE.needed
class ProgramOfPpc64le(ProgramCases):
    """The program for powerpc64le."""

    machine = PPC64LE


@RISCV64.needed
class ProgramOfRiscv64(ProgramCases):
    """The program for riscv64."""

    machine = RISCV64


@AARCH64.needed
class LibraryOfAarch64(LibraryCases):
    """The libraries for aarch64."""

    machine = AARCH64


@PPC64LE.needed
class LibraryOfPpc64le(LibraryCases):
    """The libraries for powerpc64le."""

    machine = PPC64LE


@RISCV64.needed
class LibraryOfRiscv64(LibraryCases):
    """The libraries for riscv64."""

    machine = RISCV64


@needs_gates(AARCH64)
class GatesOfAarch64(GatesCases):
    """The tests of gates for aarch64."""

    machine = AARCH64


@needs_gates(PPC64LE)
class GatesOfPpc64le(GatesCases):
    """The tests of gates for powerpc64le."""

    machine = PPC64LE


@needs_gates(RISCV64)
class GatesOfRiscv64(GatesCases):
    """The tests of gates for riscv64."""

    machine = RISCV64


# They are of no processor by themselves.
del ProgramCases, LibraryCases, GatesCases
