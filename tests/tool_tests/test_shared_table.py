"""Tests of the shared table for C: its header, and programs that use it from one thread and from several.

The programs are those of examples/shared and of tests/data/shared. Each writes what isn't as it should be.
"""

import re
import tempfile
import time
from pathlib import Path
from typing import ClassVar, Sequence

from .built import declared, make_built, words_of
from .support import DATA, EXAMPLES, LIBRARY, SHARED_TABLE, TOP, Ran, ToolTest, Word
from .support import for_each, needs, needs_library, needs_shared_table, run

INCLUDE = TOP / "include"
STRICT = ("-Wall", "-Wextra", "-Wpedantic", "-Werror", f"-I{INCLUDE}")
LIBRARIES = (SHARED_TABLE, LIBRARY)
HAMMER = [EXAMPLES / "shared" / f"{name}.c" for name in ("hammer", "calls", "entry", "history", "replies")]
WRAPPED = "-Wl,--wrap=malloc,--wrap=calloc,--wrap=realloc,--wrap=aligned_alloc,--wrap=free"
PROGRAMS = {
    "refusals": [DATA / "shared" / "refusals.c"],
    "alike": [DATA / "shared" / "alike.c"],
    "busy": [DATA / "shared" / "busy.c"],
    "lost": [DATA / "shared" / "lost.c"],
    "resize": [DATA / "shared" / "resize.c"],
    "orders": [DATA / "shared" / "orders.c"],
    "marks": [DATA / "shared" / "marks.c"],
    "memory": [DATA / "shared" / "memory.c"],
    "hammer": HAMMER,
    "two-threads": [EXAMPLES / "shared" / "two-threads.c"],
}
VALGRIND = ("valgrind", "-q", "--error-exitcode=9", "--leak-check=full", "--fair-sched=yes")
ADDRESSES = ("-fsanitize=address,undefined", "-fno-sanitize-recover=all")
THREADS = ("-fsanitize=thread",)
LEGAL = re.compile(r"[0-9]+ receipts of ([0-9]+) entries, ([0-9]+) changes: each entry has one legal history, .*\n")
BUSY = re.compile(r"; busy ([0-9]+) times, ")
PATIENCE = 60  # seconds until threads have met

ENTERED = "".join(f"entry {entry:#x}: valid\n" for entry in range(0x20, 0x28)) + "8 of 32 calls entered a page\n"
ALLOCATED = re.compile(r"open: [1-9][0-9]* allocations\nsplit: [1-9][0-9]* allocations\n")


def build(name: str, folder: Path, flags: Sequence[str] = ("-O2",)) -> tuple[Path, Ran]:
    """Builds one of the programs with these flags: where it is, and what the compiler said."""
    program = folder / name
    wrapped = [WRAPPED] if name == "memory" else []
    words: list[Word] = ["cc", "-std=gnu11", "-g", "-pthread", *flags, *STRICT, "-o", program]
    return program, run(*words, *PROGRAMS[name], *LIBRARIES, *wrapped)


class SharedHeader(ToolTest):
    """The header stands by itself, and its structs have the sizes that it says."""

    def assert_compiles(self, compiler: str, standard: str, name: str) -> None:
        """A file that includes the header, and nothing else, compiles without a warning."""
        source = self.folder / name
        source.write_text("#include <papr_shared.h>\nextern struct papr_pass passes[2];\n", encoding="ascii")
        self.assert_ran(run(compiler, f"-std={standard}", *STRICT, "-fsyntax-only", source))

    @needs("cc")
    @for_each("c99", "c11", "c17")
    def test_the_header_by_itself_in(self, standard: str) -> None:
        self.assert_compiles("cc", standard, "alone.c")

    @needs("c++")
    @for_each("c++11", "c++17")
    def test_the_header_by_itself_in_cpp(self, standard: str) -> None:
        self.assert_compiles("c++", standard, "alone.cc")


@needs("cc")
@needs_library
@needs_shared_table
class SharedTest(ToolTest):
    """A test of programs that are built once for its class."""

    FLAGS: ClassVar[Sequence[str]] = ("-O2",)
    programs: ClassVar[Path]

    @classmethod
    def setUpClass(cls) -> None:
        """Makes the folder of the programs."""
        super().setUpClass()
        work = tempfile.TemporaryDirectory(prefix="papr-shared-")
        cls.addClassCleanup(work.cleanup)
        cls.programs = Path(work.name)

    def built(self, name: str) -> Path:
        """A program, which the first test that asks for it builds."""
        if not (self.programs / name).exists():
            self.assert_ran(build(name, self.programs, self.FLAGS)[1])
        return self.programs / name

    def assert_legal(self, ran: Ran) -> None:
        """The hammer ended well, and the entries changed."""
        self.assert_ran(ran, out=None)
        told = LEGAL.search(ran.out)
        self.assertIsNotNone(told, ran.out)
        self.assertTrue(told and int(told[1]) > 8 and int(told[2]) > 100, ran.out)

    def skip_without(self, *flags: str) -> None:
        """Skips the test where a program of these flags isn't made, or doesn't run."""
        source, alone = self.folder / "alone.c", self.folder / "alone"
        source.write_text("int main(void) { return 0; }\n", encoding="ascii")
        if run("cc", *flags, "-o", alone, source).status != 0 or run(alone).status != 0:
            self.skipTest(f"the compiler has no {' '.join(flags)}")


class OneThread(SharedTest):
    """What is answered, with no other thread or with one that is stopped at its entry."""

    def test_each_refusal_has_its_code_and_changes_nothing(self) -> None:
        self.assert_ran(run(self.built("refusals")))

    def test_shared_and_serial_calls_answer_alike(self) -> None:
        self.assert_ran(run(self.built("alike")))

    def test_a_table_is_resized_as_the_document_says(self) -> None:
        self.assert_ran(run(self.built("resize")))

    def test_larger_tables_answer_as_serial_ones_do(self) -> None:
        self.assert_ran(run(self.built("orders")))

    def test_a_closed_table_has_marks_where_it_was_changed(self) -> None:
        self.assert_ran(run(self.built("marks")))

    def test_a_call_that_is_busy_is_gone_on_with_or_given_up(self) -> None:
        self.assert_ran(run(self.built("busy")))

    def test_an_entry_stays_busy_if_its_thread_ended_and_in_a_child(self) -> None:
        self.assert_ran(run(self.built("lost")))

    def test_each_allocation_may_fail_and_the_calls_make_none(self) -> None:
        ran = run(self.built("memory"))
        self.assert_ran(ran, out=None)
        self.assertRegex(ran.out, ALLOCATED)

    @needs("valgrind")
    @for_each("refusals", "alike", "marks", "resize")
    def test_nothing_is_leaked_nor_read_before_it_is_written_in(self, name: str) -> None:
        """Valgrind stops a thread only between blocks of code, hardly ever inside a call: no entry is busy there."""
        self.assert_ran(run(*VALGRIND, self.built(name)))


class Hammered(SharedTest):
    """Threads that call one table at once."""

    @for_each(1, 2, 4, 8)
    def test_the_history_is_legal_of_threads(self, threads: int) -> None:
        """A thread by itself, with all shares of the table, never finds an entry busy."""
        ran = run(self.built("hammer"), str(threads), "30000", "check")
        self.assert_legal(ran)
        if threads == 1:
            self.assertEqual(BUSY.findall(ran.out), ["0"])

    @for_each("near", "far")
    def test_without_a_check(self, place: str) -> None:
        ran = run(self.built("hammer"), "4", "30000", place)
        self.assert_ran(ran, out=None)
        self.assertIn(f"{place}: 4 threads, 120000 calls, ", ran.out)

    @for_each(1, 4)
    def test_a_receipt_that_is_left_out_is_missed_of_threads(self, threads: int) -> None:
        ran = run(self.built("hammer"), str(threads), "30000", "check", "drop")
        self.assert_ran(ran, out=None, status=1)
        self.assertRegex(ran.out, r" calls, check: NOT WELL\n\Z")
        self.assertRegex(ran.out, r"\nentry 0x[0-9a-f]+: (receipt [0-9]+ of thread [0-9]+ shows|it closes at) stamp ")

    def test_threads_meet_at_entries(self) -> None:
        """Calls are busy sooner or later, and their histories are legal."""
        end, busy = time.monotonic() + PATIENCE, 0
        while not busy:
            self.assertLess(time.monotonic(), end, f"no call was busy in {PATIENCE} seconds")
            ran = run(self.built("hammer"), "4", "30000", "check")
            self.assert_legal(ran)
            busy = int(BUSY.findall(ran.out)[0])

    def test_other_arguments_are_refused(self) -> None:
        usage = "usage: hammer THREADS CALLS check|near|far [drop]\n"
        for words in ((), ("2", "10"), ("0", "10", "check"), ("65", "10", "far"), ("2", "10", "all")):
            self.assert_ran(run(self.built("hammer"), *words), status=2, err=usage)
        self.assert_ran(run(self.built("hammer"), "2", "10", "near", "drop"), status=2, err=usage)

    def test_two_threads_fill_a_group(self) -> None:
        self.assert_ran(run(self.built("two-threads")), ENTERED)

    @needs("valgrind")
    def test_nothing_is_leaked_nor_read_before_it_is_written(self) -> None:
        self.assert_legal(run(*VALGRIND, self.built("hammer"), "3", "1000", "check"))


@needs("nm")
@needs_shared_table
class Archive(ToolTest):
    """The archive."""

    def symbols(self, option: str) -> set[str]:
        """The symbols of this kind, over all of its objects."""
        ran = run("nm", option, "--extern-only", "--just-symbols", "--quiet", SHARED_TABLE)
        self.assert_ran(ran, out=None)
        return {word for word in ran.out.split() if not word.endswith(":")}

    def test_it_has_the_functions_of_the_header_and_needs_a_heap(self) -> None:
        defined, heap = self.symbols("--defined-only"), {"rattle_alloc", "rattle_realloc", "rattle_dealloc"}
        self.assertEqual(defined, {*declared("SHARED_TABLE"), *heap})
        needed = self.symbols("--undefined-only") - defined
        self.assertEqual(needed, {"malloc", "realloc", "free", "memcpy"})


@needs("make", "pkg-config")
class Installed(SharedTest):
    """The small example over what `make install-library` installs."""

    def setUp(self) -> None:
        """Installs the libraries into a tree."""
        super().setUp()
        self.tree, given = self.folder / "tree", words_of(make_built(self.folder))
        self.assert_ran(run("make", "-s", "-C", TOP, f"PREFIX={self.tree}", "install-library", *given))

    def flags(self, *words: str) -> list[str]:
        """What pkg-config says of the shared table."""
        variables = {"PKG_CONFIG_PATH": str(self.tree / "lib" / "pkgconfig")}
        ran = run("pkg-config", *words, "papr_shared", environment=variables)
        self.assert_ran(ran, out=None)
        return ran.out.split()

    @for_each("shared", "static")
    def test_a_program_is_linked_by_pkg_config_to_the_library(self, kind: str) -> None:
        program = self.folder / "two-threads"
        (source,) = PROGRAMS["two-threads"]
        option, linking = (["--static"], ["-static"]) if kind == "static" else ([], [])
        flags = self.flags("--cflags", "--libs", *option)
        self.assert_ran(run("cc", "-pthread", *linking, source, *flags, "-o", program))
        self.assert_ran(run(program, environment={"LD_LIBRARY_PATH": str(self.tree / "lib")}), ENTERED)


class ByAddresses(SharedTest):
    """The programs with the compiler's checks of addresses and of undefined behaviour."""

    FLAGS = ADDRESSES

    def setUp(self) -> None:
        super().setUp()
        self.skip_without(*ADDRESSES)

    @for_each("refusals", "alike", "busy", "resize")
    def test_nothing_is_found_in(self, name: str) -> None:
        self.assert_ran(run(self.built(name)))

    def test_nothing_is_found_in_threads(self) -> None:
        self.assert_legal(run(self.built("hammer"), "4", "10000", "check"))


class ByThreads(SharedTest):
    """The programs with the compiler's check of races, which sees what the C side does."""

    FLAGS = THREADS

    def setUp(self) -> None:
        super().setUp()
        self.skip_without(*THREADS)

    def test_nothing_is_found_in_threads(self) -> None:
        self.assert_legal(run(self.built("hammer"), "4", "10000", "check"))

    def test_nothing_is_found_in_the_small_example(self) -> None:
        self.assert_ran(run(self.built("two-threads")), ENTERED)
