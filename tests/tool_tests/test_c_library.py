"""Tests of the libraries for C: programs in C and C++ are built against them and run.

What the replayer of examples/c writes is compared with what papr writes.
"""

import hashlib
import re
import shutil
import tempfile
from pathlib import Path
from typing import ClassVar

from .built import HERE, OBJECTS, declared, make_built, make_shared, words_of
from .support import BYTES_LIBRARY, DATA, EXAMPLES, LIBRARY, MAJOR, SHARED_TABLE, TOP, ToolTest
from .support import for_each, needs, needs_bytes_library, needs_library, needs_shared_table, run, run_bytes

INCLUDE = TOP / "include"
STRICT = ("-Wall", "-Wextra", "-Werror", f"-I{INCLUDE}")
TRACES = sorted(EXAMPLES.glob("*.trace"))
REPLAYED = [path.stem for path in TRACES]

# The sizes that the library was built with.
SIZES = """\
#include <papr.h>
#ifndef __cplusplus
#define static_assert _Static_assert
#endif
static_assert(sizeof(struct papr_entry) == 24, "entry");
static_assert(sizeof(struct papr_receipt) == 32, "receipt");
static_assert(sizeof(struct papr_grants) == 64 * 32 + 8, "grants");
static_assert(sizeof(struct papr_access) == 40, "access");
"""
# And those of the library of the program on bytes.
SIZES_OF_BYTES = """\
#include <papr_bytes.h>
#ifndef __cplusplus
#define static_assert _Static_assert
#endif
static_assert(sizeof(struct papr_bytes_end) == 16, "end");
"""
# A program in C++ over both libraries: it enters a page and walks to it, and runs a trace.
IN_CPP = """\
#include <papr.h>
#include <papr_bytes.h>
#include <cstdio>
#include <string>
#include <vector>

int main()
{
    const papr_grant ram = {0, 0x2000000000, 0x40000000, false};
    std::vector<papr_entry> table(1 << 14);
    papr_grants grants = {};
    papr_make_grants(&ram, 1, 0x1000000000, 24, &grants);
    papr_reply reply = papr_h_enter(
        table.data(), table.size(), 18, &grants, 0, 0x20, 0x1001, 0x3012, nullptr, 0, nullptr, 0);
    papr_access load = {};
    load.ea = 0x5678;
    load.vsid = 1;
    load.shift = 12;
    struct papr_walk walk = papr_walk(table.data(), table.size(), 18, &load, nullptr, 0);
    std::printf("%d %d %#llx\\n", papr_version() == PAPR_VERSION, static_cast<int>(reply.rc),
                static_cast<unsigned long long>(walk.logical));
    const std::string trace = "begin\\n0 H_READ 0 0\\n";
    std::string replies(1000, ' ');
    papr_bytes_end end = papr_bytes(
        "run", nullptr, nullptr, trace.data(), trace.size(), &replies[0], replies.size());
    std::printf("%u %s", end.status, replies.substr(0, end.length).c_str());
    return 0;
}
"""


class Header(ToolTest):
    """Each header stands by itself, and its structs have the library's sizes."""

    def assert_compiles(self, compiler: str, standard: str, name: str) -> None:
        """A file that includes one header, and nothing else, compiles without a warning."""
        for text in (SIZES, SIZES_OF_BYTES):
            source = self.folder / name
            source.write_text(text, encoding="ascii")
            self.assert_ran(run(compiler, standard, *STRICT, "-Wpedantic", "-fsyntax-only", source))

    @needs("cc")
    @for_each("c11", "c17")
    def test_the_header_by_itself_in(self, standard: str) -> None:
        self.assert_compiles("cc", f"-std={standard}", "alone.c")

    @needs("c++")
    @for_each("c++11", "c++17", "c++20")
    def test_the_header_by_itself_in_cpp(self, standard: str) -> None:
        self.assert_compiles("c++", f"-std={standard}", "alone.cc")

    @needs("c++")
    @needs_library
    @needs_bytes_library
    @for_each("c++11", "c++20")
    def test_a_program_over_both_libraries_in_cpp(self, standard: str) -> None:
        source, program = self.folder / "both.cc", self.folder / "both"
        source.write_text(IN_CPP, encoding="ascii")
        words = (f"-std={standard}", *STRICT, "-Wpedantic", "-o", program, source, LIBRARY, BYTES_LIBRARY)
        self.assert_ran(run("c++", *words))
        self.assert_ran(run(program), "1 0 0x3678\n0 2 0 H_READ 0 0x0 0x0 | 0x0.0.0.read\n")

    @needs("cc")
    def test_the_header_in_c99(self) -> None:
        source = self.folder / "old.c"
        source.write_text("#include <papr.h>\nint of_entry[sizeof(struct papr_entry)];\n", encoding="ascii")
        self.assert_ran(run("cc", "-std=c99", *STRICT, "-Wpedantic", "-fsyntax-only", source))


@needs("cc", "nm", "readelf")
@needs_library
@needs_shared_table
@needs_bytes_library
class Shared(ToolTest):
    """The shared objects, made of the archives."""

    objects: ClassVar[dict[str, Path]]
    shared: ClassVar[Path]

    @classmethod
    def setUpClass(cls) -> None:
        """Makes them, once for the class."""
        super().setUpClass()
        work = tempfile.TemporaryDirectory(prefix="papr-shared-")
        cls.addClassCleanup(work.cleanup)
        cls.objects = make_shared(Path(work.name), HERE)
        cls.shared = cls.objects["SHARED"]

    @for_each(("SHARED", 44), ("BYTES_SHARED", 1))
    def test_it_exports_the_functions_of_the_headers_and_nothing_else(self, case: tuple[str, int]) -> None:
        variable, count = case
        told = run("nm", "-D", "--defined-only", self.objects[variable]).out.splitlines()
        expected = declared(*OBJECTS[variable][1])
        self.assertEqual([line.split()[1:] for line in told], [["T", name] for name in expected])
        self.assertEqual(len(told), count)

    @for_each(*OBJECTS)
    def test_its_name_is_that_of_its_major_version(self, variable: str) -> None:
        shared = self.objects[variable]
        soname = f"{OBJECTS[variable][0].partition('.so')[0]}.so.{MAJOR}"
        self.assertEqual(re.findall(r"\(SONAME\).*\[(.*)\]", run("readelf", "-d", shared).out), [soname])
        self.assertTrue((shared.parent / soname).samefile(shared))
        self.assertFalse((shared.parent / soname).is_symlink(), "the gate takes no symbolic link")

    def test_a_program_finds_each_field_where_its_call_puts_it(self) -> None:
        program = self.folder / "fields"
        folder = self.shared.parent
        words = ("-std=c11", *STRICT, "-o", program, DATA / "fields.c", f"-L{folder}", "-lpapr")
        self.assert_ran(run("cc", *words, f"-Wl,-rpath,{folder}"))
        self.assert_ran(run(program))
        self.assertIn(f"libpapr.so.{MAJOR}", run("readelf", "-d", program).out)

    def test_threads_share_a_table_by_it(self) -> None:
        program, folder = self.folder / "two-threads", self.shared.parent
        source = EXAMPLES / "shared" / "two-threads.c"
        words = ("-std=c11", "-pthread", *STRICT, "-o", program, source, f"-L{folder}", "-lpapr")
        self.assert_ran(run("cc", *words, f"-Wl,-rpath,{folder}"))
        ran = run(program)
        self.assert_ran(ran, out=None)
        self.assertTrue(ran.out.endswith("8 of 32 calls entered a page\n"), ran.out)


@needs("cc")
@needs_library
class Replayer(ToolTest):
    """The replayer of the examples."""

    replayer: ClassVar[Path]

    @classmethod
    def setUpClass(cls) -> None:
        """Builds it, once for the class."""
        super().setUpClass()
        work = tempfile.TemporaryDirectory(prefix="papr-replayer-")
        cls.addClassCleanup(work.cleanup)
        cls.replayer = Path(work.name) / "replay"
        sources = sorted((EXAMPLES / "c").glob("*.c"))
        ran = run("cc", "-std=gnu11", "-O2", *STRICT, "-o", cls.replayer, *sources, LIBRARY)
        if (ran.status, ran.err) != (0, ""):
            raise OSError(f"the replayer doesn't build: {ran.err}")

    def test_the_replayer_builds_without_a_warning(self) -> None:
        self.assertTrue(shutil.which(str(self.replayer)))

    @for_each(*REPLAYED)
    def test_what_it_writes_is_what_papr_writes_of(self, name: str) -> None:
        replies = (EXAMPLES / f"{name}.replies").read_text(encoding="ascii")
        status = 2 if replies.startswith("papr: ") else 0
        self.assert_ran(run(self.replayer, given=EXAMPLES / f"{name}.trace"), replies, status=status)

    @needs("xz")
    def test_it_replays_the_boot(self) -> None:
        lines, digest = (EXAMPLES / "linux-boot.sum").read_text(encoding="ascii").split()
        ran = run(self.replayer, given=run_bytes("xz", "-dc", EXAMPLES / "linux-boot.trace.xz"))
        self.assert_ran(ran, out=None)
        self.assertEqual(ran.out.count("\n"), int(lines))
        self.assertEqual(hashlib.sha256(ran.out.encode()).hexdigest(), digest)

    @needs("valgrind")
    @for_each("enter", "accesses", "bulk-remove", "clear", "resize", "grants")
    def test_nothing_is_leaked_nor_read_before_it_is_written_in(self, name: str) -> None:
        words = ("valgrind", "-q", "--error-exitcode=9", "--leak-check=full")
        trace = EXAMPLES / f"{name}.trace"
        self.assert_ran(run(*words, self.replayer, given=trace), run(self.replayer, given=trace).out)


@needs("cc")
@needs_library
class Fields(ToolTest):
    """A program that reads every field of every struct, where the fields of one struct differ."""

    def test_each_field_has_the_value_that_its_call_gives_it(self) -> None:
        program = self.folder / "fields"
        self.assert_ran(run("cc", "-std=c11", *STRICT, "-o", program, DATA / "fields.c", LIBRARY))
        self.assert_ran(run(program))

    @needs("valgrind")
    def test_nothing_is_leaked_nor_read_before_it_is_written(self) -> None:
        program = self.folder / "fields"
        self.assert_ran(run("cc", "-std=c11", *STRICT, "-g", "-o", program, DATA / "fields.c", LIBRARY))
        self.assert_ran(run("valgrind", "-q", "--error-exitcode=9", "--leak-check=full", program))


@needs("cc")
@needs_library
class Marks(ToolTest):
    """A program that compares each entry's mark with what calls did to the entry, and migrates a table by marks."""

    def test_an_entry_is_marked_exactly_where_it_was_changed(self) -> None:
        program = self.folder / "marks"
        self.assert_ran(run("cc", "-std=c11", *STRICT, "-O1", "-o", program, DATA / "marks.c", LIBRARY))
        self.assert_ran(run(program))


@needs("cc")
@needs_library
class Orders(ToolTest):
    """A program that makes random calls on tables of the orders 18 to 34, by papr.h and by hand, and resizes some."""

    def test_a_table_of_each_size_answers_as_the_calls_by_hand(self) -> None:
        program, bench = self.folder / "orders", TOP / "bench"
        sources = (DATA / "orders.c", bench / "plain-table.c")
        self.assert_ran(run("cc", "-std=gnu11", *STRICT, f"-I{bench}", "-O1", "-o", program, *sources, LIBRARY))
        self.assert_ran(run(program))


@needs("cc")
@needs_library
class ManyGrants(ToolTest):
    """A program that gives the calls lists whose count is above the 64 grants that there is room for."""

    def test_such_a_list_grants_nothing(self) -> None:
        program = self.folder / "many-grants"
        words = ("-std=gnu11", *STRICT, "-Wpedantic", "-O1", "-o", program)
        self.assert_ran(run("cc", *words, DATA / "many-grants.c", LIBRARY))
        self.assert_ran(run(program))


@needs("cc")
@needs_bytes_library
class LargeInput(ToolTest):
    """A program that has the longest input answered, with an output of more than 43 MB."""

    def test_a_trace_of_16_mb_is_answered_whole(self) -> None:
        program = self.folder / "large"
        words = ("-std=c11", *STRICT, "-Wpedantic", "-O1", "-o", program)
        self.assert_ran(run("cc", *words, DATA / "bytes" / "large.c", BYTES_LIBRARY))
        self.assert_ran(run(program))


@needs("cc")
@needs_library
class Edges(ToolTest):
    """A program that holds papr.h to what it says of pointers that may be NULL, and of structs that no call left."""

    def test_what_the_header_says_at_the_edges_is_so(self) -> None:
        program = self.folder / "edges"
        self.assert_ran(run("cc", "-std=c11", *STRICT, "-O1", "-o", program, DATA / "edges.c", LIBRARY))
        self.assert_ran(run(program))


@needs("cc")
@needs_library
@needs_shared_table
@needs_bytes_library
class Stack(ToolTest):
    """A program that measures how much stack calls need."""

    def test_no_call_needs_more_stack_than_its_header_says(self) -> None:
        program, libraries = self.folder / "stack", (SHARED_TABLE, LIBRARY, BYTES_LIBRARY)
        words = ("-std=gnu11", "-pthread", *STRICT, "-O1", "-o", program, DATA / "stack.c", *libraries)
        self.assert_ran(run("cc", *words))
        self.assert_ran(run(program))


@needs("cc")
@needs_library
class Sanitized(ToolTest):
    """The replayer and the program of fields with the compiler's checks of addresses and of undefined behaviour."""

    CHECKS = ("-std=gnu11", "-g", "-fsanitize=address,undefined", "-fno-sanitize-recover=all", f"-I{INCLUDE}")

    def built(self, *sources: Path) -> Path:
        """The program of these sources with the checks; the test is skipped where the compiler hasn't them."""
        alone = self.folder / "alone.c"
        alone.write_text("int main(void) { return 0; }\n", encoding="ascii")
        if run("cc", *self.CHECKS, "-o", self.folder / "alone", alone).status != 0:
            self.skipTest("the compiler has no sanitizers")
        program = self.folder / "program"
        self.assert_ran(run("cc", *self.CHECKS, "-o", program, *sources, LIBRARY))
        return program

    def test_nothing_is_found_in_the_program_of_fields(self) -> None:
        self.assert_ran(run(self.built(DATA / "fields.c")))

    def test_nothing_is_found_in_the_replayer(self) -> None:
        replayer = self.built(*sorted((EXAMPLES / "c").glob("*.c")))
        for name in REPLAYED:
            replies = (EXAMPLES / f"{name}.replies").read_text(encoding="ascii")
            status = 2 if replies.startswith("papr: ") else 0
            self.assert_ran(run(replayer, given=EXAMPLES / f"{name}.trace"), replies, status=status)


@needs("cmake", "make", "cc", "pkg-config")
@needs_library
class FromCMake(ToolTest):
    """The project of examples/cmake."""

    def test_it_finds_the_library_where_it_is_installed(self) -> None:
        usr, made = self.folder / "a tree", self.folder / "made"
        given = words_of(make_built(self.folder))
        self.assert_ran(run("make", "-s", "-C", TOP, "install-library", f"PREFIX={usr}", *given))
        variables = {"PKG_CONFIG_PATH": str(usr / "lib" / "pkgconfig")}
        configured = run("cmake", "-S", EXAMPLES / "cmake", "-B", made, environment=variables)
        self.assert_ran(configured, out=None)
        self.assert_ran(run("cmake", "--build", made, environment=variables), out=None)
        self.assert_ran(run(made / "enter"), "H_ENTER 0, entry 0x20; 0x5678 is at 0x3678\n")
        self.assertIn(str(usr / "lib"), run("readelf", "-d", made / "enter").out)
