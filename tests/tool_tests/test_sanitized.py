"""Tests of the libraries for C with sanitizers' checks inside (make sanitized): the programs of C over them.

Two programs break a rule of the headers. What they do is found inside the library, so the checks see there.
"""

import tempfile
from pathlib import Path
from typing import ClassVar, Sequence

from .support import DATA, EXAMPLES, TOP, Ran, ToolTest, Word, for_each, needs, needs_built, run

SANITIZED = TOP / "out" / "sanitized"
LIBRARIES = ("papr_bytes", "papr_shared", "papr_c")
STRICT = ("-std=gnu11", "-g", "-pthread", "-Wall", "-Wextra", "-Werror", f"-I{TOP / 'include'}")
SHARED = DATA / "shared"
HAMMER = [EXAMPLES / "shared" / f"{name}.c" for name in ("hammer", "calls", "entry", "history", "replies")]
HAMMERED = ("4", "10000", "check")
ENTERED = "".join(f"entry {entry:#x}: valid\n" for entry in range(0x20, 0x28)) + "8 of 32 calls entered a page\n"

# A table on the heap that is an entry shorter than its caller says, and a read of the last one.
TOO_SHORT = """\
#include <papr.h>
#include <stdlib.h>
int main(void)
{
    struct papr_entry *table = calloc((1 << 14) - 1, sizeof *table);
    return papr_h_read(table, 1 << 14, 18, 0, (1 << 14) - 1, NULL, 0, NULL, 0).rc == PAPR_H_SUCCESS ? 0 : 2;
}
"""
# Two threads that call one table at once, each by papr.h.
NO_LOCK = """\
#include <papr.h>
#include <pthread.h>
static struct papr_entry table[1 << 14];
static void *call(void *unused)
{
    for (int i = 0; i < 1000; i++)
        papr_h_clear_ref(table, 1 << 14, 18, 0, 0, NULL, 0, NULL, 0);
    return unused;
}
int main(void)
{
    pthread_t one, two;
    table[0].valid = true;
    return pthread_create(&one, NULL, call, NULL) || pthread_create(&two, NULL, call, NULL)
        || pthread_join(one, NULL) || pthread_join(two, NULL);
}
"""


class SanitizedTest(ToolTest):
    """A test of programs that are built with one sanitizer's checks, and linked to the libraries that have them too."""

    SANITIZER: ClassVar[str]
    FLAGS: ClassVar[Sequence[str]]
    programs: ClassVar[Path]

    @classmethod
    def setUpClass(cls) -> None:
        """Makes the folder of the programs."""
        super().setUpClass()
        work = tempfile.TemporaryDirectory(prefix="papr-sanitized-")
        cls.addClassCleanup(work.cleanup)
        cls.programs = Path(work.name)

    def setUp(self) -> None:
        """Skips a test where a program with the checks isn't made, or doesn't run."""
        super().setUp()
        alone = self.folder / "alone.c"
        alone.write_text("int main(void) { return 0; }\n", encoding="ascii")
        made = run("cc", *self.FLAGS, "-o", self.folder / "alone", alone)
        if made.status != 0 or run(self.folder / "alone").status != 0:
            self.skipTest(f"the compiler has no {' '.join(self.FLAGS)}")

    def built(self, name: str, *sources: Path) -> Path:
        """A program, which the first test that asks for it builds."""
        program = self.programs / name
        if not program.exists():
            libraries = [SANITIZED / self.SANITIZER / f"lib{library}.a" for library in LIBRARIES]
            words: list[Word] = ["cc", *STRICT, "-O1", *self.FLAGS, "-o", program, *sources, *libraries]
            self.assert_ran(run(*words))
        return program

    def assert_found(self, ran: Ran, what: str, function: str) -> None:
        """The run was ended by a report of this, in this function of the library."""
        self.assertNotEqual(ran.status, 0)
        self.assertIn(what, ran.err)
        self.assertIn(f" in {function}" if self.SANITIZER == "address" else f" {function} ", ran.err)


@needs("cc")
@needs_built(SANITIZED / "address" / "libpapr_bytes.a", "the library with AddressSanitizer's checks", "make sanitized")
class Addresses(SanitizedTest):
    """Programs with the checks of addresses, and of undefined behaviour in what is C."""

    SANITIZER = "address"
    FLAGS = ("-fsanitize=address,undefined", "-fno-sanitize-recover=all")

    @for_each("fields", "marks", "edges", "many-grants", "bytes/large")
    def test_nothing_is_found_in_one_thread_in(self, name: str) -> None:
        self.assert_ran(run(self.built(Path(name).name, DATA / f"{name}.c")))

    @for_each("refusals", "alike", "busy", "resize")
    def test_nothing_is_found_over_a_table_that_threads_share_in(self, name: str) -> None:
        self.assert_ran(run(self.built(name, SHARED / f"{name}.c")))

    def test_nothing_is_found_in_the_replayer(self) -> None:
        replayer = self.built("replayer", *sorted((EXAMPLES / "c").glob("*.c")))
        for trace in sorted(EXAMPLES.glob("*.trace")):
            replies = trace.with_suffix(".replies").read_text(encoding="ascii")
            status = 2 if replies.startswith("papr: ") else 0
            self.assert_ran(run(replayer, given=trace), replies, status=status)

    def test_nothing_is_found_in_threads(self) -> None:
        self.assert_ran(run(self.built("hammer", *HAMMER), *HAMMERED), out=None)

    def test_a_table_that_is_too_short_is_found_in_the_library(self) -> None:
        source = self.folder / "short.c"
        source.write_text(TOO_SHORT, encoding="ascii")
        self.assert_found(run(self.built("short", source)), "heap-buffer-overflow", "papr_h_read")


@needs("cc")
@needs_built(SANITIZED / "thread" / "libpapr_bytes.a", "the library with ThreadSanitizer's checks", "make sanitized")
class Threads(SanitizedTest):
    """Programs with the checks of races."""

    SANITIZER = "thread"
    FLAGS = ("-fsanitize=thread",)

    def test_nothing_is_found_in_threads(self) -> None:
        self.assert_ran(run(self.built("hammer", *HAMMER), *HAMMERED), out=None)

    def test_nothing_is_found_in_the_small_example(self) -> None:
        self.assert_ran(run(self.built("two-threads", EXAMPLES / "shared" / "two-threads.c")), ENTERED)

    def test_nothing_is_found_beside_a_thread_that_is_stopped_inside_a_call(self) -> None:
        self.assert_ran(run(self.built("busy", SHARED / "busy.c")))

    def test_calls_with_no_lock_are_found_in_the_library(self) -> None:
        source = self.folder / "unlocked.c"
        source.write_text(NO_LOCK, encoding="ascii")
        self.assert_found(run(self.built("unlocked", source)), "data race", "papr_h_clear_ref")
