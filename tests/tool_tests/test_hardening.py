"""Tests of what compiler and linker add against wrong writes, as docs/HOSTILE.md has it."""

import runpy
from pathlib import Path

from .emulator import EMULATED
from .support import BYTES_LIBRARY, LIBRARY, PROGRAM, SHARED_TABLE, TOP, VERSION, ToolTest, for_each, missing, needs
from .support import needs_bytes_library, needs_library, needs_program, needs_shared_table, run

BUILD = TOP / "tools" / "targets" / "build-for"
COMPILERS = ("cc", *(machine.compiler for machine in EMULATED))
# A function whose array another one fills.
ARRAY = """\
void fill(char *text);
int first(void);

int first(void)
{
    char text[64];
    fill(text);
    return text[0];
}
"""


@needs("readelf")
class Linked(ToolTest):
    """The program and the shared objects."""

    def assert_limited(self, path: Path) -> None:
        """At any address, with relocations that are read-only after the start, and no code on the stack."""
        self.assertIn("DYN", run("readelf", "-hW", path).out)
        segments = run("readelf", "-lW", path).out.splitlines()
        self.assertTrue(any("GNU_RELRO" in line for line in segments))
        stacks = [line.split() for line in segments if "GNU_STACK" in line]
        self.assertEqual([[word for word in words if set(word) <= set("RWE")] for words in stacks], [["RW"]])
        self.assertIn("NOW", run("readelf", "-dW", path).out)

    @needs_program
    def test_the_program(self) -> None:
        self.assert_limited(PROGRAM)

    @needs("cc")
    @needs_library
    @needs_shared_table
    @needs_bytes_library
    def test_the_shared_objects(self) -> None:
        for name, archives in (("papr", (LIBRARY, SHARED_TABLE)), ("papr_bytes", (BYTES_LIBRARY,))):
            made = self.folder / f"lib{name}.so.{VERSION}"
            self.assert_ran(run(TOP / "tools" / "shared-library", *archives, made))
            self.assert_limited(made)


@needs("nm")
class Compiled(ToolTest):
    """The C of the programs for other processors, by the flags of their build."""

    def names(self, compiler: str, source: Path) -> set[str]:
        """What an object of this file has and needs."""
        if missing(compiler):
            self.skipTest(f"{compiler} is not installed")
        flags: list[str] = runpy.run_path(str(BUILD))["FLAGS"]
        made = self.folder / f"{source.stem}.o"
        self.assert_ran(run(compiler, *flags, f"-I{TOP / 'include'}", "-fPIC", "-c", source, "-o", made))
        return {line.split()[-1] for line in run("nm", made).out.splitlines()}

    @for_each(*COMPILERS)
    def test_an_array_on_the_stack_is_guarded_by(self, compiler: str) -> None:
        source = self.folder / "array.c"
        source.write_text(ARRAY, encoding="ascii")
        self.assertIn("__stack_chk_fail", self.names(compiler, source))

    @for_each(*COMPILERS)
    def test_the_program_has_no_array_on_its_stack_by(self, compiler: str) -> None:
        self.assertNotIn("__stack_chk_fail", self.names(compiler, BUILD.parent / "program.c"))

    @for_each(*COMPILERS)
    def test_the_heap_still_needs_just_that_of_c_by(self, compiler: str) -> None:
        found = self.names(compiler, BUILD.parent / "heap.c")
        names = {name for name in found if not name.startswith(("papr", "__rattle", "_"))}
        self.assertLessEqual({"malloc", "realloc", "free"}, names)
        self.assertNotIn("__stack_chk_fail", found)
