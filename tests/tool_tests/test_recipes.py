"""Tests that the commands in the documents run, and write what the documents say.

The shell blocks of a document run in its order, in a folder of their own that has the sources' tools and
examples, and the program. Blocks that need a network, the toolchain or minutes are read by the shell, and
not run.
"""

import re
import shutil
import tempfile
from dataclasses import dataclass
from pathlib import Path
from typing import ClassVar, Optional

from .support import DATA, LIBRARY, PROGRAM, TOOLS, TOP, Ran, ToolTest, for_each, missing, needs
from .support import needs_library, needs_program, run

PROGRAM_PLACE = "crates/papr_main/out/papr_main"
BLOCKS = re.compile(r"^```sh\n(.*?)^```\n(?:```text\n(.*?)^```\n)?", re.MULTILINE | re.DOTALL)
TRANSCRIPT = re.compile(r"^```text\n(\$ .*?)^```\n", re.MULTILINE | re.DOTALL)
UNNAMED = re.compile(r"^```\n(.*?)^```\n", re.MULTILINE | re.DOTALL)
IN_C = re.compile(r"^```c\n(.*?)^```\n", re.MULTILINE | re.DOTALL)
INDENTED = re.compile(r"^    (\./papr |papr |tools/|make |rt (?:new|try|run)|bench/|cc )", re.MULTILINE)

RECIPES = "docs/RECIPES.md"
PAGES = (
    "README.md",
    RECIPES,
    "docs/CONFORMANCE.md",
    "docs/RECORDING.md",
    "docs/LIBRARY.md",
    "docs/QEMU.md",
    "docs/PERFORMANCE.md",
)

# Blocks that aren't run, each by a word that it alone has, with the reason.
LEFT_OUT = {
    "rt try -- run": "builds the program without its proof: a minute",
    ".ci/run": "the whole gate: an hour",
    "apt-get install --no": "needs a network, and runs a guest for a minute",
    "rt new": "needs the toolchain: test_library makes that crate and runs it",
    "make library": "proves the libraries: minutes; test_c_library links them",
    "cargo run": "needs the library for C: test_rust_binding runs it",
    "shared/two-threads.c": "links what is installed; test_shared_table builds the program",
    "bytes/call.c": "links what is installed; test_c_library builds the program",
    "tools/qemu-papr/build": "needs a network, and builds QEMU",
    "--until": "boots a guest in the QEMU that was built",
    "--sshlogin": "needs several machines; test_cut_recordings runs it with a script in the place of parallel",
    "papr-record=recorded": "records a guest in the QEMU that was built; test_recordings judges recordings",
    "parts/part-7": "looks into such a recording; test_bad_line runs the tool",
    "bench/speed": "measures for minutes",
    "bench/pool": "proves and measures for minutes",
    "bench/table": "proves and measures for minutes",
}


@dataclass(frozen=True)
class Block:
    """Commands of a document, and what they write, if it says so."""

    page: str
    number: int
    command: str
    written: Optional[str]

    @property
    def reason(self) -> Optional[str]:
        """Why it isn't run, if it isn't."""
        return next((LEFT_OUT[word] for word in LEFT_OUT if word in self.command), None)

    def __str__(self) -> str:
        return f"{Path(self.page).stem.lower()} {self.number}"


def text_of(page: str) -> str:
    """A document."""
    return (TOP / page).read_text(encoding="utf-8")


def blocks_of(page: str) -> list[Block]:
    """The shell blocks of a document."""
    found = BLOCKS.finditer(text_of(page))
    return [Block(page, number, it[1], it[2]) for number, it in enumerate(found, 1)]


ALL = [block for page in PAGES for block in blocks_of(page)]
RUN = [block for block in ALL if block.reason is None]


def sources(folder: Path) -> None:
    """Puts into a folder what the documents use of the sources, with the program under test as the built one."""
    for name in ("bindings", "docs", "examples", "tests", "crates.txt", "LICENSE-MIT", "LICENSE-APACHE"):
        (folder / name).symlink_to(TOP / name)
    place = folder / PROGRAM_PLACE
    place.parent.mkdir(parents=True)
    shutil.copy(PROGRAM, place)
    for crate in (TOP / "crates").iterdir():
        if crate.name not in PROGRAM_PLACE:
            (folder / "crates" / crate.name).symlink_to(crate)
    shutil.copytree(TOOLS, folder / "tools", ignore=shutil.ignore_patterns("__pycache__"))
    shutil.copy(TOP / "papr", folder)


def folder_of(work: Path, page: str) -> Path:
    """A folder for the commands of a document, with what it takes for granted."""
    folder = work / Path(page).stem / "papr"
    folder.mkdir(parents=True)
    sources(folder)
    (folder.parent / "emulator").mkdir()
    shutil.copy(DATA / "small.log", folder / "int.log")
    return folder


@needs_program
@needs("bash", "xz")
class Commands(ToolTest):
    """The commands, each on the files that those before it in its document made."""

    ran: ClassVar[dict[str, Ran]]
    left: ClassVar[list[str]]
    beside: ClassVar[list[str]]

    @classmethod
    def setUpClass(cls) -> None:
        """Runs them all, once for the class."""
        super().setUpClass()
        work = tempfile.TemporaryDirectory(prefix="papr-documents-")
        cls.addClassCleanup(work.cleanup)
        folders = {page: folder_of(Path(work.name), page) for page in PAGES}
        temporary, place = Path(work.name) / "temporary", Path(work.name) / "place"
        temporary.mkdir()
        cls.ran = {}
        for block in RUN:
            line = f'{block.command}\nstatus=$?; pwd >"$0"; exit "$status"'
            environment = {"TMPDIR": str(temporary)}
            cls.ran[str(block)] = run("bash", "-c", line, place, folder=folders[block.page], environment=environment)
            if place.is_file():  # the next one begins where this one ended
                folders[block.page] = Path(place.read_text(encoding="utf-8").rstrip("\n"))
                place.unlink()
        cls.left = sorted(it.name for it in folder_of(Path(work.name) / "new", RECIPES).iterdir())
        beside = (Path(work.name) / "RECIPES" / "papr").iterdir()
        cls.beside = sorted(it.name for it in beside if it.name != "out")  # git takes no notice of that

    @for_each(*map(str, RUN))
    def test_the_document_says_what_its_command_writes(self, name: str) -> None:
        """Status 1 is that of diff, and of tools/why."""
        block, ran = next(it for it in RUN if str(it) == name), self.ran[name]
        if "sqlite3" in block.command and missing("sqlite3"):
            self.skipTest("sqlite3 is not installed")
        self.assertIn(ran.status, (0, 1), f"{block.command}{ran.err}")
        if block.written is not None:
            self.assert_text(ran.out, block.written)

    def test_the_recipes_leave_nothing_in_the_sources(self) -> None:
        self.assertEqual(self.beside, self.left)


class Pages(ToolTest):
    """The documents themselves."""

    @needs("bash")
    @for_each(*map(str, ALL))
    def test_the_shell_reads_the_block(self, name: str) -> None:
        block = next(it for it in ALL if str(it) == name)
        self.assert_ran(run("bash", "-n", given=block.command), out="")

    def test_each_word_of_a_block_that_is_left_out_names_one(self) -> None:
        for word in LEFT_OUT:
            self.assertEqual([word in block.command for block in ALL].count(True), 1, word)

    @for_each(*PAGES)
    def test_no_command_is_only_indented(self, page: str) -> None:
        """So that all commands are blocks for the shell."""
        self.assertEqual(INDENTED.findall(text_of(page)), [])

    def test_each_block_of_the_recipes_is_a_recipe_or_what_one_writes(self) -> None:
        page, found = text_of("docs/RECIPES.md"), blocks_of("docs/RECIPES.md")
        written = [block for block in found if block.written is not None]
        self.assertEqual(page.count("```\n"), len(found) + len(written))
        self.assertGreater(len(written), 10)


@needs_program
class Texts(ToolTest):
    """Transcripts, traces and code in the documents."""

    def test_the_transcript_in_the_readme_is_what_its_commands_write(self) -> None:
        found = TRANSCRIPT.search(text_of("README.md"))
        transcript = found[1] if found else ""
        commands = [line for line in transcript.splitlines() if line.startswith("$ ")]
        self.assertTrue(commands)
        sources(self.folder)
        written = ""
        for line in commands:
            ran = run("bash", "-c", line[2:], folder=self.folder)
            self.assert_ran(ran, out=None)
            written += f"{line}\n{ran.out}"
        self.assert_text(written, transcript)

    def test_the_traces_of_the_formats_have_the_replies_that_follow(self) -> None:
        """A block with a line `begin` is a trace or a set; the next one without is its replies."""
        found = UNNAMED.findall(text_of("docs/FORMATS.md"))
        inputs = [at for at, text in enumerate(found) if re.search(r"(?m)^(\d )?begin$", text)]
        self.assertGreater(len(inputs), 2)
        for at in inputs:
            command = "set" if found[at].startswith("shared") else "run"
            ran = run(PROGRAM, command, given=found[at])
            has_replies = at + 1 < len(found) and at + 1 not in inputs
            self.assert_ran(ran, out=found[at + 1] if has_replies else "")


# What the lines of C take for granted.
HELPERS = """\
#include <papr.h>
#include <papr_shared.h>
#include <sched.h>
#include <stdlib.h>
void send(uint32_t index, const struct papr_entry *entry);
void tlb_fill(uint64_t ea, uint64_t logical, uint8_t shift, uint32_t rights);
void give_way(unsigned tries);
"""
IN_HEADER = re.compile(r"(?m)^ \* {5}(.*)$")


class Compiled(ToolTest):
    """The lines of C in the documents and at the head of papr_shared.h, as C and as C++."""

    def assert_compiles(self, text: str, language: str) -> None:
        """The text has no error, and nothing that a compiler warns of."""
        compiler = {"c": "cc", "c++": "c++"}[language]
        options = [f"-x{language}", "-Wall", "-Wextra", "-Werror", "-fsyntax-only", f"-I{TOP / 'include'}"]
        self.assert_ran(run(compiler, *options, "-", given=text))

    @needs("cc", "c++")
    @for_each("c", "c++")
    def test_those_of_the_documents(self, language: str) -> None:
        """Each block may use what those before it declare."""
        first, *others = [block for page in PAGES for block in IN_C.findall(text_of(page))]
        self.assertGreater(len(others), 3)
        blocks = ["", f"{first}(void)reply;\n", *others]  # (which its remark alone looks at)
        self.assert_compiles(f"{HELPERS}void lines(void)\n{'{'.join(blocks)}{'}' * len(blocks[1:])}\n", language)

    @needs("cc", "c++")
    @for_each("c", "c++")
    def test_those_of_the_header(self, language: str) -> None:
        """A try again gives way to other threads."""
        lines = "\n".join(IN_HEADER.findall((TOP / "include" / "papr_shared.h").read_text(encoding="ascii")[:3_000]))
        self.assertIn("sched_yield();", lines)
        numbers = ", ".join(f"uint64_t {name}" for name in ("flags", "ptex", "pteh", "ptel"))
        given = f"struct papr_pass pass, struct papr_grants grants, {numbers}"
        rooms = "uint64_t words[8]; struct papr_receipt receipts[16];"
        self.assert_compiles(f"{HELPERS}void lines({given})\n{{\n{rooms}\n{lines}\n}}\n", language)


@needs_library
@needs("cc")
class InC(ToolTest):
    """The first lines of C in docs/LIBRARY.md."""

    def test_they_compile_and_do_what_their_remark_says(self) -> None:
        found = IN_C.search(text_of("docs/LIBRARY.md"))
        lines = found[1] if found else ""
        self.assertIn("reply.rc is 0, words[0] is 0x20, and receipts[0] says that entry 0x20", lines)
        source = self.folder / "lines.c"
        receipt = "receipts[0].entry == 0x20 && receipts[0].stamp == 0"
        end = f"return reply.rc == 0 && words[0] == 0x20 && {receipt} ? 0 : 1;"
        head = "#include <papr.h>\n#include <stdlib.h>\nint main(void)\n"
        source.write_text(f"{head}{{\n{lines}{end}\n}}\n", encoding="utf-8")
        program = self.folder / "lines"
        self.assert_ran(run("cc", f"-I{TOP / 'include'}", source, LIBRARY, "-o", program))
        self.assert_ran(run(program))
