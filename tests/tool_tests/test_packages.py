"""Tests of what is installed: pages, completions, packages."""

import os
import re
import shutil
import tempfile
from pathlib import Path
from typing import ClassVar

from .built import HERE, OBJECTS, words_of
from .decoder import make_decoder
from .installed import COMMANDS, FORMATS, make
from .support import DATA, DOCS, EXAMPLES, MAJOR, TOP, VERSION, Ran, ToolTest, Word, for_each, needs, run, write_script

WORDS = ["run", "par", "check", "set", "image", "drill"]
BASH, ZSH, FISH = (TOP / "completions" / f"papr.{shell}" for shell in ("bash", "zsh", "fish"))

# A program that stands for papr where only its place matters.
STAND_IN = "#!/bin/sh\necho stand-in\n"
A_LIBRARY = "what stands for the library\n"

# A completion by bash: of the last of the words behind the script, of which the first is the command.
COMPLETE = """\
. "$1"; shift
COMP_WORDS=("$@") COMP_CWORD=$(($# - 1))
set -- $(complete -p "${1##*/}") && while [ "$1" != -F ]; do shift; done
"$2" "${COMP_WORDS[0]}" && printf '%s\\n' "${COMPREPLY[@]}"
"""


def text_of(path: Path) -> str:
    """A file's text."""
    return path.read_text(encoding="utf-8")


def libraries(stand_in: Path) -> list[str]:
    """What has make install this file as each library, and build none."""
    return words_of(dict.fromkeys([*HERE, *OBJECTS], stand_in))


def page(command: str) -> Path:
    """A command's page."""
    return TOP / "man" / f"{command}.1"


def scripts() -> list[Path]:
    """The scripts for a shell that are committed or made beside what is."""
    names = ("", ".ci", "tests", "tools", "examples", "bench")
    found = [path for name in names for path in sorted((TOP / name).glob("*"))]
    files = [path for path in found if path.is_file()]
    return [path for path in files if re.match(rb"#!.*\b(ba)?sh\n", path.read_bytes()[:64])]


class Completions(ToolTest):
    """What the shells complete."""

    def by_bash(self, *words: Word) -> list[str]:
        """What bash completes of the last of these words."""
        ran = run("bash", "-c", COMPLETE, "bash", BASH, *words, folder=self.folder)
        self.assert_ran(ran, out=None)
        return ran.out.split()

    def test_bash_completes_commands(self) -> None:
        self.assertEqual(self.by_bash("papr", "d"), ["drill", "decode", "diff"])
        self.assertEqual(self.by_bash("papr", "help", "from"), ["from-qemu"])
        self.assertEqual(self.by_bash("papr", "image", ""), ["old", "new"])
        self.assertEqual(self.by_bash("papr", "run", "--o"), ["--output"])

    def test_bash_completes_files(self) -> None:
        (self.folder / "a trace").touch()
        for words in ("run a", "check x a", "image old a", "run -o a", "why a"):
            self.assertEqual(self.by_bash("papr", *words.split()), ["a", "trace"])
        self.assertEqual(self.by_bash("papr", "drill", "a"), [])

    def test_bash_completes_a_tools_options(self) -> None:
        self.assertEqual(self.by_bash(TOP / "papr", "receipts", "--c"), ["--csv"])
        (self.folder / "papr-receipts").symlink_to(TOP / "tools" / "receipts")
        self.assertEqual(self.by_bash(self.folder / "papr-receipts", "--c"), ["--csv"])

    def test_the_completions_know_all_commands(self) -> None:
        tools = [command.removeprefix("papr-") for command in COMMANDS]
        self.assertCountEqual(self.by_bash("papr", ""), [*WORDS, *tools, "help", "--help", "--version"])
        self.assertCountEqual(re.findall(r"(?m)^ +'([a-z-]+)\[", text_of(ZSH)), [*WORDS, *tools, "help"])
        first = re.findall(r"is_first_token -a ([a-z-]+) ", text_of(FISH))
        self.assertCountEqual(first, [*WORDS, *tools, "help"])
        synopsis = text_of(page("papr")).partition(".Sh DESCRIPTION")[0]
        self.assertEqual(re.findall(r"(?m)^\.Cm ([a-z]+)$", synopsis), [*WORDS, "help"])
        mentioned = text_of(page("papr"))
        self.assertEqual([tool for tool in tools if f"papr-{tool} 1" not in mentioned], [])

    @for_each(*COMMANDS)
    def test_fish_knows_the_options_of(self, command: str) -> None:
        """As a command, and behind papr."""
        tool = command.removeprefix("papr-")
        ran = run(TOP / "papr", tool, "--help")
        self.assert_ran(ran, out=None)
        helped = set(re.findall(r"--([a-z][a-z-]+)", ran.out)) - {"help"}
        behind = f"complete -c papr -n '__fish_seen_subcommand_from {tool}' "
        for words in (f"complete -c {command} ", behind):
            lines = [line for line in text_of(FISH).splitlines() if line.startswith(words)]
            self.assertEqual({word for line in lines for word in re.findall(r" -l ([a-z-]+)", line)}, helped)

    @needs("zsh")
    def test_zsh_completes_papr_and_its_tools(self) -> None:
        (self.folder / "_papr").write_bytes(ZSH.read_bytes())
        words = (
            f"fpath=({self.folder} $fpath); autoload -Uz compinit; compinit -u -d {self.folder}/dump; "
            "print -l $_comps[papr] $_comps[papr-why]"
        )
        self.assert_ran(run("zsh", "-f", "-c", words), "_papr\n_papr\n")
        self.assert_ran(run("zsh", "-n", ZSH))

    @needs("fish")
    def test_fish_completes_words_and_options(self) -> None:
        words = f"source {FISH}; complete -C 'papr '; echo; complete -C 'papr-diff --'"
        ran = run("fish", "-N", "-c", words, environment={"HOME": str(self.folder)})
        self.assert_ran(ran, out=None, err=None)
        parts = [part.splitlines() for part in ran.out.split("\n\n")]
        completed = [[line.partition("\t")[0] for line in part] for part in parts]
        tools = [command.removeprefix("papr-") for command in COMMANDS]
        self.assertEqual(completed, [sorted([*WORDS, *tools, "help"]), ["--help", "--short"]])


class Pages(ToolTest):
    """The manual."""

    @needs("mandoc")
    def test_mandoc_has_no_warning(self) -> None:
        self.assert_ran(run("mandoc", "-T", "lint", "-W", "warning", *sorted((TOP / "man").glob("*.[15]"))))

    @needs("man")
    def test_man_has_no_warning(self) -> None:
        for command in ("papr", *COMMANDS):
            with self.subTest(command=command):
                ran = run("man", "--warnings", "-l", page(command))
                self.assert_ran(ran, out=None)
                self.assertIn(command.upper(), ran.out)
        for name in FORMATS:
            ran = run("man", "--warnings", "-l", TOP / "man" / f"{name}.5")
            self.assert_ran(ran, out=None)
            self.assertIn(f"{name.upper()}(5)", ran.out)

    def test_the_pages_of_formats_have_all_lines_and_reasons(self) -> None:
        """As the documents have them."""
        formats = text_of(DOCS / "FORMATS.md")
        trace = text_of(TOP / "man" / "papr-trace.5")
        for heading in ("### Configuration lines", "### Run lines", "### Refusals"):
            rows = formats.partition(f"\n{heading}\n")[2].split("\n#")[0].splitlines()
            cells = [row.split("|")[1] for row in rows if row.startswith("|")][2:]
            words = {word for cell in cells for word in re.findall(r"`(?:C )?([A-Za-z_]+)", cell)}
            self.assertTrue(words)
            self.assertEqual([word for word in words if not re.search(rf"\b{word}\b", trace)], [])
        replies = text_of(TOP / "man" / "papr-replies.5")
        answers = re.findall(r"`([a-z]+)`", formats.partition("The answers are")[2].partition(".")[0])
        self.assertGreater(len(answers), 10)
        self.assertEqual([word for word in answers if not re.search(rf"\b{word}\b", replies)], [])

    @for_each(*COMMANDS)
    def test_a_page_has_just_the_options_of_the_help_of(self, command: str) -> None:
        text = text_of(page(command))
        (tool,) = re.findall(r"(?m)^\.Pq Pa (tools[^ ]*) ", text)
        ran = run(TOP / tool, "--help")
        self.assert_ran(ran, out=None)
        helped = set(re.findall(r"--[a-z][a-z-]+", ran.out)) - {"--help"}
        self.assertEqual({f"--{name}" for name in re.findall(r"Fl Fl ([a-z-]+)", text)}, helped)

    def test_the_newest_changes_are_those_of_the_version(self) -> None:
        versions = re.findall(r"(?m)^## ([0-9.]+)", text_of(TOP / "CHANGELOG.md"))
        self.assertEqual(versions[0], VERSION)


@needs("make")
class Installing(ToolTest):
    """What `make` installs, with files that stand for the program and the library."""

    tree: ClassVar[Path]
    usr: ClassVar[Path]

    @classmethod
    def setUpClass(cls) -> None:
        """Installs into a tree, once for the class."""
        super().setUpClass()
        work = tempfile.TemporaryDirectory(prefix="papr-tree-")
        cls.addClassCleanup(work.cleanup)
        cls.tree = Path(work.name) / "tree"
        cls.usr = cls.tree / "usr"
        program = write_script(Path(work.name) / "program", STAND_IN)
        library = write_script(Path(work.name) / "library", A_LIBRARY)
        make("install", cls.tree, *libraries(library), f"PROGRAM={program}")

    def run_installed(self, command: str, *words: Word) -> Ran:
        """Runs a command from the tree."""
        return run(self.usr / "bin" / command, *words)

    @for_each("papr", "papr_shared", "papr_bytes")
    def test_make_install_puts_the_library(self, name: str) -> None:
        self.assertEqual(text_of(self.usr / "lib" / f"lib{name}.a"), A_LIBRARY)
        self.assert_same_file(self.usr / "include" / f"{name}.h", TOP / "include" / f"{name}.h")
        described = text_of(self.usr / "lib" / "pkgconfig" / f"{name}.pc").splitlines()
        self.assertEqual([line for line in described if line.startswith("Version")], [f"Version: {VERSION}"])

    @for_each("papr", "papr_bytes")
    def test_make_install_puts_the_shared_object(self, name: str) -> None:
        for ending in ("so", f"so.{MAJOR}", f"so.{VERSION}"):
            self.assertEqual(text_of(self.usr / "lib" / f"lib{name}.{ending}"), A_LIBRARY)

    @for_each(
        "c/replay.c",
        "c/bytes/call.c",
        "cmake/CMakeLists.txt",
        "rust/enter.rs",
        "rust/two-threads.rs",
        "shared/hammer.c",
    )
    def test_make_install_puts_the_example(self, name: str) -> None:
        self.assert_same_file(self.usr / "share" / "doc" / "papr" / "examples" / name, EXAMPLES / name)

    def test_make_install_puts_the_program_the_documents_and_the_examples(self) -> None:
        self.assertEqual(text_of(self.usr / "libexec" / "papr" / "papr"), STAND_IN)
        self.assert_same_file(self.usr / "bin" / "papr", TOP / "papr")
        share = self.usr / "share"
        self.assert_same_file(share / "zsh" / "site-functions" / "_papr", ZSH)
        self.assert_same_file(share / "doc" / "papr" / "docs" / "FORMATS.md", DOCS / "FORMATS.md")
        self.assert_same_file(share / "doc" / "papr" / "examples" / "first.trace", EXAMPLES / "first.trace")

    @for_each("papr", *COMMANDS)
    def test_make_install_puts_the_page_and_the_completions_of(self, command: str) -> None:
        share = self.usr / "share"
        self.assertTrue(os.access(self.usr / "bin" / command, os.X_OK))
        self.assert_same_file(share / "man" / "man1" / f"{command}.1", page(command))
        self.assert_same_file(share / "bash-completion" / "completions" / command, BASH)
        self.assert_same_file(share / "fish" / "vendor_completions.d" / f"{command}.fish", FISH)

    @for_each(*COMMANDS)
    def test_where_it_is_installed_a_tool_speaks_by_its_name(self, command: str) -> None:
        self.assert_help(self.usr / "bin" / command)

    @for_each(*FORMATS)
    def test_make_install_puts_the_page_of_formats(self, name: str) -> None:
        self.assert_same_file(self.usr / "share" / "man" / "man5" / f"{name}.5", TOP / "man" / f"{name}.5")

    def test_the_tools_run_from_where_they_are_installed(self) -> None:
        converted = self.run_installed("papr-from-qemu", DATA / "small.log")
        self.assert_ran(converted, text_of(DATA / "small.trace"), err=None)
        notes = [line for line in text_of(DATA / "small.trace").splitlines() if line.startswith("# ")][1:]
        self.assert_text(converted.err, "".join(f"papr-from-qemu: {note[2:]}\n" for note in notes))
        drawn = self.run_installed("papr-history", "0x20", EXAMPLES / "sharing.replies")
        self.assert_ran(drawn, text_of(DOCS / "history.svg"))

    def test_the_python_package_is_beside_the_tools(self) -> None:
        installed = self.usr / "share" / "papr" / "papr"
        for path in sorted((TOP / "bindings" / "python" / "papr").glob("*.py")):
            self.assert_same_file(installed / path.name, path)
        self.assertTrue((installed / "py.typed").is_file())

    @needs("cc")
    def test_the_installed_tools_find_the_installed_library(self) -> None:
        """By their places in the tree, since no variable names it."""
        tree = self.folder / "tree"
        shutil.copytree(self.tree, tree, symlinks=True)
        shutil.copy(make_decoder(self.folder), tree / "usr" / "lib" / f"libpapr.so.{VERSION}")
        words = ("0x1001", "0x3012", "--index", "0x27")
        ran = run(tree / "usr" / "bin" / "papr-decode", *words, environment={"PAPR_SHARED_LIBRARY": ""})
        self.assert_ran(ran, out=None)
        self.assertIn("segment      VSID 0x1, of 256 MB (B 0)\npage         0x5,", ran.out)

    def test_make_uninstall_takes_all_away(self) -> None:
        tree = self.folder / "tree"
        shutil.copytree(self.tree, tree, symlinks=True)
        self.assert_help(tree / "usr" / "bin" / "papr-why")
        make("uninstall", tree)
        self.assertEqual([path for path in tree.rglob("*") if not path.is_dir()], [])
        self.assertEqual([path for path in tree.rglob("papr")], [])

    def test_a_prefix_and_a_destination_with_blanks(self) -> None:
        """All is put there and taken away from there, and nothing is put anywhere else."""
        tree, prefix = self.folder / "a tree", "/opt/in st"
        library = write_script(self.folder / "library", A_LIBRARY)
        program = write_script(self.folder / "program", STAND_IN)
        words: list[Word] = ["make", "-s", "-C", TOP, f"DESTDIR={tree}", f"PREFIX={prefix}"]
        self.assert_ran(run(*words, "install", *libraries(library), f"PROGRAM={program}"))
        installed = Path(f"{tree}{prefix}")
        self.assert_same_folder(installed / "share" / "doc", self.usr / "share" / "doc")
        self.assertIn(f"prefix={prefix}\n", text_of(installed / "lib" / "pkgconfig" / "papr.pc"))
        self.assert_ran(run(installed / "bin" / "papr", "run"), "stand-in\n")
        self.assert_help(installed / "bin" / "papr-why")
        self.assert_ran(run(*words, "uninstall"))
        self.assertEqual([path for path in self.folder.rglob("*") if not path.is_dir()], [library, program])
        self.assertEqual([path for path in tree.rglob("papr")], [])

    @needs("pkg-config")
    def test_pkg_config_names_folders_with_blanks(self) -> None:
        tree = self.folder / "a tree"
        library = write_script(self.folder / "library", A_LIBRARY)
        self.assert_ran(run("make", "-s", "-C", TOP, f"PREFIX={tree}", "install-library", *libraries(library)))
        variables = {"PKG_CONFIG_PATH": str(tree / "lib" / "pkgconfig")}
        flags = run("pkg-config", "--cflags", "--libs", "papr", environment=variables)
        self.assert_ran(flags, out=None)
        named = run("sh", "-c", f"printf '%s\\n' {flags.out.strip()}").out.splitlines()
        self.assertEqual(named, [f"-I{tree}/include", f"-L{tree}/lib", "-lpapr"])
        flags = run("pkg-config", "--static", "--libs", "papr_shared", environment=variables)
        self.assert_ran(flags, out=None)
        named = run("sh", "-c", f"printf '%s\\n' {flags.out.strip()}").out.splitlines()
        self.assertEqual(sorted({*named}), [f"-L{tree}/lib", "-lpapr", "-lpapr_shared"])


@needs("make")
class Packages(ToolTest):
    """What `make` packs."""

    def make(self, target: str, *words: str) -> None:
        """Runs make, with this test's folder for what it packs."""
        ran = run("make", "-s", "-C", TOP, target, f"dist={self.folder}", *words)
        self.assert_ran(ran, out=None, err=None)

    @needs("git", "tar")
    def test_make_dist_packs_the_committed_sources_and_nothing_that_was_made(self) -> None:
        if run("git", "-C", TOP, "rev-parse", "HEAD").status:
            self.skipTest("this is no checkout of git")
        self.make("dist")
        packed = run("tar", "-tzf", self.folder / f"papr-{VERSION}.tar.gz").out.splitlines()
        committed = run("git", "-C", TOP, "ls-tree", "-r", "--name-only", "HEAD").out.splitlines()
        self.assertIn("papr", committed)
        self.assertIn("crates.txt", committed)
        files = [name for name in packed if not name.endswith("/")]
        self.assertCountEqual(files, [f"papr-{VERSION}/{name}" for name in committed])
        self.assertEqual([name for name in packed if "/out/" in name], [])

    @needs("git", "tar")
    def test_make_dist_in_what_was_unpacked_packs_the_same(self) -> None:
        """Where there is no git, with what was made left out."""
        if run("git", "-C", TOP, "rev-parse", "HEAD").status:
            self.skipTest("this is no checkout of git")
        self.make("dist")
        archive, again = self.folder / f"papr-{VERSION}.tar.gz", self.folder / "again"
        self.assert_ran(run("tar", "-xzf", archive, "-C", self.folder))
        unpacked = self.folder / f"papr-{VERSION}"
        commit = run("git", "-C", TOP, "rev-parse", "HEAD").out
        self.assertTrue(commit.startswith(text_of(unpacked / "COMMIT").strip()))
        write_script(unpacked / "out" / "made", "")
        ran = run("make", "-s", "-C", unpacked, "dist", f"dist={again}")
        self.assert_ran(ran)
        names = [
            sorted(name for name in run("tar", "-tzf", it).out.splitlines() if not name.endswith("/"))
            for it in (archive, again / archive.name)
        ]
        self.assertEqual(names[1], names[0])
        version = run(unpacked / "papr", "--version")
        self.assert_ran(version, out=None)
        self.assertIn(f"\ncommit {text_of(unpacked / 'COMMIT')}", version.out)


class Scripts(ToolTest):
    """The scripts for shells."""

    @needs("shellcheck")
    def test_shellcheck_has_no_warning(self) -> None:
        found = scripts()
        self.assertIn(TOP / "papr", found)
        self.assertIn(EXAMPLES / "check", found)
        self.assert_ran(run("shellcheck", "-x", "-S", "warning", *found, folder=TOP))
        self.assert_ran(run("shellcheck", "-S", "warning", "-s", "bash", BASH))
