"""Tests of the note that the gate leaves, of releases, and of what is refused to be one.

The gate and the toolchain are stand-ins. What is released is what is built here, or stand-ins where nothing is.
"""

import hashlib
import os
import shutil
import tempfile
import unittest
from pathlib import Path
from typing import Callable, ClassVar

from .built import make_built, make_stand_ins
from .committed import CRATES, KIT, NAMES, OTHERS, SAID, Committed, listed, without_make
from .emulator import EMULATED, Emulated
from .support import DATA, EXAMPLES, MAJOR, VERSION, ToolTest, for_each, missing, needs
from .support import needs_bytes_library, needs_library, needs_program, run, run_bytes, write_script

Runner = Callable[[Path], Path]
AGAIN = "run tools/gate"
LIBRARIES = ("papr", "papr_shared", "papr_bytes")
FILES = listed()
needs_git = unittest.skipIf(FILES is None, "this is no checkout of git")


class CommittedTest(ToolTest):
    """A test in a checkout of its own, which is made once for the class and is as it was before each test."""

    checkout: ClassVar[Committed]
    commit: ClassVar[str]

    @classmethod
    def setUpClass(cls) -> None:
        """Makes the checkout, with what stands for all that is built."""
        super().setUpClass()
        work = tempfile.TemporaryDirectory(prefix="papr-committed-")
        cls.addClassCleanup(work.cleanup)
        cls.checkout = Committed(Path(work.name), FILES or [])
        cls.commit = cls.checkout.git("rev-parse", "HEAD")

    def setUp(self) -> None:
        super().setUp()
        self.checkout.git("reset", "--quiet", "--hard", self.commit)
        self.checkout.git("clean", "--quiet", "-d", "--force")
        shutil.rmtree(self.checkout.top / "out", ignore_errors=True)
        self.checkout.put({})

    def change(self, name: str) -> None:
        """Changes a file of the checkout."""
        with open(self.checkout.top / name, "a", encoding="utf-8") as file:
            file.write("more\n")

    def commit_change(self) -> None:
        """Commits a change of a file."""
        self.change("README.md")
        self.checkout.git("commit", "--quiet", "--all", "--message", "More")


@needs_git
@needs("git")
class Gate(CommittedTest):
    """What tools/gate notes."""

    def test_a_gate_that_passes_is_noted_with_its_tree(self) -> None:
        ran = self.checkout.gate()
        self.assert_ran(ran, out=None, err=f"gate: this tree passed, {SAID}: out/gate.passed\n")
        self.assertIn(f"rt: basics proved\n{SAID}\n", ran.out)
        text = self.checkout.note.read_text(encoding="utf-8")
        for words in (KIT, SAID, self.checkout.git("rev-parse", "HEAD^{tree}"), '"basics": "', str(NAMES["PROGRAM"])):
            self.assertIn(words, text)
        self.assertNotIn("1234 passed", text)

    def test_a_gate_that_fails_has_its_status_and_takes_the_note_away(self) -> None:
        self.checkout.gate()
        self.assert_ran(self.checkout.gate(ENDS="3"), out=None, status=3)
        self.assertFalse(self.checkout.note.exists())

    def assert_not_noted(self, message: str, **variables: str) -> None:
        """The gate ends with this message, and nothing is noted."""
        ran = self.checkout.gate(**variables)
        self.assert_ran(ran, out=None, status=2, err=f"gate: {message}\n")
        self.assertFalse(self.checkout.note.exists())

    def test_a_tree_that_is_not_committed_is_not_tried(self) -> None:
        self.change("README.md")
        self.assert_not_noted("the tree isn't the committed one: README.md")
        self.assertNotIn(SAID, self.checkout.gate().out)

    def test_a_file_that_is_new_is_a_change_too(self) -> None:
        (self.checkout.top / "new").touch()
        self.assert_not_noted("the tree isn't the committed one: new")

    def test_a_tree_that_changes_meanwhile_has_not_passed(self) -> None:
        self.assert_not_noted("the tree isn't the committed one: README.md", MEANWHILE="echo more >>README.md")
        self.checkout.git("reset", "--quiet", "--hard")
        named = "-c user.name=a -c user.email=a"
        commits = f"echo more >>README.md; git {named} commit --quiet --all --message More"
        self.assert_not_noted("the tree changed while the gate ran; run it again", MEANWHILE=commits)

    def test_a_program_by_another_kit(self) -> None:
        (self.checkout.top / "out" / "build.kit").write_text("an older kit\n", encoding="ascii")
        told = f"the program was built with another kit than {KIT}; remove it and run this again"
        self.assert_not_noted(told)

    def test_a_gate_that_builds_nothing(self) -> None:
        archive = NAMES["BYTES_LIBRARY"]
        self.assert_not_noted(f"{archive} isn't built; {AGAIN}", MEANWHILE=f"rm {archive}")


@needs_git
@needs("git", "make")
class Refused(CommittedTest):
    """Trees of which there is no release, each with the reason."""

    def assert_no_release(self, message: str) -> None:
        """A release is refused with this message, and nothing is made."""
        ran = self.checkout.release()
        self.assertEqual((ran.status, without_make(ran.err)), (2, f"release: {message}\n"), ran.out)
        self.assertFalse(self.checkout.released.exists())

    def test_a_tree_whose_gate_has_not_passed(self) -> None:
        self.assert_no_release(f"no gate has passed here, and a release is of a tree whose gate did; {AGAIN}")

    def test_a_tree_whose_gate_failed(self) -> None:
        self.checkout.gate()
        self.checkout.gate(ENDS="1")
        self.assert_no_release(f"no gate has passed here, and a release is of a tree whose gate did; {AGAIN}")

    def test_a_tree_that_is_not_committed(self) -> None:
        self.checkout.gate()
        self.change("docs/PROVED.md")
        self.assert_no_release("the tree isn't the committed one: docs/PROVED.md")

    def test_another_tree_than_the_one_that_passed(self) -> None:
        trees = [self.checkout.git("rev-parse", "HEAD^{tree}")[:12]]
        self.checkout.gate()
        self.commit_change()
        trees.append(self.checkout.git("rev-parse", "HEAD^{tree}")[:12])
        self.assert_no_release(
            f"the gate that passed here was of another tree, {trees[0]} and not {trees[1]}; {AGAIN}"
        )

    @for_each(*NAMES)
    def test_what_was_built_after_the_gate(self, what: str) -> None:
        self.checkout.gate()
        self.change(str(NAMES[what]))
        self.assert_no_release(f"{NAMES[what]} isn't the one that the gate tested; {AGAIN}")

    def test_what_is_not_built(self) -> None:
        self.checkout.gate()
        (self.checkout.top / NAMES["LIBRARY"]).unlink()
        self.assert_no_release(f"{NAMES['LIBRARY']} isn't built; {AGAIN}")

    @for_each(*OTHERS)
    def test_what_the_gate_tested_and_is_gone_of(self, name: str) -> None:
        self.checkout.put_other(name)
        self.checkout.gate()
        (self.checkout.top / OTHERS[name][0]).unlink()
        self.assert_no_release(f"{OTHERS[name][0]} isn't the one that the gate tested; {AGAIN}")

    def test_sources_that_are_no_checkout_of_git(self) -> None:
        git = self.checkout.top / ".git"
        self.addCleanup(git.with_name("git").rename, git)
        git.rename(git.with_name("git"))
        self.assert_no_release("this is no checkout of git with a commit, and a release is made of one")


def names_in(folder: Path) -> list[str]:
    """The files of a release."""
    return sorted(path.name for path in folder.iterdir())


# The processors for whose packages the tools are here.
PACKED = [machine for machine in EMULATED if not missing(f"{machine.tools}-strip")]


def expected_names(*others: Emulated) -> list[str]:
    """The files of a release with the parts for these processors."""
    archives = [f"papr-{VERSION}-{name}.tar.xz" for name in ("x86_64", *(it.name for it in others))]
    names = ("libpapr-dev", "libpapr0", "papr")
    packages = [f"{name}_{VERSION}_{it}.deb" for name in names for it in ("amd64", *(it.debian for it in others))]
    sources = [f"papr-{VERSION}.tar.gz", f"papr-{VERSION}-py3-none-any.whl"]
    return sorted(["PROVED.txt", "SHA256SUMS", *packages, *archives, *sources])


@needs_git
@needs("git", "make", "cc", "dpkg-deb", "tar", "xz")
class Released(ToolTest):
    """A release of the files that are built here."""

    checkout: ClassVar[Committed]

    @classmethod
    def setUpClass(cls) -> None:
        """Makes one, once for the class."""
        super().setUpClass()
        work = tempfile.TemporaryDirectory(prefix="papr-release-")
        cls.addClassCleanup(work.cleanup)
        cls.checkout = cls.made_in(Path(work.name))

    @staticmethod
    def made_in(folder: Path, **variables: str) -> Committed:
        """A checkout with a release."""
        checkout = Committed(folder, FILES or [])
        checkout.put(make_built(folder))
        for machine in PACKED:
            checkout.put_other(machine.name)
        for ran in (checkout.gate(), checkout.release(**variables)):
            if ran.status:
                raise OSError(f"no release: {ran.err}")
        return checkout

    def unpack(self, name: str) -> Path:
        """The folder that a tarball of the release has, unpacked below one with a blank in its name."""
        folder = self.folder / "un packed"
        folder.mkdir()
        self.assert_ran(run("tar", "-xf", self.checkout.released / name, "-C", folder))
        (found,) = folder.iterdir()
        return found

    def test_its_parts(self) -> None:
        self.assertEqual(names_in(self.checkout.released), expected_names(*PACKED))

    @needs("sha256sum")
    def test_the_sums_are_those_of_all_parts(self) -> None:
        folder = self.checkout.released
        ran = run("sha256sum", "--check", "--strict", "--quiet", "SHA256SUMS", folder=folder)
        self.assert_ran(ran)
        names = [line.split()[1] for line in (folder / "SHA256SUMS").read_text(encoding="ascii").splitlines()]
        self.assertEqual(sorted([*names, "SHA256SUMS"]), sorted(path.name for path in folder.iterdir()))

    def test_a_second_one_from_nothing_has_the_same_bytes(self) -> None:
        """Elsewhere, with other rights for new files, at another time of the clock and in another zone."""
        before = os.umask(0o077)
        self.addCleanup(os.umask, before)
        place = self.folder / "another-place"
        place.mkdir()
        other = self.made_in(place, TZ="Asia/Tokyo", LC_ALL="C", SOURCE_DATE_EPOCH="12345", XZ_OPT="-1")
        self.assert_same_folder(other.released, self.checkout.released)

    def test_what_passed_is_in_the_text(self) -> None:
        text = (self.checkout.released / "PROVED.txt").read_text(encoding="utf-8")
        commit, tree = (self.checkout.git("rev-parse", it) for it in ("HEAD", "HEAD^{tree}"))
        for line in (f"kit     {KIT}", f"commit  {commit}", f"tree    {tree}", f"gate    {SAID}"):
            self.assertIn(f"\n{line}\n", text)
        program = hashlib.sha256((self.checkout.top / NAMES["PROGRAM"]).read_bytes()).hexdigest()
        self.assertIn(f"\n{program}  {NAMES['PROGRAM']}\n", text)

    def test_each_crate_has_the_sum_that_the_text_tells_how_to_make(self) -> None:
        text = (self.checkout.released / "PROVED.txt").read_text(encoding="utf-8")
        (command,) = [line for line in text.splitlines() if line.startswith("    find ")]
        unpacked = self.unpack(f"papr-{VERSION}.tar.gz")
        sums = []
        for name in CRATES:
            ran = run("sh", "-c", command, folder=unpacked / "crates" / name)
            sums.append(f"{hashlib.sha256(ran.out.encode()).hexdigest()}  {name}\n")
        self.assertIn(f"\n\n{''.join(sums)}\n", text)

    @for_each("x86_64", *(machine.name for machine in PACKED))
    def test_a_tarball_has_all_that_is_installed(self, machine: str) -> None:
        tree = self.unpack(f"papr-{VERSION}-{machine}.tar.xz")
        self.assertEqual(tree.name, f"papr-{VERSION}-{machine}")
        for name in (
            "bin/papr",
            "bin/papr-why",
            *(f"lib/lib{it}.so{ending}" for it in ("papr", "papr_bytes") for ending in ("", f".{MAJOR}")),
            *(f"include/{it}.h" for it in LIBRARIES),
            *(f"lib/lib{it}.a" for it in LIBRARIES),
            *(f"lib/pkgconfig/{it}.pc" for it in LIBRARIES),
            "libexec/papr/papr",
            "share/bash-completion/completions/papr",
            "share/doc/papr/docs/papr.html",
            "share/man/man1/papr.1",
            "share/papr/why",
        ):
            self.assertTrue((tree / name).is_file(), name)
        built = self.checkout.top / (NAMES["PROGRAM"] if machine == "x86_64" else OTHERS[machine][0])
        self.assert_same_file(tree / "libexec" / "papr" / "papr", built)
        version = f"{VERSION}\n{self.checkout.git('rev-parse', 'HEAD')[:12]}\n{KIT}\n"
        self.assertEqual((tree / "share" / "papr" / "version").read_text(encoding="ascii"), version)

    @needs_program
    def test_the_program_of_a_tarball_runs_where_it_was_unpacked(self) -> None:
        tree = self.unpack(f"papr-{VERSION}-x86_64.tar.xz")
        variables = {"PATH": "/usr/bin:/bin"}
        ran = run(tree / "bin" / "papr", "run", EXAMPLES / "first.trace", environment=variables)
        self.assert_ran(ran, (EXAMPLES / "first.replies").read_text(encoding="ascii"))
        self.assert_help(tree / "bin" / "papr-why")

    def assert_libraries_are_found(self, tree: Path, compiler: str, runner: Runner) -> None:
        """Programs in C are compiled against libraries of a tarball by pkg-config, and run."""
        variables = {"PKG_CONFIG_PATH": str(tree / "lib" / "pkgconfig")}
        for name, source in (("papr", DATA / "fields.c"), ("papr_bytes", EXAMPLES / "c" / "bytes" / "call.c")):
            flags = run("pkg-config", "--cflags", "--libs", name, environment=variables).out.strip()
            self.assert_ran(run("sh", "-c", f'{compiler} "$0" {flags} -o "$1"', source, self.folder / name))
        self.assert_ran(run(runner(self.folder / "papr")))
        ran = run(runner(self.folder / "papr_bytes"), given=EXAMPLES / "first.trace")
        self.assert_ran(ran, (EXAMPLES / "first.replies").read_text(encoding="ascii"))

    def need_packed(self, machine: Emulated) -> None:
        """Skips a test of what is packed for a processor whose tools aren't installed."""
        if machine not in PACKED:
            self.skipTest(f"{machine.tools}-strip is not installed")

    @needs("pkg-config")
    @needs_library
    @needs_bytes_library
    def test_pkg_config_finds_the_libraries_of_a_tarball(self) -> None:
        tree = self.unpack(f"papr-{VERSION}-x86_64.tar.xz")

        def with_libraries(program: Path) -> Path:
            text = f"#!/bin/sh\nLD_LIBRARY_PATH='{tree / 'lib'}' exec '{program}'\n"
            return write_script(self.folder / f"run-{program.name}", text)

        self.assert_libraries_are_found(tree, "cc", with_libraries)

    @needs("pkg-config")
    @for_each(*EMULATED)
    def test_the_tarball_by_the_emulator_of(self, machine: Emulated) -> None:
        self.need_packed(machine)
        if machine.lacking:
            self.skipTest(machine.lacking)
        tree = self.unpack(f"papr-{VERSION}-{machine.name}.tar.xz")
        papr = machine.emulated(tree / "libexec" / "papr" / "papr", self.folder)
        ran = run(papr, "run", given=EXAMPLES / "resize.trace")
        self.assert_ran(ran, (EXAMPLES / "resize.replies").read_text(encoding="ascii"))

        def with_libraries(program: Path) -> Path:
            return machine.emulated(program, self.folder, tree / "lib")

        self.assert_libraries_are_found(tree, machine.compiler, with_libraries)

    @for_each(*EMULATED)
    def test_the_packages_are_for_the_processor(self, machine: Emulated) -> None:
        """They name it, and their libraries lie where its system looks for them."""
        self.need_packed(machine)
        for name in ("papr", f"libpapr{MAJOR}", "libpapr-dev"):
            package = self.checkout.released / f"{name}_{VERSION}_{machine.debian}.deb"
            self.assertEqual(run("dpkg-deb", "-f", package, "Architecture").out, f"{machine.debian}\n")
        listed = run("tar", "-t", given=run_bytes("dpkg-deb", "--fsys-tarfile", package)).out
        self.assertIn(f"./usr/lib/{machine.tools}/libpapr.a\n", listed)


@needs_git
@needs("git", "make", "cc", "dpkg-deb")
class Parts(CommittedTest):
    """Parts that a release may be without, and what is left of an earlier one."""

    def setUp(self) -> None:
        super().setUp()
        self.checkout.put(make_stand_ins(self.folder))

    def test_nothing_for_others_where_the_gate_built_none(self) -> None:
        self.checkout.gate()
        ran = self.checkout.release()
        nothing = "release: nothing for {}: where the gate ran there was no compiler for it\n"
        self.assert_ran(ran, out=None, err="".join(nothing.format(name) for name in OTHERS))
        self.assertEqual(names_in(self.checkout.released), expected_names())

    def test_a_release_is_refused_where_the_tools_for_packages_are_missing(self) -> None:
        """Those for a processor that the gate built for."""
        self.checkout.put_other("riscv64")
        self.checkout.gate()
        path = self.folder / "bin"
        path.mkdir()
        for place in ("/usr/bin", "/bin"):
            for command in Path(place).iterdir():
                if "riscv64" not in command.name and not (path / command.name).exists():
                    (path / command.name).symlink_to(command)
        ran = self.checkout.release(PATH=str(path))
        self.assertEqual(ran.status, 2)
        package = "binutils-riscv64-linux-gnu"
        self.assertIn(f"debian: riscv64-linux-gnu-strip isn't here; Debian's package {package} has it", ran.err)
        self.assertFalse(self.checkout.released.exists())

    def test_what_an_earlier_release_left_is_taken_away(self) -> None:
        self.checkout.released.mkdir(parents=True)
        for name in ("papr-0.0.1-x86_64.tar.xz", "papr_0.0.1_amd64.deb", "of-mine"):
            (self.checkout.released / name).touch()
        self.checkout.gate()
        self.checkout.release()
        names = [path.name for path in self.checkout.released.iterdir()]
        self.assertEqual([name for name in names if "0.0.1" in name], [])
        self.assertIn("of-mine", names)
