"""Tests of the Debian packages: what they have, and what is left of them in an empty root after their removal.

They are made of what is built here, or of stand-ins where nothing is.
"""

import os
import re
import shutil
import tempfile
import unittest
from pathlib import Path
from typing import ClassVar

from .built import BYTES_SHARED, SHARED, make_built, words_of
from .installed import COMMANDS, FORMATS
from .support import DATA, DOCS, EXAMPLES, MAJOR, TOP, VERSION, Ran, ToolTest, Word, for_each, needs
from .support import needs_bytes_library, needs_library, needs_program, needs_shared_table, run, run_bytes

PACKAGES = ("papr", f"libpapr{MAJOR}", "libpapr-dev")
C_LIBRARY = re.compile(r"linux-vdso|ld-linux|lib(c|m|pthread|dl|rt)\.so")
PATH = "/usr/bin:/bin"  # the toolchain isn't there
AS_ROOT = [] if os.geteuid() == 0 else ["fakeroot"]


@needs("make", "cc", "dpkg-deb", "tar")
class DebianTest(ToolTest):
    """A test on packages that are made once for the class."""

    packages: ClassVar[dict[str, Path]]

    @classmethod
    def setUpClass(cls) -> None:
        """Makes them."""
        super().setUpClass()
        work = tempfile.TemporaryDirectory(prefix="papr-packages-")
        cls.addClassCleanup(work.cleanup)
        folder = Path(work.name)
        ran = run("make", "-s", "-C", TOP, "deb", f"dist={folder / 'dist'}", *words_of(make_built(folder)))
        if ran.status:
            raise OSError(f"make deb: {ran.err}")
        cls.packages = {it.name.split("_", maxsplit=1)[0]: it for it in (folder / "dist").glob("*.deb")}

    def field(self, package: str, name: str) -> str:
        """A field of a package's control file."""
        return run("dpkg-deb", "-f", self.packages[package], name).out.strip()

    def files(self, package: str) -> set[str]:
        """The files and the folders of a package."""
        listed = run("tar", "-t", given=run_bytes("dpkg-deb", "--fsys-tarfile", self.packages[package]))
        return {line.removeprefix(".") for line in listed.out.splitlines()}


class Packed(DebianTest):
    """What is in the packages."""

    def test_there_are_three_of_this_version(self) -> None:
        self.assertEqual(sorted(self.packages), sorted(PACKAGES))
        for name in PACKAGES:
            self.assertEqual(self.field(name, "Version"), VERSION)

    def test_the_maintainer_is_the_one_of_the_makefile(self) -> None:
        """The one place; as of the page on the web, which the project doesn't have yet."""
        makefile = (TOP / "Makefile").read_text(encoding="utf-8")
        named = dict(re.findall(r"(?m)^(MAINTAINER|HOMEPAGE) \?= ?(.*)$", makefile))
        self.assertRegex(named["MAINTAINER"], r"^[^<>]+ <[^<>@]+@[^<>@]+>$")
        for package in PACKAGES:
            self.assertEqual(self.field(package, "Maintainer"), named["MAINTAINER"])
            self.assertEqual(self.field(package, "Homepage"), named["HOMEPAGE"])

    def test_a_home_page_that_is_named_is_in_the_packages(self) -> None:
        place = "https://papr.example"
        folder = self.folder / "named"
        folder.mkdir()
        words = [f"dist={folder / 'dist'}", f"HOMEPAGE={place}", *words_of(make_built(folder))]
        self.assertEqual(run("make", "-s", "-C", TOP, "deb", *words).status, 0)
        for package in (folder / "dist").glob("*.deb"):
            self.assertEqual(run("dpkg-deb", "-f", package, "Homepage").out, f"{place}\n")

    def test_the_commands_and_their_pages(self) -> None:
        wanted = {
            "/usr/libexec/papr/papr",
            "/usr/share/zsh/vendor-completions/_papr",
            "/usr/share/doc/papr/copyright",
            "/usr/share/doc/papr/docs/FORMATS.md",
            "/usr/share/doc/papr/docs/papr.html",
            "/usr/share/doc/papr/examples/check",
        }
        for command in ("papr", *COMMANDS):
            wanted |= {f"/usr/bin/{command}", f"/usr/share/man/man1/{command}.1.gz"}
        wanted |= {f"/usr/share/man/man5/{name}.5.gz" for name in FORMATS}
        self.assertEqual(wanted - self.files("papr"), set())

    @needs("nm")
    def test_the_shared_objects_and_what_programs_that_use_them_depend_on(self) -> None:
        name, tree = f"libpapr{MAJOR}", self.folder / "control"
        objects = sorted(Path(it).name for it in self.files(name) if ".so." in it)
        self.assertEqual(objects, [f"libpapr.so.{MAJOR}", SHARED, f"libpapr_bytes.so.{MAJOR}", BYTES_SHARED])
        self.assert_ran(run("dpkg-deb", "-e", self.packages[name], tree))
        self.assertEqual((tree / "triggers").read_text(), "activate-noawait ldconfig\n")
        libraries = ("libpapr", "libpapr_bytes")
        needed = "".join(f"{it} {MAJOR} {name} (>= {VERSION})\n" for it in libraries)
        self.assertEqual((tree / "shlibs").read_text(), needed)
        lines = (tree / "symbols").read_text().splitlines()
        heads = [line for line in lines if not line.startswith(" ")]
        self.assertEqual(heads, [f"{it}.so.{MAJOR} {name} #MINVER#" for it in libraries])
        for function in ("papr_version", "papr_give_up", "papr_bytes_call"):
            self.assertEqual(lines.count(f" {function}@Base {VERSION}"), 1)

    def test_what_compiles_against_the_library(self) -> None:
        self.assertEqual(self.field("libpapr-dev", "Depends"), f"libpapr{MAJOR} (= {VERSION})")
        files = self.files("libpapr-dev")
        names = {Path(it).name for it in files if it.startswith("/usr/lib/") and not it.endswith("/")}
        libraries = ("papr", "papr_shared", "papr_bytes")
        wanted = {file for it in libraries for file in (f"lib{it}.a", f"{it}.pc")}
        self.assertEqual(names, {*wanted, "libpapr.so", "libpapr_bytes.so"})
        examples = (f"/usr/share/doc/libpapr-dev/examples/{it}" for it in ("cmake/CMakeLists.txt", "c/bytes/call.c"))
        self.assertEqual({*examples, *(f"/usr/include/{it}.h" for it in libraries)} - files, set())

    @for_each("papr", f"libpapr{MAJOR}")
    def test_it_depends_on_the_c_library_alone(self, package: str) -> None:
        self.assertRegex(self.field(package, "Depends"), r"\Alibc6 \(>= 2[.0-9]*\)\Z")

    @needs_program
    def test_the_program_names_no_library_but_that_of_c(self) -> None:
        tree = self.folder / "unpacked"
        self.assert_ran(run("dpkg-deb", "-x", self.packages["papr"], tree))
        linked = run("ldd", tree / "usr" / "libexec" / "papr" / "papr")
        self.assertEqual([line for line in linked.out.splitlines() if not C_LIBRARY.search(line)], [])

    @needs("lintian")
    @needs_program
    @needs_library
    @needs_shared_table
    @needs_bytes_library
    @for_each(*PACKAGES)
    def test_lintian_has_no_error_and_no_warning_of(self, package: str) -> None:
        ran = run("lintian", "--allow-root", "--fail-on", "error,warning", self.packages[package])
        self.assert_ran(ran, err=None)


@needs("dpkg")
@unittest.skipIf(AS_ROOT and shutil.which(AS_ROOT[0]) is None, "this isn't root, and fakeroot is not installed")
class Rooted(DebianTest):
    """The packages in a root of their own, where nothing else is and the toolchain isn't on the path."""

    def setUp(self) -> None:
        super().setUp()
        self.root = self.folder / "root"
        for name in ("info", "updates", "triggers"):
            (self.root / "var" / "lib" / "dpkg" / name).mkdir(parents=True)
        (self.root / "var" / "lib" / "dpkg" / "status").touch()
        self.dpkg("--force-depends", "--install", *self.packages.values())
        self.usr = self.root / "usr"
        self.assertIsNone(shutil.which("rt", path=PATH))

    def dpkg(self, *words: Word) -> None:
        """Runs dpkg on the root. (Its scripts run outside, since there is no shell inside.)"""
        places = (f"--root={self.root}", f"--log={self.folder / 'dpkg.log'}", "--force-script-chrootless")
        self.assert_ran(run(*AS_ROOT, "dpkg", *places, *words), out=None, err=None)

    def run_there(self, command: str, *words: Word, **variables: str) -> Ran:
        """Runs a command that was installed."""
        return run(self.usr / "bin" / command, *words, environment={"PATH": PATH, **variables})

    def test_nothing_is_left_after_the_removal(self) -> None:
        """What Python compiled of the tools isn't either."""
        self.assert_ran(self.run_there("papr-receipts", "--help", PYTHONDONTWRITEBYTECODE=""), out=None)
        for folder in ("papr", "papr/papr"):
            self.assertTrue((self.usr / "share" / folder / "__pycache__").is_dir())
        self.dpkg("--purge", *PACKAGES)
        self.assertEqual([path.name for path in self.root.iterdir()], ["var"])
        listed = [path for path in (self.root / "var").rglob("*") if path.is_file()]
        self.assertEqual({path.relative_to(self.root).parts[:3] for path in listed}, {("var", "lib", "dpkg")})
        self.assertEqual((self.root / "var" / "lib" / "dpkg" / "status").read_text(encoding="utf-8"), "")

    @needs("man")
    @for_each("papr", "papr-why", "papr-trace")
    def test_man_shows_the_page(self, name: str) -> None:
        ran = run("man", name, environment={"PATH": PATH, "MANPATH": str(self.usr / "share" / "man")})
        self.assert_ran(ran, out=None)
        self.assertRegex(ran.out, rf"(?i)\A{name}\([15]\) ")

    @needs_program
    def test_the_program_runs(self) -> None:
        for name in ("first", "resize"):
            ran = self.run_there("papr", "run", EXAMPLES / f"{name}.trace")
            self.assert_ran(ran, (EXAMPLES / f"{name}.replies").read_text(encoding="ascii"))

    @needs("xz")
    @needs_program
    def test_the_examples_run(self) -> None:
        """Those that were installed, by the program that was."""
        check = self.usr / "share" / "doc" / "papr" / "examples" / "check"
        ran = run(check, self.usr / "libexec" / "papr" / "papr", environment={"PATH": PATH})
        self.assert_ran(ran, out=None)
        self.assertRegex(ran.out.splitlines()[-1], r"\A[0-9]+ passed, 0 failed\Z")

    @needs("python3")
    def test_a_tool_draws_a_picture(self) -> None:
        drawn = self.run_there("papr-history", "0x20", EXAMPLES / "sharing.replies")
        self.assert_ran(drawn, (DOCS / "history.svg").read_text(encoding="utf-8"))

    @needs("pkg-config")
    @needs_library
    @for_each("", "-static")
    def test_a_program_in_c_is_linked_by_pkg_config(self, way: str) -> None:
        """The shared object, or the archive."""
        (found,) = self.usr.glob("lib/*/pkgconfig")
        asked = {"PKG_CONFIG_LIBDIR": str(found), "PKG_CONFIG_SYSROOT_DIR": str(self.root), "PATH": PATH}
        flags = run("pkg-config", "--cflags", "--libs", "papr", environment=asked)
        self.assert_ran(flags, out=None)
        program = self.folder / "program"
        words = f'cc {way} "$0" {flags.out.strip()} -o "$1"'
        self.assert_ran(run("sh", "-c", words, DATA / "fields.c", program, environment={"PATH": PATH}))
        self.assert_ran(run(program, environment={"LD_LIBRARY_PATH": str(found.parent)}))

    @needs_program
    @needs_library
    def test_the_tools_find_the_shared_object(self) -> None:
        (found,) = self.usr.glob("lib/*/pkgconfig")
        words = ("decode", "0x1001", "0x3012")
        ran = self.run_there("papr", *words, LD_LIBRARY_PATH=str(found.parent))
        self.assert_ran(ran, out=None)
        self.assertIn("VSID 0x1", ran.out)
