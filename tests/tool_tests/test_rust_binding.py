"""Tests of the Rust crates: cargo's checks, their own tests over the libraries under test, and their examples."""

import re
import tempfile
from pathlib import Path
from typing import ClassVar

from .built import must_run
from .support import BYTES_LIBRARY, DOCS, EXAMPLES, LIBRARY, SHARED_TABLE, TOP, VERSION, Ran, ToolTest, for_each
from .support import needs, needs_bytes_library, needs_library, needs_shared_table, run
from .test_shared_table import ENTERED as ENTERED_BY_TWO

CRATES = TOP / "bindings" / "rust"
# Where cargo builds, so that the next run finds what hasn't changed.
TARGET = TOP / "out" / "rust"
RPATH = re.compile(r'`RUSTFLAGS="([^"]*)"`')
FROM_RUST = re.compile(r"^## From Rust$.*?(?=^## |\Z)", re.MULTILINE | re.DOTALL)
IN_RUST = re.compile(r"^```rust\n(.*?)^```\n\n?.*?^```text\n(.*?)^```$", re.MULTILINE | re.DOTALL)

ENTERED = """\
H_ENTER 0 0x27 | 0x27.0.0.entered
H_ENTER -6 | 0x27.1.0.taken
store at 0x2000003678 | .. 0x27.1.0.at
valid: 1
"""


def cargo(*words: str, folder: Path = CRATES, **variables: str) -> Ran:
    """Runs cargo without a network, over these libraries."""
    given = {"CARGO_TARGET_DIR": str(TARGET), "CARGO_NET_OFFLINE": "true", **variables}
    return run("cargo", *words, folder=folder, environment=given)


@needs("cargo", "cc")
class Checks(ToolTest):
    """What needs no library."""

    def test_the_sources_are_formatted(self) -> None:
        if run("cargo", "fmt", "--version").status:
            self.skipTest("cargo fmt is not installed")
        self.assert_ran(cargo("fmt", "--all", "--check"))

    @for_each("", "shared", "std", "bytes,shared,std")
    def test_clippy_has_no_warning_with_the_features(self, features: str) -> None:
        if run("cargo", "clippy", "--version").status:
            self.skipTest("cargo clippy is not installed")
        words = ("clippy", "--quiet", "--all-targets", "--features", features, "--", "-D", "warnings")
        self.assert_ran(cargo(*words))

    def test_the_documentation_has_no_warning(self) -> None:
        words = ("doc", "--quiet", "--no-deps", "--all-features")
        self.assert_ran(cargo(*words, RUSTDOCFLAGS="-D warnings"))

    def test_the_version_is_that_of_the_sources(self) -> None:
        text = (CRATES / "Cargo.toml").read_text(encoding="utf-8")
        self.assertEqual(re.findall(r'(?m)^version = "(.*)"$', text), [VERSION])

    def test_nothing_is_needed_from_elsewhere(self) -> None:
        locked = (CRATES / "Cargo.lock").read_text(encoding="utf-8")
        self.assertEqual(re.findall(r'(?m)^name = "(.*)"$', locked), ["papr", "papr-sys"])
        self.assertNotIn("source = ", locked)


@needs("cargo", "cc")
@needs_library
class OverTheLibraries(ToolTest):
    """The crates over the archives under test, by the names under which they are installed."""

    libraries: ClassVar[str]

    @classmethod
    def setUpClass(cls) -> None:
        """Makes a folder with the archives, once for the class."""
        super().setUpClass()
        work = tempfile.TemporaryDirectory(prefix="papr-rust-")
        cls.addClassCleanup(work.cleanup)
        cls.libraries = work.name
        archives = (("papr", LIBRARY), ("papr_shared", SHARED_TABLE), ("papr_bytes", BYTES_LIBRARY))
        for name, archive in archives:
            if archive.is_file():
                (Path(work.name) / f"lib{name}.a").symlink_to(archive)

    def cargo(self, *words: str, folder: Path = CRATES) -> Ran:
        """Runs cargo over the archives."""
        return cargo(*words, folder=folder, PAPR_LIB_DIR=self.libraries)

    def assert_tests_pass(self, *words: str) -> None:
        """The tests pass, and some ran."""
        ran = self.cargo("test", "--quiet", *words)
        self.assert_ran(ran, out=None)
        counts = re.findall(r"test result: ok\. ([0-9]+) passed; 0 failed; 0 ignored", ran.out)
        self.assertEqual(len(counts), ran.out.count("test result: "), ran.out)
        self.assertGreater(sum(map(int, counts)), 20)

    def test_the_tests_of_the_crates_pass(self) -> None:
        self.assert_tests_pass()

    @needs_shared_table
    def test_the_tests_of_the_crates_pass_with_the_shared_table(self) -> None:
        self.assert_tests_pass("--features", "shared,std")

    @needs_shared_table
    @needs_bytes_library
    def test_the_tests_of_the_crates_pass_with_all(self) -> None:
        self.assert_tests_pass("--all-features")

    @needs("make")
    def test_a_program_over_the_shared_object_starts(self) -> None:
        """As the document says: by its own path, or by the variable."""
        folder = self.folder / "lib"
        folder.mkdir()
        must_run(TOP / "tools" / "shared-library", LIBRARY, SHARED_TABLE, folder / f"libpapr.so.{VERSION}")
        flags = RPATH.findall((DOCS / "LIBRARY.md").read_text(encoding="utf-8"))
        self.assertEqual(len(flags), 1)
        words = ("run", "--quiet", "--example", "enter")
        flag = flags[0].replace("$PAPR_LIB_DIR", str(folder))
        for name, value in (("RUSTFLAGS", flag), ("LD_LIBRARY_PATH", str(folder))):
            given = {"CARGO_TARGET_DIR": str(self.folder / name), "PAPR_LIB_DIR": str(folder), name: value}
            self.assert_ran(cargo(*words, **given), ENTERED)

    def test_the_program_of_the_examples(self) -> None:
        self.assertTrue((EXAMPLES / "rust" / "enter.rs").is_file())
        self.assert_ran(self.cargo("run", "--quiet", "--example", "enter"), ENTERED)

    @needs_shared_table
    def test_the_program_of_two_threads(self) -> None:
        words = ("run", "--quiet", "--features", "shared,std", "--example", "two-threads")
        self.assert_ran(self.cargo(*words), ENTERED_BY_TWO)

    @needs_shared_table
    def test_the_blocks_of_the_document_in_a_package_of_their_own(self) -> None:
        """It depends on the crate by its path, and each block writes what the document says."""
        section = FROM_RUST.search((DOCS / "LIBRARY.md").read_text(encoding="utf-8"))
        assert section is not None
        found = IN_RUST.findall(section[0])
        self.assertEqual(len(found), 2)
        (self.folder / "src").mkdir()
        dependency = f'papr = {{ path = "{CRATES / "papr"}", features = ["shared", "std"] }}'
        manifest = f'[package]\nname = "document"\nedition = "2021"\n\n[dependencies]\n{dependency}\n'
        (self.folder / "Cargo.toml").write_text(manifest, encoding="utf-8")
        for code, written in found:
            (self.folder / "src" / "main.rs").write_text(code, encoding="utf-8")
            self.assert_ran(self.cargo("run", "--quiet", folder=self.folder), written)
