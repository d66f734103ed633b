"""Tests of where the package looks for the libraries."""

import tempfile
import unittest
from pathlib import Path
from unittest.mock import patch

from papr import _library
from papr._library import BYTES, CALLS, VARIABLES, place_of


class Places(unittest.TestCase):
    """A package in a folder, with a library in each place where one might be."""

    def setUp(self) -> None:
        work = tempfile.TemporaryDirectory(prefix="papr-places-")
        self.addCleanup(work.cleanup)
        self.top = Path(work.name).resolve()
        for name in (CALLS, BYTES):
            self.write(f"lib/{name}", f"out/lib/{name}")
        self.enterContext(patch.dict("os.environ", {variable: "" for variable in VARIABLES.values()}))

    def write(self, *names: str) -> None:
        """Makes files."""
        for name in names:
            (self.top / name).parent.mkdir(parents=True, exist_ok=True)
            (self.top / name).write_text("", encoding="ascii")

    def place(self, package: str, name: str = CALLS) -> str:
        """Where a library is, for a package in this folder."""
        with patch.object(_library, "__file__", str(self.top / package / "_library.py")):
            return place_of(name)

    def test_a_checkout(self) -> None:
        self.write("VERSION", "tools/build")
        for name in (CALLS, BYTES):
            self.assertEqual(self.place("bindings/python/papr", name), str(self.top / "out" / "lib" / name))

    def test_a_prefix(self) -> None:
        self.write("bin/papr")
        for name in (CALLS, BYTES):
            self.assertEqual(self.place("share/papr/papr", name), str(self.top / "lib" / name))

    def test_where_it_is_not_built(self) -> None:
        self.write("VERSION", "tools/build", "bin/papr")
        for folder in ("lib", "out/lib"):
            (self.top / folder / CALLS).unlink()
        for package in ("bindings/python/papr", "share/papr/papr"):
            self.assertEqual(self.place(package), CALLS)

    def test_what_looks_like_a_checkout_or_a_prefix(self) -> None:
        for package in ("bindings/python/papr", "share/papr/papr"):
            self.assertEqual(self.place(package), CALLS)
        self.write("tools/build")
        self.assertEqual(self.place("bindings/python/papr"), CALLS)

    def test_elsewhere_nobody_else_chooses_the_library(self) -> None:
        """Whatever is in the folder three above the package, as in /tmp."""
        self.write("VERSION", "tools/build", "bin/papr")
        for package in ("x/site/papr", "python/lib/papr", "share/python/papr", "bindings/share/papr", "papr"):
            self.assertEqual(self.place(package), CALLS)

    def test_a_package_right_below_the_root(self) -> None:
        with patch.object(_library, "__file__", "/papr/_library.py"):
            self.assertEqual(place_of(CALLS), CALLS)

    def test_a_variable_names_another_file(self) -> None:
        self.write("VERSION", "tools/build")
        with patch.dict("os.environ", {VARIABLES[CALLS]: "/other/libpapr.so"}):
            self.assertEqual(self.place("bindings/python/papr"), "/other/libpapr.so")


if __name__ == "__main__":
    unittest.main()
