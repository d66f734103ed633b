"""Tests of the wheel: its bytes, and the package in a Python of its own."""

import base64
import csv
import hashlib
import importlib.util
import os
import subprocess
import sys
import tempfile
import unittest
import zipfile
from pathlib import Path

from support import TOP

import papr

BUILD = TOP / "bindings" / "python" / "build-wheel"
USE = "import papr; print(papr.__version__, papr.__file__); print(*papr.Replies('1 0 slbclear ok')); "


def run(*words: object, folder: Path) -> str:
    """What a command writes that must end well, without this process's modules."""
    kept = {name: value for name, value in os.environ.items() if name != "PYTHONPATH"}
    command = [str(word) for word in words]
    ran = subprocess.run(command, cwd=folder, env=kept, capture_output=True, text=True, check=False)
    if ran.returncode:
        raise AssertionError(f"{command}: status {ran.returncode}\n{ran.stdout}{ran.stderr}")
    return ran.stdout


class Wheel(unittest.TestCase):
    """A wheel in a folder of its own."""

    def setUp(self) -> None:
        work = tempfile.TemporaryDirectory(prefix="papr-wheel-")
        self.addCleanup(work.cleanup)
        self.folder = Path(work.name)
        self.wheel = Path(run(sys.executable, BUILD, self.folder / "out", folder=self.folder).strip())

    def test_its_version_is_that_of_the_sources(self) -> None:
        version = (TOP / "VERSION").read_text(encoding="ascii").strip()
        self.assertEqual(papr.__version__, version)
        self.assertEqual(self.wheel.name, f"papr-{version}-py3-none-any.whl")

    def test_its_bytes_are_the_same_each_time(self) -> None:
        again = Path(run(sys.executable, BUILD, self.folder / "again", folder=self.folder).strip())
        self.assertEqual(again.read_bytes(), self.wheel.read_bytes())

    def test_its_list_has_each_file(self) -> None:
        with zipfile.ZipFile(self.wheel) as wheel:
            files = {name: wheel.read(name) for name in wheel.namelist()}
        (record,) = [name for name in files if name.endswith("/RECORD")]
        listed = {name: (digest, size) for name, digest, size in csv.reader(files[record].decode().splitlines())}
        self.assertEqual(list(listed), list(files))
        for name, (digest, size) in listed.items():
            found = base64.urlsafe_b64encode(hashlib.sha256(files[name]).digest()).decode().rstrip("=")
            expected = ("", "") if name == record else (f"sha256={found}", str(len(files[name])))
            self.assertEqual((digest, size), expected, name)
        self.assertIn("papr/py.typed", files)

    @unittest.skipIf(importlib.util.find_spec("ensurepip") is None, "this Python has no ensurepip")
    def test_pip_installs_it_into_an_environment(self) -> None:
        """Without a network; and the sources, by the backend of the wheel alone."""
        place = self.folder / "environment"
        run(sys.executable, "-m", "venv", place, folder=self.folder)
        python = place / "bin" / "python"
        for source in (self.wheel, BUILD.parent):
            run(python, "-m", "pip", "install", "-q", "--no-index", source, folder=self.folder)
            version, path, reply = run(python, "-c", USE, folder=self.folder).split(maxsplit=2)
            self.assertEqual(version, papr.__version__)
            self.assertTrue(Path(path).is_relative_to(place.resolve()), path)
            self.assertIn("call='slbclear'", reply)
            run(python, "-m", "pip", "uninstall", "-q", "-y", "papr", folder=self.folder)
