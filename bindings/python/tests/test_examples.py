"""Tests of the scripts in examples/."""

import os
import subprocess
import sys
import tempfile
import unittest
from pathlib import Path

from support import EXAMPLES as TRACES
from support import TOP, needs_bytes, needs_calls, needs_shared_table, text_of

SCRIPTS = TOP / "bindings" / "python" / "examples"


def run(script: str, *words: object) -> "subprocess.CompletedProcess[str]":
    """Runs a script over the package of these sources."""
    command = [sys.executable, str(SCRIPTS / script), *map(str, words)]
    variables = {**os.environ, "PYTHONPATH": str(SCRIPTS.parent), "PYTHONDONTWRITEBYTECODE": "1"}
    return subprocess.run(command, env=variables, capture_output=True, text=True, check=False)


@needs_calls
class Fuzz(unittest.TestCase):
    """The fuzzer."""

    def test_the_property_holds(self) -> None:
        for seed in (1, 2):
            ran = run("fuzz_enter_remove.py", "--seed", seed, "--calls", 3_000)
            self.assertEqual((ran.returncode, ran.stderr), (0, ""))
            first, *counted = ran.stdout.splitlines()
            self.assertEqual(first, f"seed {seed}: 3000 calls have the property")
            calls = [tuple(line.split()[:2]) for line in counted]
            expected = ["H_ENTER H_PTEG_FULL", "H_ENTER H_SUCCESS", "H_REMOVE H_NOT_FOUND", "H_REMOVE H_SUCCESS"]
            self.assertEqual(calls, [tuple(words.split()) for words in expected])
            self.assertEqual(sum(int(line.split()[2]) for line in counted), 3_000)


@needs_shared_table
class TwoThreads(unittest.TestCase):
    """The two processors."""

    def test_they_fill_the_group(self) -> None:
        ran = run("two_threads.py")
        self.assertEqual((ran.returncode, ran.stderr), (0, ""))
        entries = [f"entry {entry:#x}: valid" for entry in range(0x20, 0x28)]
        self.assertEqual(ran.stdout.splitlines(), [*entries, "8 of 32 calls entered a page"])


@needs_bytes
class Compare(unittest.TestCase):
    """The comparison of a recorded guest."""

    def compare(self, replies: str) -> "subprocess.CompletedProcess[str]":
        """Compares a text with papr's replies to an example."""
        with tempfile.TemporaryDirectory(prefix="papr-compare-") as work:
            path = Path(work) / "replies"
            path.write_text(replies, encoding="ascii")
            return run("compare_guest.py", TRACES / "linux.trace", path)

    def test_the_same_replies(self) -> None:
        replies = text_of("linux.replies")
        ran = self.compare(replies)
        count = replies.count("\n")
        self.assertEqual((ran.returncode, ran.stderr), (0, ""))
        self.assertEqual(ran.stdout, f"{count} replies, 0 of which differ\nthey are those of a good run\n")

    def test_other_replies(self) -> None:
        lines = text_of("linux.replies").splitlines(keepends=True)
        at = next(at for at, line in enumerate(lines) if " H_ENTER 0 " in line)
        number = lines[at].split()[0]
        lines[at] = f"{number} 0 H_ENTER -6\n"
        ran = self.compare("".join(lines))
        self.assertEqual((ran.returncode, ran.stderr), (1, ""))
        self.assertIn(f"H_ENTER: papr 0, the other -6; 1 times, first in line {number}\n", ran.stdout)
        self.assertTrue(ran.stdout.endswith("section 1 is not that of a good run\n"), ran.stdout)
