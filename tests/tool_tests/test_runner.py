"""Tests of tests/tools: what it counts and says of modules, and when it fails."""

import shutil

from .support import BYTES_LIBRARY, LIBRARY, SHARED_TABLE, TOP, Ran, ToolTest, Word, run

RUNNER = TOP / "tests" / "tools"

PLANTED = """\
import unittest


class Planted(unittest.TestCase):
    def test_that_passes(self) -> None:
        self.assertEqual(1, 1)

    def test_that_fails(self) -> None:
        self.assertEqual("this", "that")

    def test_with_parts_that_fail(self) -> None:
        for part in (1, 2):
            with self.subTest(part=part):
                self.assertEqual(part, 0)

    @unittest.skip("nothing is here")
    def test_that_is_skipped(self) -> None:
        self.assertEqual(1, 2)


class Unbuilt(unittest.TestCase):
    @classmethod
    def setUpClass(cls) -> None:
        raise OSError("it doesn't build")

    def test_that_never_runs(self) -> None:
        self.assertEqual(1, 1)
"""
ENDS_EARLY = "import os\nos._exit(7)\n"


class Planted(ToolTest):
    """The runner over modules that fail, in a checkout of its own."""

    def run_modules(self, *words: Word, **modules: str) -> Ran:
        """Runs it over modules with these texts."""
        tests = self.folder / "tests"
        package = tests / "tool_tests"
        package.mkdir(parents=True)
        shutil.copy2(RUNNER, tests / "tools")
        for name in ("__init__.py", "__main__.py"):
            shutil.copyfile(RUNNER.parent / "tool_tests" / name, package / name)
        for name, text in modules.items():
            (package / f"test_{name}.py").write_text(text, encoding="ascii")
        return run(tests / "tools", *words)

    def test_each_test_counts_once_and_a_failure_is_shown_whole(self) -> None:
        ran = self.run_modules(planted=PLANTED)
        self.assertEqual((ran.status, ran.err), (1, ""))
        lines = ran.out.splitlines()
        self.assertTrue(lines[0].startswith("== planted: 1 passed, 3 failed, 1 skipped, "), lines[0])
        self.assertIn("FAIL planted.Planted.test_that_fails", lines)
        self.assertIn("AssertionError: 'this' != 'that'", lines)
        self.assertIn("AssertionError: 2 != 0", lines)
        self.assertIn("OSError: it doesn't build", lines)
        self.assertIn("skip planted.Planted.test_that_is_skipped: nothing is here", lines)
        self.assertEqual(lines[-1], "1 passed, 3 failed, 1 skipped")

    def test_a_module_that_ends_early_fails(self) -> None:
        ran = self.run_modules(ends=ENDS_EARLY)
        self.assertEqual((ran.status, ran.err), (1, ""))
        lines = ran.out.splitlines()
        self.assertEqual(lines[1:3], ["FAIL ends.all", "status 7, and no outcome"])
        self.assertEqual(lines[-1], "0 passed, 1 failed, 0 skipped")

    def test_a_module_that_runs_alone_begins_behind_the_others(self) -> None:
        note = "import pathlib, time\nHERE = pathlib.Path(__file__).parent\n"
        alone = f"{note}ALONE = True\n(HERE / 'alone').write_text(str((HERE / 'ended').is_file()))\n"
        slow = f"{note}time.sleep(1)\n(HERE / 'ended').touch()\n"
        ran = self.run_modules(alone=alone, slow=slow)
        self.assertEqual(ran.out.splitlines()[-1], "0 passed, 0 failed, 0 skipped")
        self.assertEqual((self.folder / "tests" / "tool_tests" / "alone").read_text(), "True")

    def test_a_line_names_the_programs_that_are_not_installed(self) -> None:
        """The reasons are those of support.needs and of tests that look for themselves."""
        reasons = ("fish is not installed", "fish and zsh is not installed", "nothing is here")
        tests = "".join(
            f"    @unittest.skip({reason!r})\n    def test_{at}(self) -> None:\n        self.fail()\n\n"
            for at, reason in enumerate(reasons)
        )
        place = self.folder / "lacking"
        ran = self.run_modules("--lacking", place, lacks=f"import unittest\n\n\nclass A(unittest.TestCase):\n{tests}")
        self.assert_ran(ran, out=None)
        told = "tests were skipped for want of fish (2), zsh (1); tools/packages names the packages\n"
        self.assert_text(place.read_text(), told)


class Words(ToolTest):
    """The runner's words."""

    def test_it_has_help(self) -> None:
        self.assert_help(RUNNER)

    def test_a_module_that_is_none(self) -> None:
        self.assert_refused(run(RUNNER, "frob"), "tools: error: no module is called frob")

    def test_without_a_program_what_needs_it_is_skipped(self) -> None:
        ran = run(RUNNER, "--program", self.folder / "none", "statuses")
        self.assert_ran(ran, out=None)
        self.assertRegex(ran.out.splitlines()[-1], r"\A0 passed, 0 failed, [1-9][0-9] skipped\Z")

    def test_a_program_that_is_required_and_missing_fails(self) -> None:
        program = self.folder / "none"
        ran = run(RUNNER, "--require-built", "--program", program, "statuses")
        self.assertEqual((ran.status, ran.err), (1, ""))
        lines = ran.out.splitlines()
        self.assertEqual(lines[1:3], [f"FAIL required.{program.name}", f"{program} is missing"])
        failed = 1 + [path.is_file() for path in (LIBRARY, SHARED_TABLE, BYTES_LIBRARY)].count(False)
        self.assertRegex(lines[-1], rf"\A0 passed, {failed} failed, [1-9][0-9] skipped\Z")
