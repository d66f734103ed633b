"""Tests of the comparison of two texts of replies."""

from .support import A_TRACE, DATA, EXAMPLES, TOOLS, ToolTest, run

DIFF = TOOLS / "diff"
ONE = """\
4 0 H_ENTER 0 0x20 | 0x20.0.0.entered
5 1 load at 0x2000003000 walk | 0x20.1.0.at
6 1 H_PROTECT 0 | 0x20.1.2.protected
7 0 H_ENTER 0 0x30 | 0x30.0.0.entered
8 dump table 0 order 18 place 0x1000000000 entries 1
 0x20 0x1001 0x3112 2
"""
# Processor 1 doesn't protect the entry, and line 9 is new.
OTHER = """\
4 0 H_ENTER 0 0x20 | 0x20.0.0.entered
5 1 load at 0x2000003000 hit | 0x20.1.0.at
7 0 H_ENTER 0 0x30 | 0x30.0.0.entered
8 dump table 0 order 18 place 0x1000000000 entries 1
 0x20 0x1001 0x3112 1
9 0 slbclear ok
"""
TOLD = """\
line 5
  - 1 load at 0x2000003000 walk
  + 1 load at 0x2000003000 hit
line 6
  - 1 H_PROTECT 0
line 8
  - dump table 0 order 18 place 0x1000000000 entries 1
    0x20 0x1001 0x3112 2
  + dump table 0 order 18 place 0x1000000000 entries 1
    0x20 0x1001 0x3112 1
line 9
  + 0 slbclear ok
entry 0x20: 3 and 2 receipts
  - line 6, processor 1: H_PROTECT protected; before: stamp 1, R 1, C 0
4 lines and 1 entry differ
"""


class Differences(ToolTest):
    """What is told, with the statuses of diff."""

    def setUp(self) -> None:
        """Writes the two texts."""
        super().setUp()
        for name, text in (("one", ONE), ("other", OTHER)):
            (self.folder / name).write_text(text, encoding="ascii")

    def test_texts_that_differ(self) -> None:
        self.assert_ran(run(DIFF, "one", "other", folder=self.folder), TOLD, status=1)
        self.assert_ran(run(DIFF, "-", "other", given=ONE, folder=self.folder), TOLD, status=1)

    def test_short(self) -> None:
        told = "".join(line for line in TOLD.splitlines(keepends=True) if not line.startswith(" "))
        self.assert_ran(run(DIFF, "--short", "one", "other", folder=self.folder), told, status=1)

    def test_texts_that_are_the_same(self) -> None:
        for path in (self.folder / "one", EXAMPLES / "sharing.replies", DATA / "windows.replies"):
            self.assert_ran(run(DIFF, path, path))

    def test_the_first_difference_is_that_of_the_history(self) -> None:
        """Processors beside each other may have a later line answered by an earlier state."""
        text = "4 0 H_READ 0 0x1 0x2 | 0x20.1.{0}.read\n5 1 H_ENTER 0 0x20 | 0x20.0.{0}.entered\n"
        (self.folder / "one").write_text(text.format(0), encoding="ascii")
        (self.folder / "other").write_text(text.format(1), encoding="ascii")
        told = "entry 0x20: 2 and 2 receipts\n" + "".join(
            f"  {sign} line 5, processor 1: H_ENTER entered; before: stamp 0, R 0, C {changed}\n"
            for sign, changed in (("-", 0), ("+", 1))
        )
        ran = run(DIFF, "one", "other", folder=self.folder)
        self.assert_ran(ran, f"{told}0 lines and 1 entry differ\n", status=1)

    def test_receipts_of_windows(self) -> None:
        """They are of no entry of the page table."""
        windows = (DATA / "windows.replies").read_text()
        changed = windows.replace(".entered", ".taken")
        self.assertNotEqual(changed, windows)
        (self.folder / "changed").write_text(changed)
        ran = run(DIFF, "--short", DATA / "windows.replies", self.folder / "changed")
        self.assert_ran(ran, out=None, status=1)
        self.assertTrue(ran.out.startswith("line "))

    def test_what_is_no_replies(self) -> None:
        ran = run(DIFF, self.folder / "one", EXAMPLES / "first.trace")
        self.assert_refused(ran, f"diff: {A_TRACE}")
        self.assert_refused(run(DIFF, "none", "none"), "diff: none: No such file or directory")

    def test_the_tool_has_help(self) -> None:
        self.assert_help(DIFF)
