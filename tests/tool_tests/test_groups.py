"""Tests of the tool that says which groups of the table are fullest."""

from .installed import InstalledTest
from .support import EXAMPLES, TOOLS, ToolTest, needs, run

# Two entries of group 4, and one of group 5; line 7 removes the first of all.
TRACE = """\
order 18
ram 0x0 0x2000000000 0x40000000
begin
0 H_ENTER 0x8000000000 0x20 0x1001 0x3012
0 H_ENTER 0x8000000000 0x27 0x1001 0x4012
0 H_ENTER 0x8000000000 0x28 0x2001 0x5012
0 H_REMOVE 0x0 0x20 0x0
"""


class Counts(InstalledTest):
    """The counts of a trace."""

    def test_the_fullest_group_comes_first(self) -> None:
        """2^18 bytes are 16,384 entries, and 2,048 groups."""
        out = "3 valid entries in 2 of 2048 groups\n2 valid: 1 group: 0x20\n1 valid: 1 group: 0x28\n"
        self.assert_ran(self.run_installed("papr-groups", "--at", "6", "-", given=TRACE), out)

    def test_it_counts_at_the_end_where_no_line_is_named(self) -> None:
        out = "2 valid entries in 2 of 2048 groups\n1 valid: 2 groups: 0x20 0x28\n"
        self.assert_ran(self.run_installed("papr-groups", "-", given=TRACE), out)

    def test_an_empty_table_has_no_group(self) -> None:
        out = "0 valid entries in 0 of 2048 groups\n"
        self.assert_ran(self.run_installed("papr-groups", "--at", "3", "-", given=TRACE), out)

    @needs("xz")
    def test_five_groups_of_many_are_named(self) -> None:
        """Each H_ENTER of the first 1,000 lines fills a group of its own: five settings are in front."""
        ran = self.run_installed("papr-groups", "--at", "1000", EXAMPLES / "linux-boot.trace.xz")
        named = "0x18000 0x18008 0x18010 0x18018 0x18020 .."
        self.assert_ran(ran, f"996 valid entries in 996 of 16384 groups\n1 valid: 996 groups: {named}\n")

    def test_a_line_that_is_not_there(self) -> None:
        for line in ("0", "8"):
            ran = self.run_installed("papr-groups", "--at", line, "-", given=TRACE)
            self.assert_refused(ran, f"papr-groups: the trace has no line {line}, but 7 lines")

    def test_a_trace_that_is_refused(self) -> None:
        ran = self.run_installed("papr-groups", "-", given="order 17\n")
        self.assert_refused(ran, "papr-groups: papr refuses this trace: line 1: range")


class Words(ToolTest):
    """The tool's words."""

    def test_the_tool_has_help(self) -> None:
        self.assert_help(TOOLS / "groups")

    def test_a_line_that_is_no_number(self) -> None:
        ran = run(TOOLS / "groups", "--at", "x", EXAMPLES / "first.trace")
        self.assert_refused(ran, "groups: error: argument --at: `x` is no number")
