"""Tests of the tool that finds the line at which replies go wrong."""

from pathlib import Path

from .installed import InstalledTest
from .support import EXAMPLES, TOOLS, Ran, ToolTest

JUDGED = "replies\n"  # the line between a trace and its replies

# Two calls that each find the other's removal: the replies to the first alone aren't those of a good run.
CROSSED_TRACE = """cpus 2
ram 0x0 0x2000000000 0x40000000
begin
0 H_ENTER 0x8000000000 0x20 0x1001 0x3012
0 H_ENTER 0x8000000000 0x21 0x2001 0x4012
0 H_BULK_REMOVE 0x4000000000000020 0x0 0x4000000000000021 0x0 0xc000000000000000 0x0 0x0 0x0
1 H_BULK_REMOVE 0x4000000000000021 0x0 0x4000000000000020 0x0 0xc000000000000000 0x0 0x0 0x0
1 H_READ 0x0 0x20
"""
CROSSED_REPLIES = """4 0 H_ENTER 0 0x20 | 0x20.0.0.entered
5 0 H_ENTER 0 0x21 | 0x21.0.0.entered
6 0 H_BULK_REMOVE 0 0x8000000000000020 0x0 0x9000000000000021 0x0 0xc000000000000000 0x0 0x0 0x0 \
| 0x20.1.0.removed 0x21.2.0.notfound
7 1 H_BULK_REMOVE 0 0x8000000000000021 0x0 0x9000000000000020 0x0 0xc000000000000000 0x0 0x0 0x0 \
| 0x21.1.0.removed 0x20.2.0.notfound
"""


class Words(ToolTest):
    """The tool's words."""

    def test_the_tool_has_help(self) -> None:
        self.assert_help(TOOLS / "bad-line")


class Verdicts(InstalledTest):
    """What the installed tool says of a trace and of a text of replies."""

    def write(self, name: str, text: str) -> Path:
        """A file with this text."""
        path = self.folder / name
        path.write_text(text, encoding="ascii")
        return path

    def judge(self, name: str) -> Ran:
        """What the tool says of an example that is judged."""
        trace, _, replies = (EXAMPLES / f"{name}.judged").read_text(encoding="ascii").partition(f"\n{JUDGED}")
        files = self.write("bad.trace", f"{trace}\n"), self.write("bad.replies", replies)
        return self.run_installed("papr-bad-line", *files)

    def test_a_change_that_was_lost(self) -> None:
        text = "bad section 1\nline 10 of the trace\n  reply: 10 0 H_PROTECT 0 | 0x20.1.0.protected\n"
        self.assert_ran(self.judge("bad-lost-change"), text, status=1)

    def test_a_hit_on_an_entry_that_was_removed(self) -> None:
        reply = "12 1 load at 0x2000003000 hit | 0x20.1.2.at"
        text = f"bad section 2\nline 12 of the trace\n  reply: {reply}\n"
        self.assert_ran(self.judge("bad-removed-hit"), text, status=1)

    def judge_crossed(self, reply: str) -> Ran:
        """What the tool says of calls that cross, and of this last reply."""
        replies = f"{CROSSED_REPLIES}{reply}\n"
        files = self.write("crossed.trace", CROSSED_TRACE), self.write("crossed.replies", replies)
        return self.run_installed("papr-bad-line", *files)

    def test_two_calls_that_each_found_what_the_other_did(self) -> None:
        self.assert_ran(self.judge_crossed("8 1 H_READ 0 0x0 0x0 | 0x20.2.0.read"), "good\n")

    def test_a_line_behind_two_calls_that_each_found_what_the_other_did(self) -> None:
        reply = "8 1 H_READ 0 0x0 0x0 | 0x20.1.0.read"
        text = f"bad section 1\nline 8 of the trace\n  reply: {reply}\n"
        self.assert_ran(self.judge_crossed(reply), text, status=1)

    def test_a_good_text(self) -> None:
        self.assert_ran(self.judge("good-schedule"), "good\n")

    def test_text_that_follows_the_last_reply(self) -> None:
        replies = self.write("bad.replies", "2 0 slbclear ok\n3 0 slbclear ok\n")
        ran = self.run_installed("papr-bad-line", self.write("bad.trace", "begin\n0 slbclear\n"), replies)
        told = "no line of it is bad by itself: replies are missing, or text follows them"
        self.assert_ran(ran, f"bad section 2\n{told}\n", status=1)

    def test_a_trace_that_is_refused(self) -> None:
        files = self.write("bad.trace", "begin\n0 H_READ\n"), self.write("bad.replies", "")
        ran = self.run_installed("papr-bad-line", *files)
        self.assert_refused(ran, "papr-bad-line: the trace is refused: line 2, count")
