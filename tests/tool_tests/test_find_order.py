"""Tests of the tool that judges replies without receipts."""

import os
import re
from pathlib import Path
from typing import Optional

from .calls import log_of, trace_of, without_receipts
from .installed import InstalledTest
from .support import PROGRAM, TOOLS, TOP, Ran, ToolTest, for_each, run

# How many texts of `papr par` lose their receipts; a run by hand may ask for more.
TEXTS = int(os.environ.get("PAPR_ORDERS", "40"))

# KVM's H_CLEAR_REF beside a store, as seen: R was read before the store, and cleared after it.
CLEAR_REF_TRACE = """order 18
cpus 4
ram 0x0 0x2000000000 0x1000000
begin
1 slbmte 0x8000000 0x1000
2 H_ENTER 0x8000000000 0x28 0x1001 0x800112
2 H_CLEAR_REF 0x0 0x28
1 store 0x4008 priv
3 H_PROTECT 0x3 0x28 0x0
3 H_CLEAR_REF 0x0 0x28
"""
CLEAR_REF = """5 1 slbmte ok
6 2 H_ENTER 0 0x28 @ 0 10
7 2 H_CLEAR_REF 0 0x800112 @ 20 50
8 1 store at 0x2000800008 @ 30 40
9 3 H_PROTECT 0 @ 60 70
10 3 H_CLEAR_REF 0 0x800093 @ 80 90
"""
CLEAR_REF_JUDGED = """5 1 slbmte ok
6 2 H_ENTER 0 0x28 | 0x28.0.0.entered
7 2 H_CLEAR_REF 0 0x800192 | 0x28.1.3.was
8 1 store at 0x2000800008 walk | 0x28.1.2.at
9 3 H_PROTECT 0 | 0x28.2.1.protected
10 3 H_CLEAR_REF 0 0x800093 | 0x28.3.1.was
"""
CLEAR_REF_ORDERS = """no order of entry 0x28
before: empty
  6 2 H_ENTER 0x8000000000 0x28 0x1001 0x800112 -> 0 0x28 @ 0 10
> 7 2 H_CLEAR_REF 0x0 0x28 -> 0 0x800112 @ 20 50
  8 1 store 0x4008 priv -> at 0x2000800008 @ 30 40
  9 3 H_PROTECT 0x3 0x28 0x0 -> 0 @ 60 70
> 10 3 H_CLEAR_REF 0x0 0x28 -> 0 0x800093 @ 80 90
"""

# KVM's H_READ beside a removal, as seen: V is clear, and the rest is there.
TORN_READ_TRACE = """order 18
cpus 2
ram 0x0 0x2000000000 0x1000000
begin
0 H_ENTER 0x8000000000 0x20 0x1001 0x801012
1 H_READ 0x0 0x20
0 H_REMOVE 0x0 0x20 0x0
"""
TORN_READ = """5 0 H_ENTER 0 0x20
6 1 H_READ 0 0x1000 0x51d1012
7 0 H_REMOVE 0 0x1001 0x801012
"""

# H_ENTER passes an entry that another call holds for a moment.
PASSED_TRACE = """cpus 2
ram 0x0 0x2000000000 0x40000000
begin
0 H_ENTER 0x0 0x30 0x1001 0x3012
1 H_REMOVE 0x0 0x30 0x0
"""
PASSED = """4 0 H_ENTER 0 0x31 @ 10 20
5 1 H_REMOVE -7 @ 10 20
"""
HEAD = "cpus 2\nram 0x0 0x2000000000 0x40000000\nbegin\n"
ENTERED = "0 H_ENTER 0x8000000000 0x20 0x1001 0x3012\n"

# Processor 1's cached translation still serves a store after its H_READ saw V clear, so the removal comes later.
READ_TRACE = f"{TORN_READ_TRACE}1 slbmte 0x8000000 0x1000\n1 store 0x5008 priv\n"
READ = """5 0 H_ENTER 0 0x20 @ 0 5
6 1 H_READ 0 0x1000 0x51d1012 @ 12 15
7 0 H_REMOVE 0 0x1001 0x801192 @ 10 60
8 1 slbmte ok @ 16 17
9 1 store at 0x2000801008 @ 20 40
"""
# The read comes after the removal has ended.
EMPTY = """5 0 H_ENTER 0 0x20 @ 0 5
6 1 H_READ 0 0x0 0x51d1012 @ 12 15
7 0 H_REMOVE 0 0x1001 0x801012 @ 6 10
"""
MARKED_TRACE = f"{HEAD}{ENTERED}0 H_CLEAR_MOD 0x0 0x20\n"
MARKED = "4 0 H_ENTER 0 0x20\n5 0 H_CLEAR_MOD 0 0x4000000000003012\n"
# A text that needs each difference.
CASES = {
    "words-of-empty": (TORN_READ_TRACE, EMPTY),
    "read-in-removal": (READ_TRACE, READ),
    "bit-62": (MARKED_TRACE, MARKED),
    "enter-past-locked": (PASSED_TRACE, PASSED),
    "clear-ref-in-two-steps": (CLEAR_REF_TRACE, CLEAR_REF),
}
# The same with a change after which it is none: another bit, or nothing beside the call.
OTHERS = (
    ("words-of-empty", "0x0 0x51d1012", "0x1 0x51d1012"),
    ("read-in-removal", "0x1000 0x51d1012", "0x1080 0x51d1012"),
    ("read-in-removal", "0x801192 @ 10 60", "0x801192 @ 18 60"),
    ("bit-62", "0x4000000000003012", "0x2000000000003012"),
    ("enter-past-locked", "-7 @ 10 20", "-7 @ 21 30"),
    ("clear-ref-in-two-steps", "0x800112", "0x800012"),
    ("clear-ref-in-two-steps", "0x800093", "0x800013"),
)


class Words(ToolTest):
    """The tool's words."""

    def test_the_tool_has_help(self) -> None:
        self.assert_help(TOOLS / "find-order")


class OrderTest(InstalledTest):
    """A test of the installed tool, which writes what it found into a file."""

    def write(self, name: str, text: str) -> Path:
        """A file with this text."""
        path = self.folder / name
        path.write_text(text, encoding="ascii")
        return path

    def find(self, trace: str, replies: str, *options: str) -> Ran:
        """What the tool says."""
        files = self.write("trace", trace), self.write("replies", replies)
        return self.run_installed("papr-find-order", *options, *files, "-o", str(self.folder / "judged"))

    @property
    def judged(self) -> tuple[str, str]:
        """The trace and the replies that papr judged."""
        trace, _, replies = (self.folder / "judged").read_text(encoding="ascii").partition("replies\n")
        return trace, replies


class Examples(OrderTest):
    """What was seen of KVM, and known differences."""

    def test_a_clearing_in_two_steps(self) -> None:
        ran = self.find(CLEAR_REF_TRACE, CLEAR_REF, "--allow", "clear-ref-in-two-steps")
        self.assert_ran(ran, "good except for clear-ref-in-two-steps 1\n")
        noted = "# clear-ref-in-two-steps: 7 2 H_CLEAR_REF 0x0 0x28 -> 0 0x800112 @ 20 50\n"
        self.assertEqual(self.judged, (CLEAR_REF_TRACE + noted, CLEAR_REF_JUDGED))

    @for_each(*CASES)
    def test_the_text_with_notes_is_one_that_papr_calls_good(self, name: str) -> None:
        trace, replies = CASES[name]
        self.assert_ran(self.find(trace, replies, "--allow", name), f"good except for {name} 1\n")
        self.assert_ran(run(PROGRAM, "check", given=(self.folder / "judged").read_text(encoding="ascii")), "good\n")

    @for_each(*CASES)
    def test_a_difference_that_is_not_allowed(self, name: str) -> None:
        """Neither without an option, nor by the names of the others."""
        others = [word for other in CASES if other != name for word in ("--allow", other)]
        for options in (list[str](), others):
            ran = self.find(*CASES[name], *options)
            self.assert_ran(ran, out=None, status=1)
            self.assertTrue(ran.out.startswith("no order of entry "), ran.out)

    @for_each(*OTHERS)
    def test_what_is_like_a_difference_and_is_none(self, case: tuple[str, str, str]) -> None:
        name, before, after = case
        trace, replies = CASES[name]
        self.assertEqual(replies.count(before), 1)
        ran = self.find(trace, replies.replace(before, after), "--allow", "kvm")
        self.assert_ran(ran, out=None, status=1)
        self.assertTrue(ran.out.startswith("no order"), ran.out)

    def test_a_name_of_no_difference(self) -> None:
        ran = self.find(TORN_READ_TRACE, TORN_READ, "--allow", "kvx")
        self.assertEqual(ran.status, 2)
        self.assertIn("invalid choice: 'kvx'", ran.err)

    def test_each_name_has_a_row_in_the_documents(self) -> None:
        page = (TOP / "docs" / "COMPATIBILITY.md").read_text(encoding="utf-8")
        rows = re.findall(r"(?m)^\| `([a-z0-9-]+)` \|.* \|$", page.partition("that `papr find-order` allows")[2])
        self.assertEqual(rows, list(CASES))

    def test_a_trace_without_room_for_notes(self) -> None:
        """A trace has at most 2^17 lines, remarks too."""
        full = TORN_READ_TRACE + "#\n" * (2**17 - TORN_READ_TRACE.count("\n"))
        ran = self.find(full, TORN_READ, "--allow", "kvm")
        message = "papr-find-order: the text has room for 0 of its 1 notes\n"
        self.assert_ran(ran, "good except for words-of-empty 1\n", err=message)

    def test_a_clearing_in_two_steps_that_is_not_allowed(self) -> None:
        self.assert_ran(self.find(CLEAR_REF_TRACE, CLEAR_REF), CLEAR_REF_ORDERS, status=1)

    def test_a_clearing_in_two_steps_after_which_a_store_came(self) -> None:
        """A store that ended before H_CLEAR_REF began explains nothing."""
        ran = self.find(CLEAR_REF_TRACE, CLEAR_REF.replace("@ 30 40", "@ 12 18"), "--allow", "kvm")
        self.assert_ran(ran, out=None, status=1)
        self.assertTrue(ran.out.startswith("no order of entry 0x28\n"), ran.out)

    def test_the_words_of_an_empty_entry(self) -> None:
        self.assert_ran(self.find(TORN_READ_TRACE, TORN_READ, "--allow", "kvm"), "good except for words-of-empty 1\n")
        self.assertIn("6 1 H_READ 0 0x0 0x0 | 0x20.", self.judged[1])

    def test_a_read_in_a_removal(self) -> None:
        """A store succeeds after the read, so that the removal comes later."""
        ran = self.find(READ_TRACE, READ, "--allow", "kvm")
        self.assert_ran(ran, "good except for read-in-removal 1\n")
        self.assertIn("\n6 1 H_READ 0 0x1001 0x801012 | 0x20.1.0.read\n", self.judged[1])

    def test_words_of_an_empty_entry_that_are_not_allowed(self) -> None:
        ran = self.find(TORN_READ_TRACE, TORN_READ)
        self.assert_ran(ran, out=None, status=1)
        self.assertIn("\n> 6 1 H_READ 0x0 0x20 -> 0 0x1000 0x51d1012\n", ran.out)

    def test_bit_62(self) -> None:
        ran = self.find(MARKED_TRACE, MARKED, "--allow", "kvm")
        self.assert_ran(ran, "good except for bit-62 1\n")
        self.assertIn("H_CLEAR_MOD 0 0x3012 | 0x20.1.0.was\n", self.judged[1])

    def test_an_entry_that_was_passed(self) -> None:
        self.assert_ran(self.find(PASSED_TRACE, PASSED, "--allow", "kvm"), "good except for enter-past-locked 1\n")
        self.assertIn("\n0 H_ENTER 0x8000000000 0x31 0x1001 0x3012\n", self.judged[0])
        self.assertIn("4 0 H_ENTER 0 0x31 | 0x31.0.0.entered\n", self.judged[1])


class Verdicts(OrderTest):
    """Good and bad replies, and what can't be judged."""

    def test_times_decide(self) -> None:
        trace = f"{HEAD}{ENTERED}1 H_READ 0x0 0x20\n"
        replies = "4 0 H_ENTER 0 0x20 @ 0 10\n5 1 H_READ 0 0x0 0x0 @ {} 30\n"
        self.assert_ran(self.find(trace, replies.format(10)), "good\n")
        self.assert_ran(self.find(trace, replies.format(11)), out=None, status=1)

    def test_replies_in_any_order(self) -> None:
        trace = f"{HEAD}{ENTERED}1 H_READ 0x0 0x20\n"
        self.assert_ran(self.find(trace, "# a remark\n5 1 H_READ 0 0x1001 0x3012\n\n4 0 H_ENTER 0 0x20\n"), "good\n")

    def test_a_reply_that_no_entry_can_have_given(self) -> None:
        trace = f"{HEAD}{ENTERED}0 slbmte 0x8000000 0x1000\n0 load 0x5008 priv\n"
        ran = self.find(trace, "4 0 H_ENTER 0 0x20\n5 0 slbmte ok\n6 0 load at 0x2000004008\n")
        told = "no order: no entry can have given this reply\n> 6 0 load 0x5008 priv -> at 0x2000004008\n"
        self.assert_ran(ran, told, status=1)

    def test_a_code_of_which_no_entry_knows(self) -> None:
        """papr's check has the last word."""
        trace = f"{HEAD}0 H_ENTER 0x8000000000 0x20 0x1001 0x3013\n0 H_READ 0x0 0x4000\n"
        self.assert_ran(self.find(trace, "4 0 H_ENTER 0 0x20\n5 0 H_READ -2\n"), "bad section 1\n", status=1)

    def test_too_few_steps(self) -> None:
        ran = self.find(f"{HEAD}{ENTERED}", "4 0 H_ENTER 0 0x20\n", "--steps", "0")
        self.assert_ran(ran, "undecided\n", status=3, err="papr-find-order: the bound of steps is reached\n")

    @for_each(
        ("5 0 H_ENTER 0 0x20\n", "this is no reply to a run line of the trace: 5 0 H_ENTER 0 0x20"),
        ("4 1 H_ENTER 0 0x20\n", "this is no reply to line 4: 4 1 H_ENTER 0 0x20"),
        ("", "line 4 has no reply"),
        ("4 0 H_ENTER 0 0x20\n4 0 H_ENTER 0 0x20\n", "line 4 has two replies"),
        ("4 0 H_ENTER 0 0x20 @ 2 1\n", "line 4 ended before it began"),
        ("4 0 H_ENTER 0 frob\n", "the reply to line 4: `frob` is no number"),
        ("4 0 H_ENTER 0 0x20 @ 1 x\n", "the reply to line 4: `x` is no number"),
    )
    def test_replies_that_are_none(self, case: tuple[str, str]) -> None:
        self.assert_refused(self.find(f"{HEAD}{ENTERED}", case[0]), f"papr-find-order: {case[1]}")

    @for_each(
        ("0 H_READ\n", "the trace is refused: line 4, count"),
        ("dump\n", "line 4 of the trace is a quiet line; cut the trace before it"),
        ("0 H_GET_TCE 0x0 0x0\n", "line 4 of the trace is on a DMA window, which has no order here"),
        ("0 hcall 0x20 0x0 0x0 0x0\n", "line 4 of the trace is on a DMA window, which has no order here"),
    )
    def test_traces_that_are_not_judged(self, case: tuple[str, str]) -> None:
        self.assert_refused(self.find(f"{HEAD}{case[0]}", ""), f"papr-find-order: {case[1]}")


class Receipts(OrderTest):
    """Receipts that are taken out and found again."""

    def test_texts_of_par(self) -> None:
        """Each entry has a page of its own, or all of a group have one."""
        for seed in range(TEXTS):
            with self.subTest(seed=seed):
                trace = trace_of(seed, 3, 40, 8 if seed % 2 else 1)
                told = run(PROGRAM, "par", given=trace).out
                self.assert_ran(self.find(trace, without_receipts(told)), "good\n")

    @for_each(1, 8)
    def test_a_run_with_times(self, pages: int) -> None:
        trace = trace_of(7, 4, 200, pages)
        log = log_of(trace, run(PROGRAM, "run", given=trace).out, 7, 60)
        self.assert_ran(self.find(log.trace, log.replies), "good\n")

    def test_one_reply_that_is_changed(self) -> None:
        """With the doubleword of an H_REMOVE changed papr calls the text bad, and no order is found."""
        found = 0
        for seed in range(TEXTS):
            trace = trace_of(seed, 3, 40)
            told = run(PROGRAM, "par", given=trace).out
            wrong = changed(told)
            if wrong is None:
                continue
            with self.subTest(seed=seed):
                found += 1
                self.assertEqual(run(PROGRAM, "check", given=f"{trace}replies\n{wrong}").status, 6)
                ran = self.find(trace, without_receipts(wrong))
                self.assert_ran(ran, out=None, status=1)
                self.assertRegex(ran.out, r"no order")
        self.assertGreater(found, TEXTS // 4)


def changed(told: str) -> Optional[str]:
    """A text with another second doubleword in its first reply of an H_REMOVE that removed, if there is one."""
    found = re.search(r"H_REMOVE 0 0x[0-9a-f]+ 0x[0-9a-f]+(?= )", told)
    return None if found is None else f"{told[: found.end()]}0{told[found.end() :]}"
