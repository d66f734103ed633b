"""Tests of the tool that says why a trace is refused."""

import sys
from typing import Optional, Union

from .formats import SETS, causes_of_entries, rule
from .installed import InstalledTest
from .support import EXAMPLES, TOOLS, ToolTest, for_each, run

sys.path.insert(0, str(TOOLS))

from interface.calls import calls  # noqa: E402

SETTINGS = "order, limit, cpus, pool, ram, io, entry, window, begin, dump"
OTHERS = "hcall, load, store, fetch, dmaread, dmawrite, slbmte, slbclear, amr, iamr"
CALLS = f"{', '.join(call.name for call in calls())}, {OTHERS}"
WORDS = f"a line begins with {SETTINGS}, or with a processor's number and then {CALLS}"
GRANT = "; accepted: see the reasons from `empty` to `tables`"
WINDOW = (
    "window LIOBN BASE PAGES; accepted: LIOBN of 32 bits and no earlier window's, BASE a multiple of 4,096, "
    "PAGES 1 to 16,384, no end above 2^60"
)
ORDER = (
    "order: order, then limit, then cpus, then pool, then ram and io, then entry, then window, then begin, "
    "then run lines"
)
CUT = "papr cut runs a trace of any length in parts"
REFUSED_ENTRY = "H_ENTER of the doublewords, in the older layout, would answer H_PARAMETER"


def part_of(reason: str, part: int) -> str:
    """A part of a reason's rule."""
    return rule(reason).split("; ")[part].removeprefix("or ")


class Words(ToolTest):
    """The tool's words."""

    def test_the_tool_has_help(self) -> None:
        self.assert_help(TOOLS / "why")


class Explanations(InstalledTest):
    """What the installed tool says, with the rule of FORMATS.md and the form of the line."""

    def assert_told(
        self, number: int, reason: str, form: str, *trace: str, hint: str = "", part: Optional[int] = None
    ) -> None:
        """The program refuses the trace at this line and for this reason; no form where none is told."""
        told = [f"line {number} is refused: {reason}"]
        if number <= len(trace):
            told.append(f"  line: {trace[number - 1]}")
        told.append(f"  rule: {rule(reason) if part is None else part_of(reason, part)}")
        if form:
            told.append(f"  {form if form.startswith('order: ') else f'form: {form}'}")
        if hint:
            told.append(f"  hint: {hint}")
        given = "".join(f"{line}\n" for line in trace)
        text = "".join(f"{line}\n" for line in told).replace("é", "\\xe9")
        ran = self.run_installed("papr-why", "-", given=given.encode("latin-1"))
        self.assert_ran(ran, text, status=1)

    def test_the_tool_is_installed(self) -> None:
        self.assertEqual((self.commands / "papr-why").resolve().read_bytes(), (TOOLS / "why").read_bytes())

    def test_a_count_of_words(self) -> None:
        self.assert_told(2, "count", "C H_ENTER flags ptex pteh ptel", "begin", "0 H_ENTER 0x0")

    def test_an_order_out_of_range(self) -> None:
        self.assert_told(1, "range", "order S; accepted: 18 to 22", "order 17", "begin")

    def test_a_word_that_begins_no_line(self) -> None:
        self.assert_told(2, "word", WORDS, "begin", "frob", part=0)

    def test_a_word_that_is_no_call(self) -> None:
        self.assert_told(2, "word", WORDS, "begin", "0 frobnicate 1", part=1)

    def test_a_word_that_resembles_one(self) -> None:
        hint = "did you mean H_ENTER?"
        self.assert_told(2, "word", "", "begin", "0 H_ENTR 1", part=1, hint=hint)
        self.assert_told(2, "word", "", "begin", "0 h_enter 1", part=1, hint=hint)
        self.assert_told(1, "word", "", "oder 18", part=0, hint="did you mean order?")

    def test_a_number_that_is_none(self) -> None:
        form = "C hcall number and up to eight numbers"
        self.assert_told(2, "number", form, "begin", "0 hcall x", hint="the word is `x`")

    def test_a_mode_that_is_none(self) -> None:
        self.assert_told(2, "mode", "C load ea mode", "begin", "0 load 0x1000 root")

    def test_grants_that_overlap(self) -> None:
        form = f"io LOGICAL MACHINE LENGTH{GRANT}"
        hint = "its logical range meets that of line 1, ram 0x0 0x0 0x1000"
        self.assert_told(2, "overlap", form, "ram 0 0 0x1000", "io 0 0x1000 0x1000", "begin", hint=hint)

    @for_each(
        (0, "older 0x20 00000000000010010000000000000012"),
        (1, "old 0x4000 00000000000010010000000000000012"),
        (2, "old 0x20 000000000000100100000000000000"),
        (3, "old 0x20 00000000000010000000000000000012"),
        (3, "old 0x20 00000000000010410000000000000012"),
        (4, "new 0x20 10000000000010010000000000000012"),
        (5, "old 0x20 00000000000010014000000000000012"),
        ("B is above 1", "old 0x20 80000000000010010000000000000012"),
        ("no page size is encoded", "old 0x20 00000000000010050000000000002012"),
        ("no single grant holds the whole page", "old 0x20 00000000000010010000000000003012"),
        ("W, I, M and G don't suit the grant", "old 0x20 00000000000010010000000000000032"),
    )
    def test_an_entry(self, case: tuple[Union[int, str], str]) -> None:
        """The cause that applies, of those in the documents' list."""
        which, entry = case
        trace = ("ram 0 0 0x1000", f"entry {entry}", "begin")
        ran = self.run_installed("papr-why", "-", given="".join(f"{line}\n" for line in trace))
        self.assert_ran(ran, out=None, status=1)
        told = ran.out.splitlines()[2].removeprefix("  rule: ")
        listed = causes_of_entries()
        self.assertEqual(told, listed[which] if isinstance(which, int) else f"{REFUSED_ENTRY}: {which}")
        self.assertTrue(listed[6].startswith(REFUSED_ENTRY))

    def test_a_trace_without_begin(self) -> None:
        self.assert_told(2, "begin", "", "order 18")

    def test_a_byte_that_is_not_ascii(self) -> None:
        hint = "byte 13 of the line is 0xe9"
        self.assert_told(2, "ascii", "", "begin", "0 slbclear é", hint=hint.replace("13", "12"))
        remark = "byte 6 of the line is 0xe9; remarks are ASCII too"
        self.assert_told(1, "ascii", "", "# café", hint=remark)

    def test_a_byte_order_mark(self) -> None:
        ran = self.run_installed("papr-why", "-", given="\ufeffbegin\n".encode())
        self.assert_ran(ran, out=None, status=1)
        hint = "  hint: the line begins with a byte-order mark, which has to be taken out"
        self.assertEqual(ran.out.splitlines()[-1], hint)

    def test_a_remark_behind_a_line(self) -> None:
        hint = "a remark has a line of its own; after other words `#` doesn't begin one"
        self.assert_told(2, "count", "C slbclear", "begin", "0 slbclear # all", hint=hint)

    def test_a_trace_that_is_too_long(self) -> None:
        self.assert_told(2**17 + 1, "lines", "", *["#"] * (2**17 + 1), hint=CUT)
        ran = self.run_installed("papr-why", "-", given=b"#" * (2**24 + 1))
        text = f"line 0 is refused: long\n  rule: {rule('long')}\n  hint: {CUT}\n"
        self.assert_ran(ran, text, status=1)

    def test_a_processor_that_is_none(self) -> None:
        hint = "processors are counted from 0, and there are as many as `cpus 2` says"
        self.assert_told(3, "cpu", "C slbclear", "cpus 2", "begin", "2 slbclear", hint=hint)

    def test_an_input_of_another_command(self) -> None:
        ran = self.run_installed("papr-why", EXAMPLES / "bad-lost-change.judged")
        self.assert_ran(ran, out=None, status=1)
        hint = "  hint: a trace, a line `replies` and replies are an input of papr check"
        self.assertEqual(ran.out.splitlines()[-1], hint)
        ran = self.run_installed("papr-why", EXAMPLES / "two-partitions.set")
        self.assert_ran(ran, out=None, status=1)
        hint = "  hint: this looks like a set of partitions, an input of papr set"
        self.assertEqual(ran.out.splitlines()[-1], hint)

    def test_a_window_of_a_number_past_32_bits(self) -> None:
        self.assert_told(1, "window", WINDOW, "window 0x100000000 0x0 0x1", "begin", part=0)

    def test_a_window_that_is_not_aligned(self) -> None:
        self.assert_told(1, "window", WINDOW, "window 0x1 0x800 0x1", "begin", part=1)

    def test_a_window_of_an_earlier_ones_number(self) -> None:
        self.assert_told(2, "window", WINDOW, "window 0x1 0x0 0x1", "window 0x1 0x1000 0x1", "begin", part=0)

    def test_a_window_that_lacks_a_word(self) -> None:
        self.assert_told(1, "count", WINDOW, "window 0x1 0x0", "begin")

    def test_a_window_of_a_number_that_is_none(self) -> None:
        self.assert_told(1, "number", WINDOW, "window 0x1 0x0 x", "begin", hint="the word is `x`")

    def test_a_window_behind_begin(self) -> None:
        self.assert_told(2, "place", ORDER, "begin", "window 0x1 0x0 0x1", part=1)

    def test_a_grant_behind_a_window(self) -> None:
        self.assert_told(2, "place", ORDER, "window 0x1 0x0 0x1", "ram 0 0 0x1000", "begin", part=0)
        self.assert_told(2, "place", ORDER, "order 18", "order 18", part=2)
        self.assert_told(1, "place", ORDER, "0 slbclear", part=3)

    def test_a_tce_that_lacks_a_word(self) -> None:
        self.assert_told(2, "count", "C H_PUT_TCE liobn ioba tce", "begin", "0 H_PUT_TCE 0x1 0x0")

    def test_a_devices_access_at_no_number(self) -> None:
        form = "C dmaread liobn ioba"
        self.assert_told(2, "number", form, "begin", "0 dmaread 0x1 x", hint="the word is `x`")

    def test_a_trace_that_is_accepted(self) -> None:
        ran = self.run_installed("papr-why", "-", given="begin\n")
        self.assert_ran(ran, "papr accepts this trace\n")

    def test_a_set_that_is_refused(self) -> None:
        """Beside the rule of traces stands that of sets."""
        grants = "0 ram 0 0 0x1000\n1 ram 0 0 0x1000\n"
        form = f"a partition's number, 0 to 7, and then ram LOGICAL MACHINE LENGTH{GRANT}"
        text = (
            "line 2 is refused: overlap\n  line: 1 ram 0 0 0x1000\n"
            f"  rule: {rule('overlap')}; {rule('overlap', SETS)}\n  form: {form}\n"
        )
        self.assert_ran(self.run_installed("papr-why", "--set", "-", given=grants), text, status=1)

    def test_a_set_that_is_accepted(self) -> None:
        ran = self.run_installed("papr-why", "--set", EXAMPLES / "two-partitions.set")
        self.assert_ran(ran, "papr accepts this set\n")

    def test_the_program_is_found_whatever_the_path_is(self) -> None:
        ran = run(self.commands / "papr-why", "-", given="begin\n", environment={"PATH": "/usr/bin:/bin"})
        self.assert_ran(ran, "papr accepts this trace\n")
