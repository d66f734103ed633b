"""Tests of what the tool says of lines of a trace that papr accepts: why they were answered so."""

import json
import resource

from .formats import code_row, codes
from .installed import InstalledTest
from .support import EXAMPLES, PROGRAM, TOOLS, TOP, ToolTest, for_each, needs, needs_library, needs_program
from .support import run, run_bytes

HEAD = "order 18\ncpus 3\nram 0x0 0x2000000000 0x40000000\n"
ENTERED = "0 H_ENTER 0x8000000000 0x20 0x1001 0x3012\n"
NAMES = {"H_LONG_BUSY_ORDER_1_MSEC": "H_LONG_BUSY"}  # which the libraries call so
PLACE = "  entry 0x20, group 0x4, slot 0: "


class Lines(InstalledTest):
    """A line, or a range of lines."""

    def why(self, trace: str, lines: str) -> list[str]:
        """What is said of these lines."""
        ran = self.run_installed("papr-why", "-", lines, given=trace)
        self.assert_ran(ran, out=None)
        return ran.out.splitlines()

    def test_an_entry_that_is_empty_names_the_line_that_emptied_it(self) -> None:
        trace = f"{HEAD}begin\n{ENTERED}2 H_REMOVE 0x0 0x20 0x0\n1 H_PROTECT 0x0 0x20 0x0\n"
        said = [
            "line 7: 1 H_PROTECT 0x0 0x20 0x0",
            f"  answer: -7, H_NOT_FOUND: {code_row('H_NOT_FOUND')}",
            f"{PLACE}it is empty; before: stamp 2, R 0, C 0",
            "    line 6, processor 2, H_REMOVE emptied entry 0x20",
        ]
        self.assertEqual(self.why(trace, "7"), said)

    def test_an_entry_that_no_line_filled(self) -> None:
        said = self.why(f"{HEAD}begin\n1 H_PROTECT 0x0 0x20 0x0\n", "5")
        self.assertEqual(said[2], f"{PLACE}it is empty; before: stamp 0, R 0, C 0")
        self.assertEqual(said[3], "    no line before filled entry 0x20")

    def test_an_entry_that_is_another_says_what_it_has_and_what_is_asked_for(self) -> None:
        """The flag H_AVPN, and the abbreviated page number of another page."""
        said = self.why(f"{HEAD}begin\n{ENTERED}1 H_PROTECT 0x80000000 0x20 0x2000\n", "6")
        another = "it isn't the one that the call names: doubleword 0 is 0x1001, and the call asks for 0x2000"
        self.assertEqual(said[2], f"{PLACE}{another}; before: stamp 1, R 0, C 0")
        self.assertEqual(said[3], "    line 5, processor 0, H_ENTER filled entry 0x20")

    def test_an_entry_that_has_a_bit_which_must_be_clear(self) -> None:
        """The flag H_ANDCOND of H_REMOVE."""
        said = self.why(f"{HEAD}begin\n{ENTERED}1 H_REMOVE 0x40000000 0x20 0x1\n", "6")
        another = "it isn't the one that the call names: doubleword 0, 0x1001, has a bit of 0x1"
        self.assertEqual(said[2], f"{PLACE}{another}; before: stamp 1, R 0, C 0")

    def test_a_group_that_is_full_names_the_line_of_each_entry(self) -> None:
        said = self.why((EXAMPLES / "first.trace").read_text(encoding="ascii"), "4-5")
        self.assertEqual(said[1], "  answer: 0, H_SUCCESS")
        self.assertEqual(said[5], "  answer: -6, H_PTEG_FULL: each entry that was tried is taken")
        self.assertEqual(said[7], "    line 4, processor 0, H_ENTER filled entry 0x27")
        self.assertEqual(len(said), 8)

    def test_an_entry_of_the_opening_table(self) -> None:
        entry = "entry old 0x20 00000000000010010000000000003012\n"
        said = self.why(f"{HEAD}{entry}begin\n{ENTERED}", "6")
        self.assertEqual(said[-1], "    line 4 opens the table with entry 0x20")

    def test_a_protection_that_refuses_names_the_line_that_set_it(self) -> None:
        """With pp 3 a page is read alone."""
        trace = f"{HEAD}begin\n{ENTERED}0 H_PROTECT 0x3 0x20 0x0\n1 slbmte 0x8000000 0x1000\n1 store 0x5000 priv\n"
        said = self.why(trace, "8")
        self.assertEqual(said[1], "  answer: denied: the entry's protection refuses the access")
        self.assertEqual(said[-1], "    line 6, processor 0, H_PROTECT changed the protection of entry 0x20")

    def test_an_entry_that_a_resize_carried(self) -> None:
        """The table of the lines before has it: the replies don't say."""
        head = "order 18\nlimit 19\nram 0x0 0x2000000000 0x40000000\nbegin\n"
        bolted = "0 H_ENTER 0x8000000000 0x20 0x1011 0x3012\n"
        calls = ("H_RESIZE_HPT_PREPARE",) * 3 + ("H_RESIZE_HPT_COMMIT",)
        resize = "".join(f"0 {call} 0x0 19\n" for call in calls)
        said = self.why(f"{head}{bolted}{resize}0 H_PROTECT 0x80000000 0x20 0x2000\n", "10")
        self.assertIn("it isn't the one that the call names: doubleword 0 is 0x1011", said[2])
        self.assertEqual(said[3], "    line 9, H_RESIZE_HPT_COMMIT, made this table; no line since changed entry 0x20")

    @for_each(
        ("0x0 0x20 0x1001 0x7f0000012", "no single grant holds the whole page"),
        ("0x0 0x4000 0x1001 0x3012", "index 0x4000 isn't below the number of entries, 0x4000"),
        ("0x0 0x20 0x8000000000001001 0x3012", "B is above 1"),
    )
    def test_a_parameter_of_an_enter(self, case: tuple[str, str]) -> None:
        said = self.why(f"{HEAD}begin\n0 H_ENTER {case[0]}\n", "5")
        self.assertEqual(said, [f"line 5: 0 H_ENTER {case[0]}", f"  answer: -4, H_PARAMETER: {case[1]}"])

    @needs("xz")
    def test_a_line_of_a_boot(self) -> None:
        """Worked out from the trace: line 71811 removes the entry that line 71812 protects."""
        trace = run_bytes("xz", "-dc", EXAMPLES / "linux-boot.trace.xz").decode("ascii")
        lines = trace.split("\n")
        self.assertTrue(lines[71_810].startswith("0 H_REMOVE ") and " 0x1d399 " in lines[71_810])
        said = self.why(trace, "71812")
        self.assertIn("it is empty", said[2])
        self.assertEqual(said[3], "    line 71,811, processor 0, H_REMOVE emptied entry 0x1d399")

    def test_lines_without_a_reply(self) -> None:
        trace = f"{HEAD}begin\n{ENTERED}"
        for lines, message in (("2", "line 2 has no reply"), ("6-9", "no line from 6 to 9 has a reply")):
            ran = self.run_installed("papr-why", "-", lines, given=trace)
            self.assert_refused(ran, f"papr-why: {message}")

    def test_a_set_has_no_lines_here(self) -> None:
        ran = self.run_installed("papr-why", "--set", EXAMPLES / "two-partitions.set", "3")
        self.assert_refused(ran, "papr-why: error: lines are those of a trace, not of a set")

    def test_a_refused_trace_is_explained_as_ever(self) -> None:
        ran = self.run_installed("papr-why", EXAMPLES / "refused.trace", "4")
        self.assert_ran(ran, out=None, status=1)
        self.assertTrue(ran.out.startswith("line 5 is refused: number\n"))


class Codes(ToolTest):
    """The names of codes in the other tools, which are those of FORMATS.md."""

    def reply(self, code: str) -> str:
        """A reply of this code."""
        return f"5 0 H_PROTECT {code}\n"

    @needs_library
    def test_decode_names_each_code(self) -> None:
        for name, value in codes().items():
            ran = run(TOOLS / "decode", "-", given=self.reply(value))
            self.assert_ran(ran, f"{self.reply(value)}    code {value}: {NAMES.get(name, name)}\n")

    def test_receipts_name_each_code(self) -> None:
        for name, value in codes().items():
            ran = run(TOOLS / "receipts", "--csv", "--replies", given=self.reply(value))
            self.assert_ran(ran, out=None)
            head, row = ran.out.splitlines()
            self.assertEqual(dict(zip(head.split(","), row.split(",")))["code"], NAMES.get(name, name))

    def test_an_access_has_no_code(self) -> None:
        ran = run(TOOLS / "receipts", "--csv", "--replies", given="5 0 load nosegment\n")
        self.assertEqual(ran.out.splitlines()[1].rpartition(",")[2], "")

    def test_a_picture_counts_the_codes_of_a_kind_by_their_names(self) -> None:
        given = self.reply("-7") + self.reply("0").replace("5", "6") + self.reply("-7").replace("5", "7")
        ran = run(TOOLS / "run-picture", given=given)
        self.assert_ran(ran, out=None)
        self.assertIn("<title>H_NOT_FOUND 2, H_SUCCESS 1</title>", ran.out)

    @needs("node")
    def test_the_page_names_a_code(self) -> None:
        """A call's, of a set behind a partition's number too; not that of an access."""
        module = self.folder / "codes.mjs"
        module.write_bytes((TOP / "page" / "js" / "codes.js").read_bytes())
        script = self.folder / "script.mjs"
        replies = (("5 0 H_PROTECT -7", False), ("1 5 0 H_READ 0 0x1", True), ("5 0 load at 0x3000 walk", False))
        calls = "".join(f"console.log(codes.named({json.dumps(text)}, {str(of).lower()}));\n" for text, of in replies)
        rows = json.dumps(list(codes().items()))
        text = f'import {{ Codes }} from "./codes.mjs";\nconst codes = new Codes({rows});\n{calls}'
        script.write_text(text, encoding="utf-8")
        named = "5 0 H_PROTECT -7 (H_NOT_FOUND)\n1 5 0 H_READ 0 0x1 (H_SUCCESS)\n5 0 load at 0x3000 walk\n"
        self.assert_ran(run("node", script), named)


@needs_library
class Ranges(ToolTest):
    """`decode --lines`: the replies to some lines, with what those before say of their entries."""

    def test_only_these_lines_are_explained(self) -> None:
        whole = run(TOOLS / "decode", "--order", "18", EXAMPLES / "sharing.replies").out
        part = run(TOOLS / "decode", "--order", "18", "--lines", "22-23", EXAMPLES / "sharing.replies")
        self.assert_ran(part, out=None)
        begin, end = whole.index("\n22 ") + 1, whole.index("\n25 ") + 1
        self.assert_text(part.out, whole[begin:end])

    @needs("xz")
    @needs_program
    def test_the_time_is_that_of_the_lines(self) -> None:
        """All of a boot takes the processor some twenty seconds; one of its lines two."""
        trace = self.folder / "boot.trace"
        trace.write_bytes(run_bytes("xz", "-dc", EXAMPLES / "linux-boot.trace.xz"))
        replies = self.folder / "boot.replies"
        replies.write_bytes(run_bytes("sh", "-c", f"'{PROGRAM}' run <'{trace}'"))
        begin = resource.getrusage(resource.RUSAGE_CHILDREN).ru_utime
        self.assert_ran(run(TOOLS / "decode", "--trace", trace, "--lines", "92535", replies), out=None)
        self.assertLess(resource.getrusage(resource.RUSAGE_CHILDREN).ru_utime - begin, 5)
