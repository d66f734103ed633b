"""Tests of the tool that cuts long traces into parts, and carries their state over the cuts."""

import re
from pathlib import Path
from typing import ClassVar

from .support import DATA, EXAMPLES, PROGRAM, TOOLS, ToolTest, for_each, needs, needs_program
from .support import run, run_bytes, write_script

CUT = TOOLS / "cut-trace"
FIRST, RESIZE, WINDOWS = EXAMPLES / "first.trace", EXAMPLES / "resize.trace", DATA / "windows.trace"
SMALL = ("accesses", "segments", "cache", "sharing", "entries")
BOOT_FIRST, A_PART = 5, 30_000  # the first run line of the boot, and the lines of a part in these tests

# In place of papr: each line succeeds, but those that the stored trace means to be refused.
SUCCEEDS = """#!/bin/sh
[ "$1" = run ] || { echo 'image old order 18 entries 0'; exit; }
awk '/^[0-9]/ { print NR, $1, $2, ($2 == "slbmte" ? "ok" : /0x100001|0x10000 / ? -4 : 0) }'
"""


def lines_of(path: Path) -> list[str]:
    """The lines of a trace."""
    return path.read_text(encoding="ascii").splitlines()


def answers(replies: str) -> str:
    """What a cut keeps of replies: no stamps and receipts, no ways, no number and place of a table."""
    kept = []
    for line in replies.splitlines():
        line = re.sub(r" (hit|walk)$", "", line.partition(" |")[0])
        line = re.sub(r" dump table .* order (.*) place [^ ]* ", r" dump \1 ", line)
        kept.append(re.sub(r"^( .*) [^ ]*$", r"\1", line) + "\n")
    return "".join(kept)


class CutTest(ToolTest):
    """A test of cuts of a trace that papr takes whole."""

    def whole(self, trace: Path) -> str:
        """The answers of the whole trace."""
        ran = run(PROGRAM, "run", given=trace)
        self.assert_ran(ran, out=None)
        return answers(ran.out)

    def cut(self, trace: Path, *words: str) -> str:
        """The joined replies of the trace's parts."""
        ran = run(CUT, "--papr", PROGRAM, *words, trace)
        self.assert_ran(ran, out=None)
        return ran.out

    def assert_cut(self, whole: str, trace: Path, *lines: int) -> None:
        """Cut before these lines, the joined replies have the answers of the whole."""
        words = [word for line in lines for word in ("--before", str(line))]
        self.assert_text(answers(self.cut(trace, *words)), whole)


class Words(ToolTest):
    """The tool's words, and cuts that can't be made."""

    def refuses(self, message: str, *words: str) -> None:
        """The tool refuses the words."""
        self.assert_refused(run(CUT, *words), f"cut-trace: {message}")

    def test_the_tool_has_help(self) -> None:
        self.assert_help(CUT)

    def test_a_part_of_no_line(self) -> None:
        self.refuses("error: argument --lines: 0 is not 1 to 131072", "--lines", "0")

    def test_parts_into_no_folder(self) -> None:
        folder = f"{self.folder}/none"
        self.refuses(f"{folder} is no folder", "--parts", folder, str(FIRST))

    def test_a_trace_that_is_not_there(self) -> None:
        trace = f"{self.folder}/none"
        self.refuses(f"{trace}: No such file or directory", trace)

    def test_a_papr_that_is_not_there(self) -> None:
        papr = f"{self.folder}/none"
        self.refuses(f"there is no papr: {papr}", "--papr", papr, str(FIRST))

    def test_a_cut_before_the_run_lines(self) -> None:
        message = "nothing to cut off before line 4: run lines begin at 4"
        self.refuses(message, "--before", "4", str(FIRST))


class Carried(ToolTest):
    """What a cut carries over, by a script in papr's place."""

    def setUp(self) -> None:
        """Writes the script."""
        super().setUp()
        self.papr = write_script(self.folder / "succeeds", SUCCEEDS)

    def test_a_part_puts_again_the_tces_that_are_set_then(self) -> None:
        """Each as it was put last."""
        cuts = ("--before", "17", "--before", "20")
        ran = run(CUT, "--papr", self.papr, *cuts, "--parts", self.folder, WINDOWS)
        ranges = ("lines 8 to 16", "lines 17 to 19", "lines 20 to 24")
        named = [f"{self.folder}/part-{number}.trace" for number in (1, 2, 3)]
        told = [f"{name}: {lines}\n" for name, lines in zip(named, ranges)]
        self.assert_ran(ran, "".join(told))
        parts = [self.folder / f"part-{number}.trace" for number in (2, 3)]
        self.assert_same_file(parts[0], DATA / "windows.part-2.trace")
        head = [*lines_of(DATA / "windows.part-2.trace")[7:10], "0 H_RESIZE_HPT_PREPARE 0x0 18"]
        self.assertEqual(lines_of(parts[1])[7:11], head)

    def test_the_replies_to_lines_that_a_part_repeats_are_left_out(self) -> None:
        ran = run(CUT, "--papr", self.papr, "--before", "17", "--before", "20", WINDOWS)
        self.assert_ran(ran, out=None)
        self.assertEqual([int(line.split()[0]) for line in ran.out.splitlines()], list(range(8, 25)))


@needs_program
class Answers(CutTest):
    """Wherever a trace is cut, each line has the answer that it has in the whole."""

    @for_each(*SMALL)
    def test_a_small_trace_at_several_lines(self, name: str) -> None:
        """Traces with segments, caches, several processors and opening entries."""
        trace = EXAMPLES / f"{name}.trace"
        whole, count = self.whole(trace), len(lines_of(trace))
        lines = [line for line in (15, 17, 18, 20, 22) if line <= count]
        self.assertTrue(lines)
        for line in lines:
            with self.subTest(line=line):
                self.assert_cut(whole, trace, line)

    def test_several_cuts_of_a_trace_from_standard_input(self) -> None:
        trace = EXAMPLES / "segments.trace"
        cuts = ("--before", "8", "--before", "14", "--before", "17")
        ran = run(CUT, "--papr", PROGRAM, *cuts, "-", given=trace)
        self.assert_ran(ran, out=None)
        self.assert_text(answers(ran.out), self.whole(trace))

    @for_each(14, 15, 16, 17, 23, 24)
    def test_a_resize_in_progress_before_line(self, line: int) -> None:
        self.assert_cut(self.whole(RESIZE), RESIZE, line)

    def test_several_cuts_amid_resizes(self) -> None:
        self.assert_cut(self.whole(RESIZE), RESIZE, 14, 15, 16, 23)

    def test_a_pending_table_is_prepared_again_by_as_many_calls_as_it_had(self) -> None:
        self.cut(RESIZE, "--before", "14", "--before", "16", "--parts", str(self.folder))
        part = (self.folder / "part-3.trace").read_text(encoding="ascii")
        self.assertEqual(part.count("PREPARE"), 3)

    @for_each(*range(9, 25))
    def test_windows_before_line(self, line: int) -> None:
        self.assert_cut(self.whole(WINDOWS), WINDOWS, line)

    def test_several_cuts_amid_windows(self) -> None:
        whole = self.whole(WINDOWS)
        self.assert_cut(whole, WINDOWS, 10, 14, 17, 20, 22)
        self.assertIn("24 0 dmaread denied", whole.splitlines())

    def test_behind_a_cut_a_put_tce_begins_at_stamp_1_and_an_empty_entry_at_0(self) -> None:
        replies = self.cut(WINDOWS, "--before", "15").splitlines()
        self.assertIn("17 1 dmawrite at 0x2000005008 | 0x5.1.0.read", replies)


@needs_program
class Long(CutTest):
    """Traces that are longer than one that papr takes."""

    def longer(self, line: str, count: int) -> list[str]:
        """The replies to a small trace and to a line so many times: each has its number in the whole."""
        trace = self.folder / "long.trace"
        trace.write_text(FIRST.read_text(encoding="ascii") + f"{line}\n" * count, encoding="ascii")
        replies = [reply for reply in self.cut(trace).splitlines() if not reply.startswith(" ")]
        self.assertEqual([int(reply.split()[0]) for reply in replies], list(range(4, 6 + count)))
        return replies[2:]

    def test_more_lines_than_a_trace_has(self) -> None:
        count = 140_000
        replies = self.longer("0 H_READ 0x0 0x27", count)
        told = {reply.partition(" |")[0].partition(" ")[2] for reply in replies}
        self.assertEqual(told, {"0 H_READ 0 0x1001 0x3012"})

    def test_more_quiet_lines_than_a_trace_has(self) -> None:
        """A part takes 256 of them."""
        replies = self.longer("0 hcall 0x36c", 600)
        self.assertEqual({reply.split()[2] for reply in replies}, {"hcall"})

    def test_more_dumps_than_a_trace_has(self) -> None:
        """A part takes 16 of them."""
        replies = self.longer("dump", 40)
        self.assertEqual({answers(reply).split(" ", 1)[1] for reply in replies}, {"dump 18 entries 1\n"})


@needs_program
@needs("xz")
class Boot(CutTest):
    """The calls of a Linux boot."""

    trace: ClassVar[bytes]
    answers: ClassVar[str]

    @classmethod
    def setUpClass(cls) -> None:
        """Expands the trace and runs it whole, once for the class."""
        super().setUpClass()
        cls.trace = run_bytes("xz", "-dc", EXAMPLES / "linux-boot.trace.xz")
        cls.answers = answers(run(PROGRAM, "run", given=cls.trace).out)

    def setUp(self) -> None:
        """Writes the trace."""
        super().setUp()
        self.path = self.folder / "boot.trace"
        self.path.write_bytes(self.trace)

    def test_the_boot_in_parts_has_the_answers_of_the_whole(self) -> None:
        self.assert_text(answers(self.cut(self.path, "--lines", str(A_PART))), self.answers)

    def test_parts_in_a_folder_have_each_line_once_and_are_taken_by_papr(self) -> None:
        folder = self.folder / "parts"
        folder.mkdir()
        told = self.cut(self.path, "--lines", str(A_PART), "--parts", str(folder)).splitlines()
        first, replies = BOOT_FIRST, 0
        self.assertGreaterEqual(len(told), 4)
        self.assertEqual(told[0], f"{folder}/part-1.trace: lines {BOOT_FIRST} to {A_PART}")
        for number, line in enumerate(told, start=1):
            part = folder / f"part-{number}.trace"
            found = re.fullmatch(rf"{re.escape(str(part))}: lines {first} to ([0-9]+)", line)
            self.assertIsNotNone(found, line)
            first = int(found[1]) + 1 if found else 0
            self.assertLessEqual(len(lines_of(part)), A_PART)
            ran = run(PROGRAM, "run", given=part)
            self.assert_ran(ran, out=None)
            replies += ran.out.count("\n")
        self.assertEqual(first, self.trace.count(b"\n") + 1)
        self.assertEqual(replies, self.answers.count("\n"))


@needs_program
class Refusals(ToolTest):
    """Traces that papr refuses, by the numbers of lines in the whole. The parts before are written."""

    A_READ = "3 0 H_READ 0 0x0 0x0 | 0x1.0.0.read\n"

    def refuses(self, message: str, *words: str, out: str = "") -> None:
        """The tool refuses the trace."""
        self.assert_refused(run(CUT, "--papr", PROGRAM, *words), f"cut-trace: {message}", out=out)

    def refuses_at(self, message: str, *behind: str) -> None:
        """The tool refuses a trace with these lines behind a cut."""
        trace = self.folder / "bad.trace"
        lines = ("order 18", "begin", "0 H_READ 0x0 0x1", *behind)
        trace.write_text("".join(f"{line}\n" for line in lines), encoding="ascii")
        self.refuses(message, "--before", "4", str(trace), out=self.A_READ)

    def test_a_line_at_the_cut(self) -> None:
        self.refuses_at("papr refuses line 4: count", "0 H_READ 0x0")

    def test_a_line_behind_the_cut(self) -> None:
        self.refuses_at("papr refuses line 6: cpu", "0 slbclear", "dump", "1 slbclear")

    def test_a_line_of_the_first_part(self) -> None:
        self.refuses("papr refuses line 5: number", str(EXAMPLES / "refused.trace"))

    def test_a_table_that_leaves_no_room(self) -> None:
        message = "no room for line 5: its part begins with 5 lines"
        reply = "4 0 H_ENTER 0 0x27 | 0x27.0.0.entered\n"
        self.refuses(message, "--lines", "4", str(FIRST), out=reply)

    def test_a_cut_past_the_end(self) -> None:
        whole = "4 0 H_ENTER 0 0x27 | 0x27.0.0.entered\n5 0 H_ENTER -6 | 0x27.1.0.taken\n"
        message = "there is no line 9 to cut before: the trace has 5"
        self.refuses(message, "--before", "9", str(FIRST), out=whole)
