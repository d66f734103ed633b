"""Tests of the tool that turns KVM's tables into the opening of a trace."""

import re
from pathlib import Path

from .support import DATA, PROGRAM, TOOLS, ToolTest, needs_program, run

ENTRIES = TOOLS / "htab-to-entries"
DEBUGFS, STREAM, TRACE = DATA / "htab.debugfs", DATA / "htab.stream.hex", DATA / "htab.trace"
LEFT_OUT = "entries left out, which H_ENTER would refuse"
SAID = f"htab-to-entries: {LEFT_OUT}: 1\n"
PAST = "reaches past papr's largest table, order 22"
OF_STREAM = "# The page table of a guest under KVM, by KVM_PPC_GET_HTAB_FD\n"
A_HEADER = re.compile(r"^(..)(..)(..)(..) (..)(..) (..)(..)$", re.MULTILINE)


def bytes_of(text: str) -> bytes:
    """The bytes of a stream that is stored as hexadecimal digits, with remarks."""
    return bytes.fromhex("".join(line for line in text.splitlines() if not line.startswith("#")))


def stored(path: Path) -> str:
    """The text of a stored file."""
    return path.read_text(encoding="ascii")


class Debugfs(ToolTest):
    """Tables that a file of debugfs shows."""

    def test_a_table_becomes_the_stored_opening(self) -> None:
        self.assert_ran(run(ENTRIES, "--debugfs", DEBUGFS), stored(TRACE), err=SAID)

    def test_a_table_in_the_newer_layout_becomes_the_same_opening(self) -> None:
        self.assert_ran(run(ENTRIES, "--debugfs", DATA / "htab-power9.debugfs"), stored(TRACE), err=SAID)

    def test_options_give_the_grants_the_order_and_the_limit(self) -> None:
        given = self.folder / "given"
        words = ("--order", "19", "--limit", "20", "--ram", "0x0", "0x3000000000", "0x4000", "-o", given)
        self.assert_ran(run(ENTRIES, "--debugfs", *words, DEBUGFS), err=f"htab-to-entries: {LEFT_OUT}: 4\n")
        opening = (
            f"# The page table of a guest under KVM, by debugfs\n# {LEFT_OUT}: 4\norder 19\nlimit 20\n"
            "ram 0x0 0x3000000000 0x4000\nio 0x200080000000 0x2000000000 0x1000\n"
            "entry old 0x20 00000000000010010000000000003192\n"
            "entry old 0x28 000000000000100100002000800001aa\nbegin\n"
        )
        self.assert_text(stored(given), opening)

    def refuses(self, message: str, line: str, *words: str) -> None:
        """The tool refuses a table with this line."""
        ran = run(ENTRIES, "--debugfs", *words, given=f"{line}\n" if line else "")
        self.assert_refused(ran, f"htab-to-entries: {message}")

    def test_a_line_of_too_few_words(self) -> None:
        self.refuses("line 1 isn't an index and three doublewords", "20 1001 3012")

    def test_an_entry_that_is_not_valid(self) -> None:
        line = "   20 0000000000001000 0000000000003012 0000000000003012"
        self.refuses("line 1 has an entry that isn't valid", line)

    def test_an_entry_past_the_largest_table(self) -> None:
        line = " 40000 0000000000001001 0000000000003012 0000000000003012"
        self.refuses("line 1 has an entry past papr's largest table, order 22", line)

    def test_an_entry_in_both_layouts(self) -> None:
        line = "   20 4000000000001001 0400000000003012 0000000000003012"
        message = "line 1: doubleword 0 is in the older layout, and doubleword 1 has B in the newer one"
        self.refuses(message, line)

    def test_no_entry(self) -> None:
        self.refuses("no entry is shown; a guest with radix translation has no such table", "")

    def test_an_order_that_is_too_small(self) -> None:
        line = "  4000 0000000000001001 0000000000003012 0000000000003012"
        self.refuses("a table of order 18 has no entry 0x4000", line, "--order", "18")


class Streams(ToolTest):
    """Tables that a stream of KVM_PPC_GET_HTAB_FD shows."""

    def write(self, text: str) -> Path:
        """The stream of these digits, as a file."""
        path = self.folder / "stream"
        path.write_bytes(bytes_of(text))
        return path

    def assert_opening(self, text: str, *words: str) -> None:
        """The stream has the stored table; its entry that H_ENTER would refuse is left out."""
        opening = OF_STREAM + stored(TRACE).partition("\n")[2]
        self.assert_ran(run(ENTRIES, "--stream", *words, self.write(text)), opening, err=SAID)

    def test_a_stream_of_a_little_endian_host(self) -> None:
        self.assert_opening(stored(STREAM))

    def test_a_stream_of_a_big_endian_host(self) -> None:
        turned, headers = A_HEADER.subn(r"\4\3\2\1 \6\5 \8\7", stored(STREAM))
        self.assertEqual(headers, 7)
        self.assert_opening(turned, "--big-endian")

    def test_a_stream_of_a_whole_table_tells_its_order(self) -> None:
        """It has 2^15 entries, all invalid but one."""
        path = self.write("00000000 0100 ff7f 0000000000001041 0000000000003012")
        opening = (
            "order 19\nram 0x0 0x2000000000 0x4000\nentry old 0x0 00000000000010010000000000003012\nbegin\n"
        )
        self.assert_ran(run(ENTRIES, "--stream", path), OF_STREAM + opening)

    def test_a_stream_that_ends_within_an_entry(self) -> None:
        path = self.write("00000000 0100 ff7f 0000000000001041")
        message = "htab-to-entries: the stream ends within the 1 entries at byte 8"
        self.assert_refused(run(ENTRIES, "--stream", path), message)

    def test_headers_of_the_other_order(self) -> None:
        path = self.write(stored(STREAM))
        message = f"htab-to-entries: the chunk at byte 8 {PAST}; was the host little-endian?"
        self.assert_refused(run(ENTRIES, "--stream", "--big-endian", path), message)

    def test_a_text_is_no_stream(self) -> None:
        message = f"htab-to-entries: the chunk at byte 0 {PAST}; was the host big-endian?"
        self.assert_refused(run(ENTRIES, "--stream", DEBUGFS), message)


class Words(ToolTest):
    """The tool's words."""

    def test_the_tool_has_help(self) -> None:
        self.assert_help(ENTRIES)

    def test_debugfs_has_no_headers(self) -> None:
        message = "htab-to-entries: --big-endian is for a --stream: debugfs has no headers"
        self.assert_refused(run(ENTRIES, "--debugfs", "--big-endian", DEBUGFS), message)

    def test_a_form_has_to_be_named(self) -> None:
        message = "htab-to-entries: error: one of the arguments --stream --debugfs is required"
        self.assert_refused(run(ENTRIES), message)


@needs_program
class WithTheProgram(ToolTest):
    """What papr does with an opening."""

    def test_the_opening_is_the_image_of_its_trace(self) -> None:
        lines = stored(TRACE).splitlines()
        entries = [line.removeprefix("entry old ") for line in lines if line.startswith("entry old ")]
        image = "".join(f"{line}\n" for line in ("image old order 18 entries 5", *entries))
        self.assert_ran(run(PROGRAM, "image", "old", given=TRACE), image)

    def test_walks_find_the_entries(self) -> None:
        trace = stored(TRACE) + "0 slbmte 0x8000000 0x1000\n0 load 0x5678 priv\n"
        replies = "12 0 slbmte ok\n13 0 load at 0x2000003678 walk | 0x20.0.3.at\n"
        self.assert_ran(run(PROGRAM, "run", given=trace), replies)
