"""Tests of the tool that explains entries: by a stand-in for the library, and by that where it is built."""

import tempfile
from pathlib import Path
from typing import ClassVar

from .decoder import make_decoder
from .support import EXAMPLES, TOOLS, TOP, Ran, Text, ToolTest, Word, needs, run

DECODE = TOOLS / "decode"
BUILT = TOP / "out" / "lib" / "libpapr.so.0"
SHARING = EXAMPLES / "sharing.replies"

# By hand: the tag 0x20 is VSID 1 and the first 8 MB of the segment; entry 0x27 is in group 4, which is the hash
# of VSID 1 and page 5.
ENTERED = """\
doublewords  0x1001 0x3012
entry        0x27: group 0x4, slot 7
group        primary
segment      VSID 0x1, of 256 MB (B 0)
page         0x5, at 0x5000 of the segment
size         4 KB
real page    0x3000
protection   2: read and write with a Ks or Kp of 0, read and write with 1
execute      yes
key          0
WIMG         M
R, C         0, 0
bolted       no
"""
# B is 1, so the tag's top 38 bits are the VSID; L is set, with the code of 64 KB; PP is 0, N is set.
OF_LINUX = """\
doublewords  0x4009287a77000005 0x771194
group        primary
segment      VSID 0x9287a77, of 1 TB (B 1)
page         0x0 to 0x7f; the index and the order tell which
size         64 KB
real page    0x770000
protection   0: read and write with a Ks or Kp of 0, nothing with 1
execute      no
key          0
WIMG         M
R, C         1, 1
bolted       no
"""


class DecodeTest(ToolTest):
    """A test by the stand-in."""

    library: ClassVar[Path]

    @classmethod
    def setUpClass(cls) -> None:
        """Compiles the stand-in, once for the class."""
        super().setUpClass()
        work = tempfile.TemporaryDirectory(prefix="papr-decoder-")
        cls.addClassCleanup(work.cleanup)
        cls.library = make_decoder(Path(work.name))

    def decode(self, *words: Word, given: Text = "") -> Ran:
        """Runs the tool."""
        return run(DECODE, *words, given=given, environment={"PAPR_SHARED_LIBRARY": str(self.library)})


@needs("cc")
class Words(DecodeTest):
    """Doublewords, entries and receipts as arguments."""

    def test_doublewords_at_an_index(self) -> None:
        self.assert_ran(self.decode("0x1001", "0x3012", "--index", "0x27", "--order", "18"), ENTERED)
        self.assert_ran(self.decode("--index", "0x27", "4097", "12306"), ENTERED)

    def test_doublewords_without_an_index(self) -> None:
        """The page is known but for the bits that the group has."""
        self.assert_ran(self.decode("0x4009287a77000005", "0x771194"), OF_LINUX)

    def test_an_entry_as_a_trace_has_it(self) -> None:
        digits = "00000000000010010000000000003012"
        for words in (["entry", "old", "0x27", digits], [f"entry old 39 {digits}"], ["old", "0x27", digits]):
            self.assert_ran(self.decode(*words), ENTERED)

    def test_an_entry_in_the_newer_layout(self) -> None:
        """B stands in the second doubleword there."""
        ran = self.decode("entry", "new", "0x27", "00000000000010010400000000003012", "--order", "18")
        self.assert_ran(ran, out=None)
        self.assertIn("doublewords  0x4000000000001001 0x3012\n", ran.out)

    def test_words_that_translate_nothing(self) -> None:
        no_segment = "none: B is above 1, or no page of that size lies where the tag says"
        told = {
            "0x1000 0x3012": "none: V is clear: the entry is empty",
            "0x8000000000001001 0x3012": no_segment,
            "0x1001 0x3012 --index 0x4000": "none: the table has no such index",
            "0x1005 0x11012 --index 0x400": "none: no page whose group this is has this entry",
        }
        for words, reason in told.items():
            ran = self.decode(*words.split())
            self.assert_ran(ran, out=None)
            self.assertEqual(ran.out.splitlines()[-1], f"page         {reason}")

    def test_a_receipt(self) -> None:
        """It needs no library."""
        ran = run(DECODE, "0x27.3.1.removed", environment={"PAPR_SHARED_LIBRARY": "/none"})
        self.assert_ran(ran, "entry 0x27, group 0x4, slot 7: it was removed; before: stamp 3, R 0, C 1\n")

    def test_what_is_nothing_of_these(self) -> None:
        self.assert_refused(self.decode("0x1", "x"), "decode: `x` is no number")
        message = "decode: `1 2 3` is neither two doublewords nor an entry, a receipt or a file"
        self.assert_refused(self.decode("1", "2", "3"), message)
        self.assert_refused(self.decode("none"), "decode: none: No such file or directory")

    def test_no_library(self) -> None:
        ran = run(DECODE, "1", "2", environment={"PAPR_SHARED_LIBRARY": "/none"})
        self.assert_ran(ran, status=127, err=None)
        self.assertIn("decode: libpapr.so.0 can't be loaded: /none: ", ran.err)
        self.assertTrue(ran.err.endswith("; make library makes it\n"), ran.err)

    def test_a_library_without_the_function(self) -> None:
        library = self.folder / "libpapr.so.0"
        self.assert_ran(run("cc", "-shared", "-o", library, "-x", "c", "-", given="int nothing;\n"))
        ran = run(DECODE, "1", "2", environment={"PAPR_SHARED_LIBRARY": str(library)})
        self.assert_ran(ran, status=127, err=None)
        self.assertIn("this library is of another version", ran.err)

    def test_the_tool_has_help(self) -> None:
        self.assert_help(DECODE)


@needs("cc")
class Texts(DecodeTest):
    """Files: replies, traces, images."""

    def test_each_reply_is_followed_by_its_receipts(self) -> None:
        ran = self.decode(SHARING)
        self.assert_ran(ran, out=None)
        lines = ran.out.splitlines()
        replies = SHARING.read_text().splitlines()
        self.assertEqual([line for line in lines if not line.startswith("    ")], replies)
        receipts = sum(line.count(".") // 3 for line in replies)
        self.assertEqual(sum(line.startswith("    entry ") for line in lines), receipts)

    def test_what_a_read_shows_is_explained(self) -> None:
        """Also where a receipt comes before it, as long as the entry's stamp is the same."""
        ran = self.decode("--order", "18", SHARING)
        lines = ran.out.splitlines()
        page = "      VSID 0x1 page 0x5, 4 KB at 0x3000, rw/rw, M, key 0, bolted"
        for number in (22, 23, 25):
            at = next(at for at, line in enumerate(lines) if line.startswith(f"{number} "))
            self.assertIn(page, lines[at + 2 : at + 4])

    def test_a_trace_tells_what_was_entered_and_the_order(self) -> None:
        ran = self.decode("--trace", EXAMPLES / "sharing.trace", SHARING)
        self.assert_ran(ran, out=None)
        lines = ran.out.splitlines()
        at = next(at for at, line in enumerate(lines) if line.startswith("9 0 H_ENTER"))
        self.assertEqual(lines[at + 3], "      VSID 0x1 page 0x5, 4 KB at 0x3000, rw/-, M, key 0, bolted")

    def test_a_dump_has_its_entries_explained(self) -> None:
        dump = "5 dump table 0 order 18 place 0x1000000000 entries 1\n 0x27 0x1001 0x3192 7\n"
        page = "      VSID 0x1 page 0x5, 4 KB at 0x3000, rw/rw, M, key 0\n"
        self.assert_ran(self.decode("-", given=dump), f"{dump}{page}")

    def test_entries_of_a_trace_and_of_an_image(self) -> None:
        line = "0x27 00000000000010010000000000003012\n"
        page = "    VSID 0x1 page 0x5, 4 KB at 0x3000, rw/rw, M, key 0\n"
        trace = f"order 18\nram 0x0 0x0 0x40000000\nentry old {line}begin\n"
        self.assert_ran(self.decode("-", given=trace), f"entry old {line}{page}")
        self.assert_ran(self.decode("-", given=f"image old order 18 entries 1\n{line}"), f"{line}{page}")

    def test_a_trace_that_is_not_that_of_the_replies(self) -> None:
        ran = self.decode("--trace", EXAMPLES / "first.trace", SHARING)
        self.assert_refused(ran, "decode: the trace has no line 7: these aren't its replies")


@needs("cc")
class Filters(DecodeTest):
    """The other tools, by what entries map."""

    def run_tool(self, tool: str, *words: Word) -> Ran:
        """Runs one of them, with the trace of the replies."""
        variables = {"PAPR_SHARED_LIBRARY": str(self.library)}
        files = ("--trace", EXAMPLES / "sharing.trace", SHARING)
        return run(TOOLS / tool, *words, *files, environment=variables)

    def test_receipts_with_what_their_entries_map(self) -> None:
        ran = self.run_tool("receipts", "--csv", "--decode")
        self.assert_ran(ran, out=None)
        head, first = ran.out.splitlines()[:2]
        columns = "vsid,page,real_page,base_shift,actual_shift,storage_key,protection,wimg,secondary,bolted"
        self.assertTrue(head.endswith(f",store,{columns}"))
        self.assertEqual(first, "0,9,0,H_ENTER,32,4,0,0,0,entered,1,table,1,5,12288,12,12,0,0,2,0,1")

    def test_receipts_of_a_page(self) -> None:
        ran = self.run_tool("receipts", "--csv", "--page", "0x1:5")
        self.assert_ran(ran, out=None)
        entries = {line.split(",")[4] for line in ran.out.splitlines()[1:]}
        self.assertEqual(entries, {"32"})
        ran = self.run_tool("receipts", "--csv", "--page", "0x1:6")
        self.assert_refused(ran, "receipts: no receipt of page 0x1:0x6")

    def test_a_history_says_what_the_entry_maps(self) -> None:
        ran = self.run_tool("entry-history", "0x20", "--decode")
        self.assert_ran(ran, out=None)
        page = "VSID 0x1 page 0x5, 4 KB at 0x3000, rw/-, M, key 0, bolted"
        receipt = "line 9, processor 0: H_ENTER entered; before: stamp 0, R 0, C 0"
        self.assertIn(f"<title>{receipt}; {page}</title>", ran.out)

    def test_a_picture_says_what_the_busiest_groups_map(self) -> None:
        ran = self.run_tool("run-picture", "--decode")
        self.assert_ran(ran, out=None)
        self.assertIn("<title>0x20: VSID 0x1 page 0x5, ", ran.out)


class Library(ToolTest):
    """The library itself says the same, where it is built."""

    def setUp(self) -> None:
        """Skips where there is none."""
        super().setUp()
        if not BUILT.exists():
            self.skipTest(f"the library is not built: {BUILT} is missing (make library)")

    def test_doublewords(self) -> None:
        self.assert_ran(run(DECODE, "0x1001", "0x3012", "--index", "0x27"), ENTERED)
        self.assert_ran(run(DECODE, "0x4009287a77000005", "0x771194"), OF_LINUX)
