"""Tests of the picture of a whole run."""

from .pictures import SHOWN, STRANGE, PictureTest, replies_of, written
from .support import DATA, DOCS, EXAMPLES, PROGRAM, TOOLS, for_each, needs, needs_program, run, run_bytes

DRAW = TOOLS / "run-picture"
KINDS = ["H_PUT_TCE", "H_GET_TCE", "dmaread", "dmawrite", "H_ENTER", "H_READ", "hcall"]


class Pictures(PictureTest):
    """What a picture shows."""

    @for_each("resize", "sharing", "bulk-remove", "cache")
    def test_a_picture_of_a_run_keeps_within_its_edges(self, name: str) -> None:
        replies = replies_of(EXAMPLES / f"{name}.replies")
        ran = run(DRAW, given=replies)
        self.assert_ran(ran, out=None)
        self.assert_within_edges(ran.out)
        lines = [reply for reply in replies.splitlines() if not reply.startswith(" ")]
        title = f"A run of papr: {len(lines)} lines, {len(written(replies))} receipts"
        self.assertEqual(self.texts(ran.out)[0], title)

    def test_lines_of_devices_are_kinds_and_receipts_of_windows_lie_in_no_group(self) -> None:
        """They are counted apart."""
        ran = run(DRAW, given=DATA / "windows.replies")
        self.assert_ran(ran, out=None)
        self.assert_within_edges(ran.out)
        texts = self.texts(ran.out)
        self.assertEqual(texts[0], "A run of papr: 14 lines, 3 receipts, and 12 of DMA windows")
        self.assertCountEqual([text for text in texts if text in KINDS], KINDS)
        self.assertEqual([text for text in texts if text.endswith((" receipt", " receipts"))], ["3 receipts"])

    def test_characters_that_xml_cannot_write_are_shown(self) -> None:
        ran = run(DRAW, given=f"5 0 a{STRANGE}b 0\n")
        self.assert_ran(ran, out=None)
        self.assertIn(f"a{SHOWN}b", self.texts(ran.out))

    def test_lines_and_an_entry_are_chosen(self) -> None:
        ran = run(DRAW, "--lines", "10..26", "--entry", "0x20", EXAMPLES / "sharing.replies")
        self.assert_ran(ran, out=None)
        receipts = written(replies_of(EXAMPLES / "sharing.replies"))
        chosen = [it for it in receipts if it.entry == 0x20 and 10 <= it.line <= 26]
        lines = len({it.line for it in chosen})
        self.assertEqual(self.texts(ran.out)[0], f"A run of papr: {lines} lines, {len(chosen)} receipts")

    @needs("xz")
    @needs_program
    def test_the_stored_picture_of_a_run_is_the_one_drawn(self) -> None:
        boot = run_bytes("xz", "-dc", EXAMPLES / "linux-boot.trace.xz")
        replies = run(PROGRAM, "run", given=boot)
        self.assert_ran(replies, out=None)
        self.assert_ran(run(DRAW, given=replies.out), replies_of(DOCS / "run.svg"))


class Words(PictureTest):
    """The tool's words, and inputs that it can't use."""

    def test_the_tool_has_help(self) -> None:
        self.assert_help(DRAW)

    def test_no_reply_is_no_run(self) -> None:
        self.assert_refused(run(DRAW), "run-picture: there is no reply")
