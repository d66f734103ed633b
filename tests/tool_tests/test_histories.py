"""Tests of the pictures of an entry's history."""

from .pictures import SHOWN, STRANGE, PictureTest, replies_of, written
from .support import DATA, DOCS, EXAMPLES, TOOLS, run

DRAW = TOOLS / "entry-history"
SHARING, RESIZE = EXAMPLES / "sharing.replies", EXAMPLES / "resize.replies"


def long_history() -> str:
    """Replies with 300 receipts of one entry, by two processors in turn."""
    replies = []
    for line in range(1, 300, 2):
        stamp = 0 if line == 1 else line
        replies.append(f"{line} 0 H_ENTER 0 0x20 | 0x20.{stamp}.0.entered\n")
        replies.append(f"{line + 1} 1 H_REMOVE 0 0x1001 0x3012 | 0x20.{line + 1}.0.removed\n")
    return "".join(replies)


class Pictures(PictureTest):
    """What a picture shows."""

    def draw(self, *words: str, given: str) -> str:
        """The picture that the tool draws of replies."""
        ran = run(DRAW, *words, given=given)
        self.assert_ran(ran, out=None)
        return ran.out

    def test_a_picture_has_each_receipt_of_the_entry(self) -> None:
        svg = self.draw("0x20", given=replies_of(SHARING))
        self.assert_receipts(svg, [it for it in written(replies_of(SHARING)) if it.entry == 0x20])
        self.assertEqual(len(set(self.elements(svg, "title"))), 16 + len(self.legend(svg)))
        self.assert_within_edges(svg)

    def test_characters_that_xml_cannot_write_are_shown(self) -> None:
        """In the words above a column, and in its tooltip."""
        svg = self.draw("0x20", given=f"5 0 a{STRANGE}b 0 | 0x20.0.0.entered\n")
        self.assertIn(f"a{SHOWN}b entered", self.texts(svg))
        titles = [element.text for element in self.elements(svg, "title")]
        self.assertIn(f"line 5, processor 0: a{SHOWN}b entered; before: stamp 0, R 0, C 0", titles)

    def legend(self, svg: str) -> list[str]:
        """The words of the legend: those of the marks."""
        marks = ("entered", "removed", "protected", "R or C cleared", "access that set R or C")
        others = ("changed nothing", "refused, or not found")
        return [text for text in self.texts(svg) if text in marks + others]

    def test_a_picture_of_changes_has_just_the_receipts_that_changed_the_entry(self) -> None:
        words = ("32", "--changes", "--lines", "10..26", str(SHARING))
        ran = run(DRAW, *words)
        self.assert_ran(ran, out=None)
        changes = (10, 14, 17, 18, 21, 23, 26)
        self.assert_receipts(ran.out, [it for it in written(replies_of(SHARING)) if it.line in changes])
        self.assertIn("Entry 0x20: 7 receipts, lines 10 to 26", self.texts(ran.out))

    def test_behind_a_commit_the_history_begins_anew(self) -> None:
        """Two tables of a guest."""
        svg = self.draw("0x20", given=replies_of(RESIZE))
        self.assert_receipts(svg, [it for it in written(replies_of(RESIZE)) if it.line in (8, 21)])
        self.assertEqual(self.texts(svg).count("new table"), 1)
        self.assert_within_edges(svg)

    def test_the_stored_picture_is_the_one_drawn(self) -> None:
        self.assert_text(self.draw("0x20", given=replies_of(SHARING)), replies_of(DOCS / "history.svg"))

    def test_a_long_history_goes_on_in_bands_with_a_legend_below(self) -> None:
        svg = self.draw("0x20", given=long_history())
        self.assertEqual(len(written(long_history())), 300)
        self.assert_receipts(svg, written(long_history()))
        self.assert_within_edges(svg)

    def test_calls_by_number_are_in_the_history(self) -> None:
        numbers = replies_of(DATA / "numbers.replies")
        svg = self.draw("5", given=numbers)
        self.assert_receipts(svg, [it for it in written(numbers) if it.entry == 5])
        self.assertIn("Entry 0x5: 8 receipts, lines 5 to 12", self.texts(svg))

    def test_no_receipt_of_a_window_is_in_a_history(self) -> None:
        """The history is that of the page table's entry with the same number."""
        windows = replies_of(DATA / "windows.replies")
        svg = self.draw("0x5", given=windows)
        self.assert_receipts(svg, [it for it in written(windows) if it.call in ("H_ENTER", "H_READ")])
        self.assertEqual([text for text in self.texts(svg) if "TCE" in text or "dma" in text], [])
        refused = run(DRAW, "6", DATA / "windows.replies")
        self.assert_refused(refused, "entry-history: no receipt of entry 0x6")

    def test_the_legend_says_what_a_question_mark_is(self) -> None:
        """Where one is drawn."""
        words = "the replies don't tell"
        self.assertIn(words, self.texts(self.draw("0x20", given=replies_of(SHARING))))
        known = self.draw("0x20", given="1 0 H_REMOVE 0 0x1 0x0 | 0x20.0.0.removed\n")
        self.assertNotIn(words, self.texts(known))


class Words(PictureTest):
    """The tool's words, and inputs that it can't use."""

    def test_a_choice_that_leaves_nothing_is_told_what_there_is(self) -> None:
        ran = run(DRAW, "0x20", "--lines", "80000..80400", SHARING)
        told = "none of these receipts of entry 0x20 is asked for: 16 receipts, of lines 9 to 28"
        self.assert_refused(ran, f"entry-history: {told}")

    def test_a_history_that_is_too_long_is_told_its_lines(self) -> None:
        replies = "".join(f"{n} 0 H_ENTER 0 0x20 | 0x20.{n}.0.entered\n" for n in range(7, 1_108))
        told = "entry 0x20 has 1,101 receipts, of lines 7 to 1,107, and a picture has room for 1,000"
        ran = run(DRAW, "0x20", given=replies)
        self.assert_refused(ran, f"entry-history: {told}; choose by --lines A..B or --changes")
        self.assert_ran(run(DRAW, "0x20", "--lines", "..1000", given=replies), out=None)

    def test_the_tool_has_help(self) -> None:
        self.assert_help(DRAW)

    def test_an_entry_that_is_no_number(self) -> None:
        self.assert_refused(run(DRAW, "x"), "entry-history: error: argument ENTRY: `x` is no number")

    def test_an_entry_without_a_receipt(self) -> None:
        self.assert_refused(run(DRAW, "5"), "entry-history: no receipt of entry 0x5")

    def test_a_refusal_is_no_history(self) -> None:
        ran = run(DRAW, "5", EXAMPLES / "refused.replies")
        self.assert_refused(ran, "entry-history: these are no replies: papr: line 5: number")
