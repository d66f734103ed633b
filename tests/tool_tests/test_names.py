"""Tests of the checks of names and numbers in the documents: a wrong one in each page is refused."""

import sys
from functools import cache

from .support import TOOLS, TOP, ToolTest, for_each

sys.path[:0] = [str(TOOLS), str(TOP / "tests")]

from checks.cited import Clauses, clauses_of  # noqa: E402
from checks.declared import Declared, names_in, read_declared  # noqa: E402
from checks.names import faults, texts_of_pages, unneeded  # noqa: E402
from checks.numbers import LIMITS, faults_of, number_of, texts_of  # noqa: E402
from checks.rattle import read_functions  # noqa: E402
from checks.running import Skipped  # noqa: E402

# A page, what it has, the same with a wrong name, and what the check says of that.
WRONG_NAMES = (
    (
        "PROVED",
        "`papr_uses::keep_promise` with `Stores`",
        "`papr_uses::stores_show`",
        "there is no `papr_uses::stores_show`",
    ),
    ("PROVED", "top::papr` `ends`", "top::papr` `begins`", "papr_top::papr has no clause `begins`"),
    ("PROVED", "specs/Texts.antt", "specs/Top.antt", "papr_top/specs/Top.antt has no `IsSerialText`"),
    ("PROVED", "`IsVerdict` of `history_check`", "`IsVerdict` of `lpar_set`", "lpar_set has no `IsVerdict`"),
    ("PROVED", "`tests/check sizes`", "`tests/check heights`", "there is no `tests/check heights`"),
    ("MODEL", "| `Slots.antt` |", "| `Places.antt` |", "there is no crates/c_layout/specs/Places.antt"),
    ("MODEL", "| `is_table` |", "| `is_open` |", "c_layout/specs/Tables.antt has no `is_open`"),
    ("MODEL", "replies`, `SerialRun", "replies`, `Sections", "Sections.antt has no `serial_replies`"),
    ("MODEL", "`logged_histories_are_legal`", "`logs_are_legal`", "there is no `logs_are_legal`"),
    ("ARCHITECTURE", "hash.rt` (`groups`)", "hash.rt` (`Hash`)", "hpt_hash/src/hash.rt has no `Hash`"),
    ("ARCHITECTURE", "`Tlb::drop_line`", "`Tlb::drop_page`", "there is no `Tlb::drop_page`"),
    ("ARCHITECTURE", "`tools/launcher.bash`", "`tools/launcher.sh`", "there is no `tools/launcher.sh`"),
    ("LIBRARY", "`papr_take_changed`", "`papr_take_marked`", "there is no `papr_take_marked`"),
    ("LIBRARY", "`make library`", "`make libraries`", "there is no `make libraries`"),
    ("LIBRARY", "`examples/shared/hammer.c`", "`examples/nail.c`", "there is no `examples/nail.c`"),
    ("LIBRARY", "`PAPR_LIB_DIR`", "`PAPR_LIB_FOLDER`", "there is no `PAPR_LIB_FOLDER`"),
    ("DECISIONS", "TableOrder` of `hpte_fields`", "TableOrder` of `vcpu`", "vcpu has no `IsTableOrder`"),
    ("DECISIONS", "`accesses_only_raise_bits`", "`accesses_raise_bits`", "there is no `accesses_raise_bits`"),
    ("REFUSALS", "`Replies::push`", "`Replies::add`", "there is no `Replies::add`"),
    ("CALLS", "`papr_serial`", "`papr_single`", "there is no `papr_single`"),
    ("HOSTILE", "`tests/check", "`tests/verify", "there is no `tests/verify fail-alloc`"),
)
# A page, what it says of a limit, and the same with another number.
WRONG_NUMBERS = (
    ("docs/REFUSALS.md", "above the limit or above 34", "above the limit or above 22"),
    ("docs/MODEL.md", "the order is from 18 to 34", "the order is from 18 to 46"),
    ("docs/MODEL.md", "the 32 slots of its", "the 64 slots of its"),
    ("docs/ARCHITECTURE.md", "32 sets of up to four", "16 sets of up to four"),
    ("docs/DECISIONS.md", "makes 16,384 entries ready", "makes 16,385 entries ready"),
    ("docs/LIBRARY.md", "No order above 34 is prepared", "No order above 30 is prepared"),
    ("docs/FORMATS.md", "more than 2^24 bytes", "more than 2^25 bytes"),
    ("include/papr_shared.h", "for 1 to 64 passes", "for 1 to 32 passes"),
)


@cache
def sources() -> tuple[Declared, Clauses]:
    """What the sources of this checkout declare."""
    return read_declared(TOP), clauses_of(read_functions(TOP))


def faults_with(page: str, there: str, instead: str) -> list[str]:
    """What the check finds in a page in which these words are others."""
    text = texts_of_pages()[page]
    if there not in text:
        raise ValueError(f"{page} has no {there}")
    return list(faults(*sources(), text.replace(there, instead, 1)))


class Names(ToolTest):
    """Names in the pages."""

    def setUp(self) -> None:
        """Reads the sources. The tests are skipped where git doesn't list them."""
        super().setUp()
        try:
            sources()
        except Skipped as reason:
            self.skipTest(str(reason))

    @for_each(*texts_of_pages())
    def test_each_name_is_there_in(self, page: str) -> None:
        self.assertEqual(faults_with(page, "", ""), [])

    @for_each(*WRONG_NAMES)
    def test_a_wrong_name_is_refused_in(self, given: tuple[str, str, str, str]) -> None:
        page, there, instead, fault = given
        self.assertIn(fault, faults_with(page, there, instead))

    def test_an_exception_that_no_page_has_is_refused(self) -> None:
        texts = [text.replace("`lzma`", "lzma") for text in texts_of_pages().values()]
        self.assertEqual(list(unneeded(texts)), ["ELSEWHERE has lzma, which no page has"])

    def test_a_name_that_is_only_used_is_not_declared(self) -> None:
        text = "pub fn area(side: u32) -> u32 {\n    let square = side * side;\n    square\n}\n"
        self.assertEqual(names_in(".rt", text), {"area"})
        definition = "abbrev pub area : ℕ → ℕ\narea side = side * side\n"
        self.assertEqual(names_in(".antt", definition), {"area"})
        self.assertEqual(names_in(".h", "/* papr_old(); */\nint papr_new(int side);\n"), {"papr_new", "side"})


class Numbers(ToolTest):
    """Limits in the pages."""

    def faults_in(self, texts: dict[str, str]) -> list[str]:
        """What the check finds in these pages."""
        return [fault for limit in LIMITS for fault in faults_of(limit, texts)]

    def test_each_limit_is_as_the_sources_have_it(self) -> None:
        self.assertEqual(self.faults_in(texts_of(TOP)), [])

    @for_each(*WRONG_NUMBERS)
    def test_a_wrong_number_is_refused_in(self, given: tuple[str, str, str]) -> None:
        page, there, instead = given
        texts = texts_of(TOP)
        self.assertIn(there, texts[page])
        texts[page] = texts[page].replace(there, instead, 1)
        found = self.faults_in(texts)
        self.assertEqual(len(found), 1, found)
        self.assertTrue(found[0].startswith(f"{page}: `"), found)

    def test_numbers_as_pages_and_sources_write_them(self) -> None:
        written = ("34", "16,384", "16_384", "2^17", "2 ^ 17", "1 << 14")
        self.assertEqual([number_of(it) for it in written], [34, 16384, 16384, 131072, 131072, 16384])
