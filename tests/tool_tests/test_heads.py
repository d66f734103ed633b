"""Tests of the check of the sentence on top of each module, and of the tables that are made of these sentences."""

import sys
import unittest

from .support import TOOLS, TOP, ToolTest, for_each

sys.path[:0] = [str(TOOLS), str(TOP / "tests")]

from checks.heads import fault_in, paragraphs_in, row_of_crate, row_of_modules  # noqa: E402

HEAD = """\
//! The fields of an entry, as [`Entry`] has them: each reader
//! is its field.
//!
//! Power ISA 2.07 Book III.
//!
//! Main contracts: `first`: the first one.
#![tactic(auto)]
//! This is no head.
"""


class Heads(ToolTest):
    """The comment on top of a module."""

    def test_it_ends_before_the_first_other_line(self) -> None:
        first = "The fields of an entry, as `Entry` has them: each reader is its field."
        contracts = "Main contracts: `first`: the first one."
        self.assertEqual(paragraphs_in(HEAD, "//!"), [first, "Power ISA 2.07 Book III.", contracts])
        self.assertEqual(paragraphs_in("\n" + HEAD, "//!"), [])

    @for_each(
        ("bits", "", "begins with no sentence"),
        ("bits", "/// A function's own sentence.", "begins with no sentence"),
        ("bits", "//! The bits of the two doublewords", "begins with a sentence that has no end"),
        ("bits", "//! Bits.", "begins with its name alone"),
        ("TableSize", "//! The table size.", "begins with its name alone"),
        ("bits", "//! The bits of the two doublewords.", ""),
    )
    def test_what_is_said_of_a_module(self, given: tuple[str, str, str]) -> None:
        name, text, fault = given
        self.assertEqual(fault_in(name, paragraphs_in(text, "//!")), fault)


class Rows(unittest.TestCase):
    """The rows of the two tables."""

    def test_a_crate_has_its_first_paragraph_and_its_main_contracts(self) -> None:
        row = row_of_crate("fields", paragraphs_in(HEAD, "//!"))
        first = "The fields of an entry, as `Entry` has them: each reader is its field"
        self.assertEqual(row, f"| `fields` | {first} | `first`: the first one |")

    def test_a_crate_of_which_no_contract_is_named(self) -> None:
        self.assertEqual(row_of_crate("main", ["The program."]), "| `main` | The program | none |")

    def test_a_module_has_its_first_sentence(self) -> None:
        heads = {"Fields": ["The fields of an entry. Each is a range of bits."], "Calls": ["H_READ alone."]}
        self.assertEqual(
            row_of_modules("fields", heads), "| `fields` | `Fields`: the fields of an entry; `Calls`: H_READ alone |"
        )
