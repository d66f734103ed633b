"""Tests of the table of the hypervisor calls: its rows against the standard, and what is compared with it."""

import sys
from dataclasses import replace
from typing import Callable

from .support import TOOLS, TOP, ToolTest, for_each, run

sys.path.insert(0, str(TOOLS))

from common import Bad  # noqa: E402
from hypercalls import CALLS  # noqa: E402
from interface.calls import Call, calls, read_calls  # noqa: E402
from interface.crate_lists import faults_of_crates, faults_of_headers  # noqa: E402

CHECK = TOP / "tests" / "check"
# The numbers of LoPAR, and of Linux for the resize calls (arch/powerpc/include/asm/hvcall.h).
NUMBERS = {
    "H_REMOVE": 0x04,
    "H_ENTER": 0x08,
    "H_READ": 0x0C,
    "H_CLEAR_MOD": 0x10,
    "H_CLEAR_REF": 0x14,
    "H_PROTECT": 0x18,
    "H_GET_TCE": 0x1C,
    "H_PUT_TCE": 0x20,
    "H_BULK_REMOVE": 0x124,
    "H_RESIZE_HPT_PREPARE": 0x36C,
    "H_RESIZE_HPT_COMMIT": 0x370,
}
ROW = """[[call]]
name = "H_NEW"
number = 0x99
arguments = ["flags", "ptex"]
works_on = "entries"
sentence = "does nothing, or with {EXACT} less."
functions = ["papr_h_new", "papr_try_h_new"]
"""


def changed(name: str, change: Callable[[Call], Call]) -> list[Call]:
    """The table with another row of this name."""
    return [change(it) if it.name == name else it for it in calls()]


class Rows(ToolTest):
    """The rows."""

    def test_each_call_has_the_number_of_the_standard(self) -> None:
        self.assertEqual({it.name: it.number for it in calls()}, NUMBERS)
        self.assertEqual({call.name: number for number, call in CALLS.items()}, NUMBERS)

    def test_a_row_is_read(self) -> None:
        (call,) = read_calls(ROW)
        self.assertEqual((call.name, call.number, call.count), ("H_NEW", 0x99, 2))
        self.assertEqual(call.said("H_{}"), "does nothing, or with H_EXACT less.")

    @for_each(
        ROW + ROW,
        ROW.replace("sentence", "sentences"),
        ROW.replace('works_on = "entries"', 'works_on = "memory"'),
        ROW.replace("0x99", '"0x99"'),
        ROW.replace('"papr_h_new", ', ""),
    )
    def test_what_is_no_row_is_refused(self, text: str) -> None:
        with self.assertRaises(Bad):
            read_calls(text)


class Compared(ToolTest):
    """The crates and the headers against other tables than theirs."""

    def test_the_table_is_that_of_the_sources_and_of_all_lists(self) -> None:
        ran = run(CHECK, "call-table")
        self.assert_ran(ran, out=None)
        self.assertIn("pass call-table: 11 calls", ran.out)

    @for_each(*NUMBERS)
    def test_a_call_that_the_table_lacks_is_found(self, name: str) -> None:
        found = list(faults_of_crates([it for it in calls() if it.name != name]))
        self.assertEqual(len(found), 10, found)  # in each list of the crates

    def test_a_call_that_the_crates_lack_is_found(self) -> None:
        self.assertEqual(len(list(faults_of_crates([*calls(), *read_calls(ROW)]))), 10)

    def test_another_number_and_another_count_are_found(self) -> None:
        numbered = changed("H_READ", lambda it: replace(it, number=0x99))
        self.assertEqual(len(list(faults_of_crates(numbered))), 4)
        counted = changed("H_READ", lambda it: replace(it, arguments=("flags",)))
        self.assertEqual(len(list(faults_of_crates(counted))), 2)

    def test_arguments_in_another_order_than_in_c_are_found(self) -> None:
        turned = changed("H_READ", lambda it: replace(it, arguments=it.arguments[::-1]))
        self.assertEqual(len(list(faults_of_headers(turned))), 2)

    def test_functions_that_one_side_lacks_are_found(self) -> None:
        renamed = changed("H_READ", lambda it: replace(it, functions=("papr_h_red", "papr_try_h_read")))
        expected = ["the headers have no papr_h_red", "papr_h_read is in a header, and no call's in the table"]
        self.assertEqual(list(faults_of_headers(renamed)), expected)
