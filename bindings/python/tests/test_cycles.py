"""Tests of shared tables that only the collector finds: nothing is lost, whatever it finalises first."""

import gc
import unittest
from itertools import permutations
from typing import Any
from unittest.mock import patch

from support import GRANTS, SHORT_OF_MEMORY, needs_limits, needs_shared_table, said_by, well_finalised

from papr import Code, Flag, PassRefused, SharedTable, Table
from papr._library import function

ENTRY = 0x22
# Tables of the library that take more than 6 MB each, in cycles, with room for a few of them.
MANY = f"""{SHORT_OF_MEMORY}
import gc
table = papr.Table(22)

def share():
    shared = papr.SharedTable(table, 2)
    shared.passes = [shared.split(), shared.split()]
    shared.itself = shared

leave(64 << 20)
for _ in range(20):
    share()
    gc.collect()
print(len(table))
"""

# Ends with such a cycle, and with a table in a module that goes after those of the package.
LEFT = """
import sys, papr
shared = papr.SharedTable(papr.Table(18))
shared.mine = shared.split()
shared.itself = shared
sys.last = papr.SharedTable(papr.Table(18))
sys.last.mine = sys.last.split()
"""


class Machine:
    """What has a shared table and its passes; its finaliser makes a call."""

    def __init__(self, told: list[Code]) -> None:
        self.told = told
        self.passes: list[Any] = []

    def __del__(self) -> None:
        self.told += [it.h_read(0, ENTRY).code for it in self.passes]


@needs_shared_table
class Cycles(unittest.TestCase):
    """A shared table and its passes in a cycle."""

    def setUp(self) -> None:
        self.table = Table(18, GRANTS)
        self.table.h_enter(Flag.EXACT, ENTRY, 0x1001, 0x3012)

    def assert_back(self) -> None:
        """The table has its entries."""
        self.assertEqual([at for at, _ in self.table.valid_entries()], [ENTRY])
        self.assertEqual(self.table.h_read(0, ENTRY).words, (0x1001, 0x3012))

    def make_ring(self, order: tuple[int, ...], is_first: bool, told: list[Code]) -> None:
        """Makes a machine, a shared table and two passes, and a cycle of these; each has the one before it."""
        early = Machine(told)
        shared = SharedTable(self.table, 2)
        passes = [shared.split(), shared.split()]
        machine = early if is_first else Machine(told)
        machine.passes = passes
        parts: list[Any] = [machine, shared, *passes]
        for at, part in enumerate(order):
            parts[part].one_before = parts[order[at - 1]]

    def test_in_any_order(self) -> None:
        """The machine may be finalised before the table, when its calls are made, or after it."""
        told: list[Code] = []
        for order in permutations(range(4)):
            for is_first in (True, False):
                with self.subTest(order=order, is_first=is_first), well_finalised(self):
                    self.make_ring(order, is_first, told)
                self.assert_back()
        self.assertEqual({*told}, {Code.H_SUCCESS, Code.H_PARAMETER})
        self.assertEqual(len(told), 24 * 2 * 2)

    def test_the_table_is_in_the_cycle_too(self) -> None:
        with well_finalised(self):
            table: Any = Table(18)
            table.shared = SharedTable(table)
            table.mine = table.shared.split()
            del table

    def test_a_pass_in_the_traceback_of_its_call(self) -> None:
        def fail() -> None:
            shared = SharedTable(self.table)
            mine = shared.split()
            try:
                mine.h_read(1 << 64, 0)
            except OverflowError as error:
                kept = error  # whose traceback has this frame
                self.assertIsNotNone(kept.__traceback__)

        with well_finalised(self):
            fail()
            self.assertEqual(len(self.table), 0)
        self.assert_back()

    def test_a_pass_whose_table_is_still_used(self) -> None:
        def forget() -> None:
            mine: Any = shared.split()
            mine.itself = mine

        with SharedTable(self.table, 1) as shared:
            with well_finalised(self):
                forget()
            shared.split().join()
        self.assert_back()

    def test_what_the_collector_gives_back_while_a_table_is_opened(self) -> None:
        def share() -> None:
            shared: Any = SharedTable(self.table)
            shared.itself = shared

        def collecting(name: str) -> Any:
            return lambda *given: (gc.collect(), function(name)(*given))[1]

        share()
        with patch("papr._opened.function", collecting), self.assertRaises(PassRefused):
            SharedTable(self.table)
        self.assert_back()
        SharedTable(self.table).close()
        self.assert_back()

    def test_a_process_may_end_with_a_cycle(self) -> None:
        self.assertEqual(said_by(self, LEFT), "")

    @needs_limits
    def test_the_tables_of_the_library_are_freed(self) -> None:
        self.assertEqual(said_by(self, MANY), f"{1 << 18}\n")


if __name__ == "__main__":
    unittest.main()
