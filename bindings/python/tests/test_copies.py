"""Tests of copies: a table's have entries of their own, and what owns a handle or memory of a guest has none."""

import copy
import pickle
import unittest
from collections.abc import Callable
from typing import Any

from support import GRANTS, needs_calls, needs_shared_table, well_finalised

from papr import Code, Flag, Segments, SharedTable, Table, Window

WAYS: tuple[Callable[[Any], Any], ...] = (copy.copy, copy.deepcopy, lambda it: pickle.loads(pickle.dumps(it)))


class Named(Table):
    """A table of somebody else's class."""

    name = ""


@needs_calls
class OfTables(unittest.TestCase):
    """Copies of a table."""

    def setUp(self) -> None:
        self.table = Named(18, GRANTS)
        self.table.name = "first"
        self.table.h_enter(Flag.EXACT, 0x21, 0x2001, 0x4012)
        self.table.take_changed()
        self.table.h_enter(Flag.EXACT, 0x22, 0x1001, 0x3012)

    def test_they_are_as_the_table_is(self) -> None:
        for way in WAYS:
            made = way(self.table)
            self.assertEqual((type(made), made.name, made.order), (Named, "first", 18))
            self.assertEqual((list(made), list(made.grants)), (list(self.table), list(self.table.grants)))
            self.assertEqual(made.take_changed().indexes, (0x22,))

    def test_each_has_entries_of_its_own(self) -> None:
        for way in WAYS:
            made = way(self.table)
            made.h_remove(0, 0x21, 0)
            self.assertTrue(self.table[0x21].valid)
            self.table.h_enter(Flag.EXACT, 0x23, 0x3001, 0x5012)
            self.assertEqual([at for at, _ in made.valid_entries()], [0x22])
            self.table.h_remove(0, 0x23, 0)

    def test_each_has_a_pending_table_of_its_own(self) -> None:
        self.table.h_resize_hpt_prepare(0, 19)
        for way in WAYS:
            made = way(self.table)
            self.assertIs(made.h_resize_hpt_prepare(0, 19), Code.H_SUCCESS)
            self.assertIs(self.table.h_resize_hpt_commit(0, 19).code, Code.H_BUSY)
            self.assertIs(made.h_resize_hpt_commit(0, 19).code, Code.H_SUCCESS)
            self.assertEqual((made.order, len(made), len(self.table)), (19, 1 << 15, 1 << 14))

    def test_each_has_a_room_for_answers_of_its_own(self) -> None:
        for way in WAYS:
            self.assertIsNot(way(self.table)._room, self.table._room)


class Refused(unittest.TestCase):
    """What can't be copied says so once, and stays as it was."""

    def assert_not_copied(self, it: object, what: str) -> None:
        """It can't be copied or pickled, nor what has it."""
        for way in WAYS:
            for given in (it, [it]) if way is not copy.copy else (it,):
                with well_finalised(self), self.assertRaises(TypeError) as caught:
                    way(given)
                self.assertEqual(str(caught.exception), f"a {what} can't be copied or pickled")

    @needs_calls
    def test_windows_and_segments(self) -> None:
        self.assert_not_copied(Window(0, 4), "Window")
        self.assert_not_copied(Segments(), "Segments")

    @needs_shared_table
    def test_shared_tables_and_passes(self) -> None:
        table = Table(18, GRANTS)
        with SharedTable(table, 2) as shared, shared.split() as mine:
            self.assert_not_copied(shared, "SharedTable")
            self.assert_not_copied(mine, "Pass")
            with self.assertRaisesRegex(TypeError, "^a Table can't be copied or pickled while it is shared$"):
                copy.copy(table)
            shared.split().join()
            self.assertIs(mine.h_read(0, 0x21).code, Code.H_SUCCESS)
        self.assertEqual(len(copy.copy(table)), 1 << 14)


if __name__ == "__main__":
    unittest.main()
