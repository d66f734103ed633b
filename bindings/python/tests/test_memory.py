"""Tests of the memory of tables: how much is taken, when it is freed, and whose it is after a fork."""

import os
import unittest
from collections.abc import Callable

from support import GRANTS, SHORT_OF_MEMORY, needs_bytes, needs_calls, needs_limits, said_by

from papr import Flag, Table, TransferRefused

# A guest asks for a table of 16 GB, whose entries take 24 GB.
ASKING = f"""{SHORT_OF_MEMORY}
table = papr.Table(18)
print(table.h_resize_hpt_prepare(0, 19).name)
leave(64 << 20)
for flags, shift, limit in ((1, 34, 34), (0, 34, 33), (0, 19, 34), (0, 34, 34)):
    print(table.h_resize_hpt_prepare(flags, shift, limit).name)
print(table.h_resize_hpt_commit(0, 19).code.name)
print(table.h_resize_hpt_prepare(0, 18).name, table.h_resize_hpt_commit(0, 18).code.name)
"""
ASKED = """H_LONG_BUSY
H_PARAMETER
H_RESOURCE
H_SUCCESS
H_NO_MEM
H_CLOSED
H_SUCCESS H_SUCCESS
"""
# The caller does.
MAKING = f"""{SHORT_OF_MEMORY}
table = papr.Table(18)
leave(64 << 20)
before = size()
for make in [lambda: papr.Table(34), lambda: table.rehashed(34)] * 100:
    try:
        make()
    except MemoryError as error:
        told = str(error)
print(told, size() - before < 1 << 20, len(table))
"""
# What a resize has no use for any more: the entries of a table of 2^26 bytes take 96 MB.
RESIZING = f"""{SHORT_OF_MEMORY}
table = papr.Table(18)
before = size()

def told(code):
    print(code.name, round((size() - before) / (96 << 20)))

def prepare(order):
    while (code := table.h_resize_hpt_prepare(0, order)) is papr.Code.H_LONG_BUSY:
        pass
    told(code)

prepare(26)
told(table.h_resize_hpt_prepare(0, 0))
prepare(26)
told(table.h_resize_hpt_prepare(0, 18))
prepare(26)
told(table.h_resize_hpt_commit(0, 26).code)
prepare(18)
told(table.h_resize_hpt_commit(0, 18).code)
"""
RESIZED = """H_SUCCESS 1
H_SUCCESS 0
H_SUCCESS 1
H_SUCCESS 0
H_SUCCESS 1
H_SUCCESS 1
H_SUCCESS 1
H_SUCCESS 0
"""
# A text of four times as many bytes as the program takes, with less than the 24 bytes for each of them.
A_LONG_TEXT = f"""{SHORT_OF_MEMORY}
leave(1 << 30)
print(papr.call("run", text=b"#" * (1 << 26)))
"""


@needs_calls
@needs_limits
class Taken(unittest.TestCase):
    """How much memory is taken."""

    def test_the_shift_of_a_guest_takes_none_before_the_library_agrees(self) -> None:
        self.assertEqual(said_by(self, ASKING), ASKED)

    def test_a_table_for_which_there_is_none(self) -> None:
        self.assertEqual(said_by(self, MAKING), "there is no memory for a table of 2^34 bytes True 16384\n")

    def test_a_resize_frees_what_it_has_no_use_for(self) -> None:
        self.assertEqual(said_by(self, RESIZING), RESIZED)

    @needs_bytes
    def test_a_text_that_is_too_long(self) -> None:
        self.assertEqual(said_by(self, A_LONG_TEXT), "(<Status.REFUSED: 2>, b'papr: line 0: long\\n')\n")


@needs_calls
class Rooms(unittest.TestCase):
    """Numbers of entries that no table has."""

    def test_more_changed_entries_than_there_are(self) -> None:
        table = Table(18, GRANTS)
        table.h_enter(Flag.EXACT, 0x21, 0x2001, 0x4012)
        self.assertEqual(table.take_changed(0x20, room=1 << 62), ((0x21,), 1 << 14))

    def test_more_entries_to_export_than_there_are(self) -> None:
        table = Table(18)
        for number in (len(table) + 1, 1 << 44):
            with self.assertRaisesRegex(TransferRefused, "the transfer is refused: ARGUMENTS"):
                table.export_entries(number=number)


def do_in_a_child(work: Callable[[], object]) -> None:
    """Does this in a child of this process, which must end well."""
    child = os.fork()
    if child == 0:
        try:
            work()
        except BaseException:
            os._exit(1)
        os._exit(0)
    status = os.waitpid(child, 0)[1]
    if status:
        raise ChildProcessError(status)


@needs_calls
@unittest.skipUnless(hasattr(os, "fork"), "there is no fork here")
class AfterAFork(unittest.TestCase):
    """Parent and child have entries of their own."""

    def setUp(self) -> None:
        self.table = Table(18, GRANTS)
        self.table.h_enter(Flag.EXACT, 0x21, 0x2001, 0x4012)

    def enter(self) -> None:
        """Enters a page in entry 0x27."""
        self.assertEqual(self.table.h_enter(Flag.EXACT, 0x27, 0x1001, 0x3012).words, (0x27,))

    def test_a_child_has_the_entries_and_its_calls_are_not_seen(self) -> None:
        def enter_beside() -> None:
            self.enter()
            self.assertEqual([at for at, _ in self.table.valid_entries()], [0x21, 0x27])

        do_in_a_child(enter_beside)
        self.assertEqual([at for at, _ in self.table.valid_entries()], [0x21])

    def test_a_resize_of_a_child_is_not_seen(self) -> None:
        """An entry that another process had written would be marked when the commit empties it."""
        self.assertEqual(self.table.h_resize_hpt_prepare(0, 18), 0)

        def commit_and_enter() -> None:
            self.assertEqual(self.table.h_resize_hpt_commit(0, 18).code, 0)
            self.enter()

        do_in_a_child(commit_and_enter)
        self.assertEqual(self.table.h_resize_hpt_commit(0, 18).code, 0)
        self.assertEqual(self.table.take_changed(), ((), 1 << 14))


if __name__ == "__main__":
    unittest.main()
