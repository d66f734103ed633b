"""Tests of the table that threads share."""

import ctypes
import gc
import random
import shutil
import subprocess
import tempfile
import threading
import time
import unittest
from collections.abc import Callable
from functools import partial
from pathlib import Path
from typing import ClassVar, Optional

from history import GROUP, Made, draw, faults
from support import GRANTS, SHORT_OF_MEMORY, TOP, needs_limits, needs_shared_table, said_by

from papr import Access, Answer, Busy, Code, Entry, Flag, Hcall, HeldUp, Hold, Outcome, Pass, PassRefused
from papr import Receipt, Reply, SharedTable, Table
from papr._library import shared_table_library

SOURCE = Path(__file__).with_name("protecting.c")
ENTRY = 0x22  # that two threads meet at
LOAD = Access(0x5678, 1)  # of the page in it
THREADS, CALLS = 4, 2_000
PATIENCE = 60  # seconds until threads have met

# Opens a table where there is no memory for it, and then where there is.
NO_MEMORY = f"""{SHORT_OF_MEMORY}
table = papr.Table(22)
papr.SharedTable(papr.Table(18), 1).close()
leave(4 << 20)
try:
    papr.SharedTable(table, 1)
except papr.PassRefused as refused:
    print(refused.code.name, len(table))
leave(0)
with papr.SharedTable(table, 1) as shared, shared.split() as mine:
    print(mine.h_read(0, 0))
"""
# Ends with a table that is open, and a pass that is out.
LEFT_OPEN = "import papr; shared = papr.SharedTable(papr.Table(18)); mine = shared.split(); print(mine.h_read(0, 0))"


class SharedTest(unittest.TestCase):
    """A test with a table that has the page at 0x5000 of segment 1 in ENTRY, after that of another page."""

    def setUp(self) -> None:
        self.table = Table(18, GRANTS)
        self.table.h_enter(Flag.EXACT, 0x21, 0x2001, 0x4012)
        self.table.h_enter(Flag.EXACT, ENTRY, 0x1001, 0x3012)

    def assert_refused(self, code: Code, call: Callable[[], object]) -> None:
        """The call is refused with this code."""
        with self.assertRaises(PassRefused) as caught:
            call()
        self.assertIs(caught.exception.code, code)
        self.assertIn(code.name, str(caught.exception))


@needs_shared_table
class Passes(SharedTest):
    """Opening, splitting, joining, closing."""

    def test_closing_gives_the_entries_back(self) -> None:
        with SharedTable(self.table, 2) as shared:
            self.assertTrue(shared.is_open)
            with shared.split() as mine:
                self.assertEqual(str(mine.h_enter(0, 0x20, 0x3001, 0x5012)), "0 0x20 | 0x20.0.0.entered")
                self.assertEqual(mine.h_read(0, ENTRY).words, (0x1001, 0x3012))
        self.assertFalse(shared.is_open)
        self.assertEqual([at for at, _ in self.table.valid_entries()], [0x20, 0x21, ENTRY])
        self.assertEqual(self.table[0x20], Entry(0x3001, 0x5012, 1, True, False, False))

    def test_a_table_has_no_entries_while_it_is_shared(self) -> None:
        with SharedTable(self.table, 1):
            self.assertEqual((len(self.table), list(self.table)), (0, []))
            self.assertEqual(self.table.h_read(0, ENTRY), Reply(Code.H_PARAMETER, (), (), False))
            self.assertIs(self.table.walk(LOAD).outcome, Outcome.PARAMETER)
            self.table.h_resize_hpt_prepare(0, 18)
            self.assertIs(self.table.h_resize_hpt_commit(0, 18).code, Code.H_PARAMETER)
            self.assert_refused(Code.H_PARAMETER, lambda: SharedTable(self.table, 1))
        self.assertEqual(self.table.h_read(0, ENTRY).words, (0x1001, 0x3012))

    def test_there_are_so_many_passes_and_no_more(self) -> None:
        for passes in (0, 64):
            with self.assertRaises(ValueError):
                SharedTable(self.table, passes)
        self.assertEqual(len(self.table), 1 << 14)
        for most in (1, 63):
            shared = SharedTable(self.table, most)
            passes_out = [shared.split() for _ in range(most)]
            self.assert_refused(Code.H_RESOURCE, shared.split)
            passes_out.pop().join()
            shared.split().join()
            for it in passes_out:
                it.join()
            shared.close()

    def test_a_table_is_not_closed_while_passes_are_out(self) -> None:
        shared = SharedTable(self.table)
        mine = shared.split()
        self.assert_refused(Code.H_RESOURCE, shared.close)
        self.assertIs(mine.h_remove(0, 0x21, 0).code, Code.H_SUCCESS)
        mine.join()
        shared.close()
        self.assertEqual([at for at, _ in self.table.valid_entries()], [ENTRY])

    def test_what_is_closed_stays_closed(self) -> None:
        shared = SharedTable(self.table)
        mine = shared.split()
        mine.join()
        mine.join()
        self.assertEqual(mine.h_read(0, ENTRY), Reply(Code.H_PARAMETER, (), (), False))
        self.assertIs(mine.walk(LOAD).outcome, Outcome.PARAMETER)
        shared.close()
        self.table.h_remove(0, ENTRY, 0)
        shared.close()
        self.assertFalse(self.table[ENTRY].valid)
        self.assert_refused(Code.H_PARAMETER, shared.split)

    def test_an_error_that_is_on_its_way_is_not_replaced(self) -> None:
        with self.assertRaises(KeyError):
            with SharedTable(self.table) as shared:
                mine = shared.split()
                raise KeyError
        self.assertTrue(shared.is_open)
        mine.join()
        with self.assertRaises(KeyError):
            with shared, shared.split():
                raise KeyError
        self.assertFalse(shared.is_open)
        with self.assertRaises(PassRefused), SharedTable(self.table) as shared:
            mine = shared.split()

    def test_what_nobody_has_any_more_goes_back(self) -> None:
        shared: Optional[SharedTable] = SharedTable(self.table, 1)
        assert shared is not None
        mine: Optional[Pass] = shared.split()
        del mine
        gc.collect()
        mine = shared.split()
        del shared
        gc.collect()
        self.assertIs(mine.h_remove(0, ENTRY, 0).code, Code.H_SUCCESS)
        self.assertEqual(len(self.table), 0)
        del mine
        gc.collect()
        self.assertEqual([at for at, _ in self.table.valid_entries()], [0x21])

    def test_a_process_may_end_with_an_open_table(self) -> None:
        self.assertEqual(said_by(self, LEFT_OPEN), "0 0x0 0x0 | 0x0.0.0.read\n")

    @needs_limits
    def test_want_of_memory_leaves_all_as_it_was(self) -> None:
        self.assertEqual(said_by(self, NO_MEMORY), "H_NO_MEM 262144\n0 0x0 0x0 | 0x0.0.0.read\n")


@needs_shared_table
class OnePass(SharedTest):
    """Calls of one thread."""

    def test_a_pass_and_a_table_answer_alike(self) -> None:
        source = random.Random(3)
        for order in (18, 19):
            table, serial = Table(order, GRANTS), Table(order, GRANTS)
            with SharedTable(table) as shared, shared.split() as mine:
                for call in (draw(source) for _ in range(CALLS)):
                    first, second = (getattr(it, call.name)(*call.arguments) for it in (mine, serial))
                    self.assertEqual(first, second, call)
            self.assertEqual(list(table), list(serial))

    def test_a_call_by_its_number(self) -> None:
        with SharedTable(self.table) as shared, shared.split() as mine:
            reply = mine.hcall(Hcall.H_ENTER, Flag.EXACT, 0x45, 0x1001, 0x7012, 4, 5, 6, 7)
            self.assertEqual((reply.code, reply.words), (Code.H_SUCCESS, (0x45,)))
            self.assertEqual(mine.hcall(Hcall.H_READ, 0, 0x45).words, (0x1001, 0x7012))
            reply = mine.hcall(Hcall.H_BULK_REMOVE, 0x4000000000000022, 1, 0xC000000000000000, 2, 3, 4, 5, 6)
            self.assertEqual(reply.words, (0x8000000000000022, 1, 0xC000000000000000, 2, 3, 4, 5, 6))
            self.assertIs(mine.hcall(0x20).code, Code.H_FUNCTION)
            with self.assertRaises(ValueError):
                mine.hcall(Hcall.H_READ, *range(9))

    def test_numbers_that_are_no_doublewords_are_refused(self) -> None:
        with SharedTable(self.table) as shared, shared.split() as mine:
            for word in (1 << 64, -1):
                with self.assertRaises(OverflowError):
                    mine.h_read(word, ENTRY)
                with self.assertRaises(OverflowError):
                    mine.hcall(Hcall.H_READ, word, ENTRY)
                with self.assertRaises(OverflowError):
                    mine.walk(LOAD._replace(ea=word))
            self.assertEqual(mine.h_read(0, ENTRY).words, (0x1001, 0x3012))

    def test_a_pass_that_has_nothing_to_go_on_with(self) -> None:
        with SharedTable(self.table) as shared, shared.split() as mine:
            self.assertEqual(mine.again(), Reply(Code.H_PARAMETER, (), (), False))
            self.assertIs(mine.walk_again().outcome, Outcome.PARAMETER)
            self.assertEqual(mine.held_up(), HeldUp(Hold.NOT_HELD_UP, 0, 0, 0, 0))
            mine.give_up()
            self.assertEqual(mine.finish(mine.h_read, 0, ENTRY).words, (0x1001, 0x3012))
            self.assertEqual(mine.finish(mine.walk, LOAD).logical, 0x3678)


class Protecting:
    """A thread that protects ENTRY over and over, in a loop in C: so it is at the entry for much of the time."""

    def __init__(self, theirs: Pass, library: Path) -> None:
        """Starts it on a pass."""
        self._is_over = ctypes.c_bool(False)
        calls = shared_table_library()
        functions = (ctypes.cast(calls[name], ctypes.c_void_p) for name in ("papr_try_h_protect", "papr_again"))
        words = (ctypes.byref(self._is_over), ctypes.byref(theirs._pass), ctypes.c_uint64(ENTRY), *functions)
        self._thread = threading.Thread(target=ctypes.CDLL(str(library)).protect_until, args=words)
        self._thread.start()

    def end(self) -> None:
        """Ends it."""
        self._is_over.value = True
        self._thread.join()


@needs_shared_table
@unittest.skipIf(shutil.which("cc") is None, "cc is not installed")
class AtABusyEntry(SharedTest):
    """A pass whose call meets another thread, which protects ENTRY over and over."""

    library: ClassVar[Path]

    @classmethod
    def setUpClass(cls) -> None:
        """Compiles what the other thread does, once for the class."""
        super().setUpClass()
        work = tempfile.TemporaryDirectory(prefix="papr-protecting-")
        cls.addClassCleanup(work.cleanup)
        cls.library = Path(work.name) / "protecting.so"
        flags = ["-O2", "-shared", "-fPIC", f"-I{TOP / 'include'}", "-o", str(cls.library)]
        subprocess.run(["cc", *flags, str(SOURCE)], check=True)

    def setUp(self) -> None:
        super().setUp()
        self.shared = SharedTable(self.table, 2)
        self.mine, theirs = self.shared.split(), self.shared.split()
        self.addCleanup(self.close, theirs)
        self.addCleanup(Protecting(theirs, self.library).end)

    def close(self, theirs: Pass) -> None:
        """Closes the table after a test. The entry has changed."""
        theirs.join()
        self.mine.give_up()
        self.mine.join()
        self.shared.close()
        self.assertGreater(self.table[ENTRY].stamp, 1)

    def busy(self, call: Callable[[], object]) -> Busy:
        """What the call raises as soon as it meets the other thread."""
        end = time.monotonic() + PATIENCE
        while time.monotonic() < end:
            try:
                call()
            except Busy as busy:
                return busy
        self.fail(f"no call was busy in {PATIENCE} seconds")

    def test_a_call_is_gone_on_with(self) -> None:
        busy = self.busy(lambda: self.mine.h_clear_ref(0, ENTRY))
        self.assertEqual(busy.held_up[:3], (Hold.HELD, ENTRY, 0))
        self.assertEqual((busy.held_up.looked, busy.words, busy.receipts), (busy.held_up.found, (), ()))
        self.assertEqual(str(busy), "entry 0x22 is busy, after 0 operations: HELD")
        self.assertEqual(self.mine.held_up()[:3], (Hold.HELD, ENTRY, 0))
        reply = self.mine.finish(self.mine.again)
        self.assertEqual([(it.entry, it.answer) for it in reply.receipts], [(ENTRY, Answer.WAS)])
        self.assertEqual((reply.code, reply.words, reply.stale), (Code.H_SUCCESS, (reply.receipts[0].dword1,), True))
        self.assertIs(self.mine.held_up().hold, Hold.NOT_HELD_UP)

    def test_until_it_has_ended_all_else_is_refused(self) -> None:
        self.busy(lambda: self.mine.h_read(0, ENTRY))
        for reply in (self.mine.h_read(0, 0x40), self.mine.hcall(Hcall.H_READ, 0, 0x40)):
            self.assertEqual(reply, Reply(Code.H_PARAMETER, (), (), False))
        self.assertIs(self.mine.walk(LOAD).outcome, Outcome.PARAMETER)
        self.assertIs(self.mine.walk_again().outcome, Outcome.PARAMETER)
        self.assert_refused(Code.H_BUSY, self.mine.join)
        self.assert_refused(Code.H_RESOURCE, self.shared.close)
        self.assertIs(self.mine.finish(self.mine.again).code, Code.H_SUCCESS)

    def test_what_it_has_made_is_not_made_again(self) -> None:
        busy = self.busy(lambda: self.mine.h_read(Flag.READ_4, 0x20))
        self.assertEqual(busy.held_up[:3], (Hold.HELD, ENTRY, 2))
        self.assertEqual((busy.words, busy.stale), ((0, 0, 0x2001, 0x4012), False))
        before = (Receipt(0x20, 0, 0, Answer.READ, 0, 0), Receipt(0x21, 1, 0, Answer.READ, 0x2001, 0x4012))
        self.assertEqual(busy.receipts, before)
        reply = self.mine.finish(self.mine.again)
        self.assertEqual((len(reply.words), reply.words[:4]), (8, busy.words))
        self.assertEqual((len(reply.receipts), reply.receipts[:2]), (4, before))

    def test_a_call_by_its_number_is_gone_on_with(self) -> None:
        self.busy(lambda: self.mine.hcall(Hcall.H_READ, 0, ENTRY))
        reply = self.mine.finish(self.mine.again)
        self.assertEqual(reply.words, (reply.receipts[0].dword0, reply.receipts[0].dword1))

    def test_a_walk_is_gone_on_with(self) -> None:
        busy = self.busy(lambda: self.mine.walk(LOAD))
        self.assertEqual(busy.held_up[:3], (Hold.CHANGING, ENTRY, 2))
        self.assertEqual([it.answer for it in busy.receipts], [Answer.NOMATCH] * 2)
        self.assertEqual(self.mine.again(), Reply(Code.H_PARAMETER, (), (), False))
        walk = self.mine.finish(self.mine.walk_again)
        self.assertEqual((walk.outcome, walk.entry, walk.logical), (Outcome.AT, ENTRY, 0x3678))
        self.assertEqual([it.answer for it in walk.receipts], [Answer.NOMATCH] * 2 + [Answer.AT])

    def test_a_call_is_given_up(self) -> None:
        self.busy(lambda: self.mine.h_read(0, ENTRY))
        self.mine.give_up()
        self.assertEqual(self.mine.again(), Reply(Code.H_PARAMETER, (), (), False))
        self.assertEqual(self.mine.h_read(0, 0x21).words, (0x2001, 0x4012))

    def test_a_pass_in_a_call_is_still_out(self) -> None:
        """The library has the pass then, so that it looks closed."""
        table = Table(18, GRANTS)
        table.h_enter(Flag.EXACT, ENTRY, 0x1001, 0x3012)
        shared = SharedTable(table, 3)
        mine, theirs = shared.split(), shared.split()
        protecting = Protecting(theirs, self.library)
        self.busy(partial(mine.h_read, 0, ENTRY))
        for _ in range(100):
            shared.split().join()
        protecting.end()
        del mine, theirs
        shared.close()
        self.assertGreater(table[ENTRY].stamp, 1)

    def test_leaving_a_pass_gives_its_call_up(self) -> None:
        with self.mine:
            self.busy(lambda: self.mine.h_read(0, ENTRY))
        with self.shared.split() as other:
            self.assertEqual(other.h_read(0, 0x21).words, (0x2001, 0x4012))
            self.busy(lambda: other.h_read(0, ENTRY))


@needs_shared_table
class Hammered(unittest.TestCase):
    """Threads that make random calls on one group of eight entries, all at once."""

    def hammer(self) -> tuple[list[Entry], list[Entry], list[list[Made]]]:
        """The entries before and after, and what each thread made, in its order."""
        table, source = Table(18, GRANTS), random.Random(1)
        for call in (draw(source) for _ in range(64)):
            getattr(table, call.name)(*call.arguments)
        opening = list(table)
        made: list[list[Made]] = [[] for _ in range(THREADS)]
        with SharedTable(table, THREADS) as shared:
            threads = [threading.Thread(target=self.work, args=(shared, at, made[at])) for at in range(THREADS)]
            for thread in threads:
                thread.start()
            for thread in threads:
                thread.join()
        return opening, list(table), made

    def work(self, shared: SharedTable, seed: int, made: list[Made]) -> None:
        """What one thread does."""
        source = random.Random(seed)
        with shared.split() as mine:
            for _ in range(CALLS):
                call = draw(source)
                answer = mine.finish(getattr(mine, call.name), *call.arguments)
                made += map(Made, answer.receipts, call.operations)

    def test_each_entry_has_one_legal_history(self) -> None:
        opening, closing, made = self.hammer()
        everything = [it for of_thread in made for it in of_thread]
        self.assertEqual(faults(opening, closing, everything), [])
        changes = [it for it in everything if it.is_change]
        self.assertGreater(len(changes), 1_000)
        self.assertEqual({it.receipt.entry // 8 for it in changes}, {GROUP})
        for of_thread in made:
            self.assertGreaterEqual(len(of_thread), CALLS)
            self.assert_stamps_rise(of_thread)
        # A receipt that is left out is missed, the first, the middle one and the last.
        for change in (changes[0], changes[len(changes) // 2], changes[-1]):
            left = [it for it in everything if it is not change]
            (fault,) = faults(opening, closing, left)
            self.assertRegex(fault, rf"^entry {change.receipt.entry:#x}: (0x\w+\.\d+\.\d\.\w+ comes|it closes) ")

    def assert_stamps_rise(self, made: list[Made]) -> None:
        """No thread sees the stamp of an entry fall."""
        seen: dict[int, int] = {}
        for it in made:
            self.assertGreaterEqual(it.receipt.stamp, seen.get(it.receipt.entry, 0))
            seen[it.receipt.entry] = it.receipt.stamp

    def test_threads_may_use_one_pass(self) -> None:
        """They wait for each other."""
        table = Table(18, GRANTS)
        with SharedTable(table, 1) as shared, shared.split() as mine:
            replies: list[Reply] = []

            def work() -> None:
                for _ in range(500):
                    replies.append(mine.h_enter(Flag.EXACT, ENTRY, 0x1001, 0x3012))
                    replies.append(mine.h_remove(0, ENTRY, 0))

            threads = [threading.Thread(target=work) for _ in range(THREADS)]
            for thread in threads:
                thread.start()
            for thread in threads:
                thread.join()
        self.assertEqual(len(replies), 1_000 * THREADS)
        self.assertEqual(table[ENTRY].stamp, sum(it.code is Code.H_SUCCESS for it in replies))


if __name__ == "__main__":
    unittest.main()
