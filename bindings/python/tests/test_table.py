"""Tests of the table: every call with arguments that all differ, and answers whose fields all differ."""

import unittest

from support import GRANTS, needs_calls

from papr import Access, Answer, Cause, Code, Decoding, Entry, Flag, Grant, GrantRefusal, GrantRefused, Grants
from papr import Hcall, Layout, Outcome, Page, Receipt, Rehash, Reply, Right, Table, Taken, TransferRefusal
from papr import TransferRefused, Want, decode, library_version, rights

LOAD = Access(0x5678, 1)
LOAD_AND_FETCH = Right.READ | Right.EXECUTE
OF_1TB = 0x4000000001000001  # doubleword 0 of a page of a segment of 1 TB


class TableTest(unittest.TestCase):
    """A test with a table that has the page at 0x5000 of segment 1 in entry 0x22, after that of another page."""

    def setUp(self) -> None:
        self.table = Table(18, GRANTS)
        self.table.h_enter(Flag.EXACT, 0x21, 0x2001, 0x4012)
        self.table.h_enter(Flag.EXACT, 0x22, 0x1001, 0x3012)


@needs_calls
class Memory(unittest.TestCase):
    """Grants."""

    def test_a_list_is_sorted(self) -> None:
        grants = Grants(GRANTS)
        self.assertEqual(len(grants), 2)
        self.assertEqual(list(grants), [GRANTS[1], GRANTS[0]])

    def test_the_first_that_is_refused_is_named(self) -> None:
        with self.assertRaises(GrantRefused) as caught:
            Grants([*GRANTS, Grant(0x80000000, 0x6000000000, 0)])
        self.assertEqual((caught.exception.index, caught.exception.refusal), (2, GrantRefusal.GRANT_EMPTY))
        with self.assertRaisesRegex(GrantRefused, "POOL_ORDER"):
            Grants(GRANTS, pool_order=17)

    def test_machine_ranges(self) -> None:
        grants = Grants(GRANTS)
        self.assertEqual(grants.machine_of(0x2345, 0x100), (0x2000002345, False))
        self.assertEqual(grants.machine_of(0x40001000, 0x2000), (0x5000001000, True))
        self.assertIsNone(grants.machine_of(0x40001000, 0x2001))

    def test_a_number_that_its_field_does_not_hold_is_refused(self) -> None:
        for grant in (Grant(1 << 64, 0, 0x1000), Grant(0, -1, 0x1000)):
            with self.assertRaises(OverflowError):
                Grants([grant])


@needs_calls
class Calls(TableTest):
    """The calls by their names."""

    def test_the_version(self) -> None:
        self.assertEqual(library_version(), (0, 1, 0))

    def test_orders(self) -> None:
        for order in (18, 19, 23, 24, 30):
            self.assertEqual(len(Table(order)), 1 << order - 4)
        for order in (17, 35):
            with self.assertRaises(ValueError):
                Table(order)

    def test_enter(self) -> None:
        entered = Receipt(0x20, 0, 0, Answer.ENTERED, 0, 0)
        reply = self.table.h_enter(0, 0x23, 0x1001, 0x3012)
        self.assertEqual(reply, Reply(Code.H_SUCCESS, (0x20,), (entered,), False))
        self.assertEqual(self.table[0x22], Entry(0x1001, 0x3012, 1, True, False, False))
        taken = self.table.h_enter(Flag.EXACT, 0x22, 0x1001, 0x3012)
        receipt = Receipt(0x22, 1, 0, Answer.TAKEN, 0x1001, 0x3012)
        self.assertEqual(taken, Reply(Code.H_PTEG_FULL, (), (receipt,), False))
        self.assertEqual(str(taken), "-6 | 0x22.1.0.taken")

    def test_read(self) -> None:
        self.table.walk(LOAD)
        reply = self.table.h_read(Flag.READ_4, 0x23)
        self.assertEqual(reply.words, (0, 0, 0x2001, 0x4012, 0x1001, 0x3112, 0, 0))
        self.assertEqual(reply.receipts[2], Receipt(0x22, 1, 2, Answer.READ, 0x1001, 0x3112))
        self.assertTrue(reply.receipts[2].referenced)
        self.assertFalse(reply.receipts[2].changed)

    def test_clear(self) -> None:
        self.table.walk(LOAD._replace(want=Want.STORE))
        self.assertEqual(self.table[0x22].doublewords, (0x1001, 0x3192))
        reply = self.table.h_clear_ref(5, 0x22)
        self.assertEqual((reply.code, reply.words, reply.stale), (Code.H_SUCCESS, (0x3192,), True))
        self.assertEqual(self.table[0x22], Entry(0x1001, 0x3012, 2, True, False, True))
        reply = self.table.h_clear_mod(5, 0x22)
        self.assertEqual((reply.words, reply.stale), ((0x3092,), True))
        self.assertEqual(reply.receipts, (Receipt(0x22, 2, 1, Answer.WAS, 0x1001, 0x3092),))

    def test_protect_and_remove(self) -> None:
        self.assertEqual(self.table.h_protect(Flag.AVPN | 3, 0x22, 0x2000).code, Code.H_NOT_FOUND)
        reply = self.table.h_protect(Flag.AVPN | 3, 0x22, 0x1000)
        self.assertEqual((reply.code, reply.words, reply.stale), (Code.H_SUCCESS, (), True))
        self.assertEqual(self.table[0x22], Entry(0x1001, 0x3013, 2, True, False, False))
        self.assertEqual(self.table.h_remove(Flag.AVPN, 0x22, 0x2000).receipts[0].answer, Answer.NOTFOUND)
        reply = self.table.h_remove(Flag.AVPN, 0x22, 0x1000)
        receipt = Receipt(0x22, 2, 0, Answer.REMOVED, 0x1001, 0x3013)
        self.assertEqual(reply, Reply(Code.H_SUCCESS, (0x1001, 0x3013), (receipt,), True))
        self.assertEqual([at for at, _ in self.table.valid_entries()], [0x21])

    def test_bulk_remove(self) -> None:
        pairs = [0x4200000000000021, 0x2000, 0xC000000000000000, 7, 0, 0, 0, 0]
        reply = self.table.h_bulk_remove(pairs)
        self.assertEqual(reply.words, (0x8200000000000021, 0x2000, *pairs[2:]))
        self.assertEqual(reply.receipts, (Receipt(0x21, 1, 0, Answer.REMOVED, 0x2001, 0x4012),))
        self.assertEqual(self.table.h_bulk_remove(pairs[:6]), Reply(Code.H_PARAMETER, (), (), False))

    def test_numbers_that_are_no_doublewords_are_refused(self) -> None:
        for word in (1 << 64, -1):
            with self.assertRaises(OverflowError):
                self.table.h_read(word, 0x22)
            with self.assertRaises(OverflowError):
                self.table.hcall(word)
            with self.assertRaises(OverflowError):
                self.table.hcall(Hcall.H_READ, 0, word)
            with self.assertRaises(OverflowError):
                self.table.walk(LOAD._replace(ea=word))

    def test_an_index_past_the_table(self) -> None:
        self.assertEqual(self.table.h_read(0, len(self.table)).code, Code.H_PARAMETER)
        for index in (len(self.table), -1):
            with self.assertRaises(IndexError):
                self.table[index]


@needs_calls
class ByNumber(TableTest):
    """A call by its number."""

    def test_enter(self) -> None:
        reply = self.table.hcall(Hcall.H_ENTER, Flag.EXACT, 0x45, 0x1001, 0x7012, 4, 5, 6, 7)
        self.assertEqual((reply.code, reply.words), (Code.H_SUCCESS, (0x45,)))

    def test_missing_arguments_are_0(self) -> None:
        self.table.hcall(Hcall.H_ENTER, Flag.EXACT, 0x45, 0x1001, 0x7012, 4, 5, 6, 7)
        self.assertEqual(self.table.hcall(Hcall.H_READ, 0, 0x45).words, (0x1001, 0x7012))
        self.assertEqual(self.table.hcall(Hcall.H_READ).words, (0, 0))

    def test_bulk_remove_answers_in_all_its_words(self) -> None:
        reply = self.table.hcall(Hcall.H_BULK_REMOVE, 0x4000000000000022, 1, 0xC000000000000000, 2, 3, 4, 5, 6)
        self.assertEqual(reply.words, (0x8000000000000022, 1, 0xC000000000000000, 2, 3, 4, 5, 6))

    def test_no_call(self) -> None:
        self.assertEqual(self.table.hcall(0x20, 1, 2, 3), Reply(Code.H_FUNCTION, (), (), False))
        with self.assertRaises(ValueError):
            self.table.hcall(Hcall.H_READ, *range(9))


@needs_calls
class Walks(TableTest):
    """The walk and the probe."""

    def test_a_load_records_r_and_a_store_c(self) -> None:
        walk = self.table.walk(LOAD)
        self.assertEqual(walk[:7], (Outcome.AT, 0x3678, 0x22, 0x1001, 0x3112, 12, 12))
        self.assertEqual((walk.rights, walk.causes), (LOAD_AND_FETCH, Cause(0)))
        self.assertEqual([it.answer for it in walk.receipts], [Answer.NOMATCH, Answer.NOMATCH, Answer.AT])
        walk = self.table.walk(LOAD._replace(want=Want.STORE))
        self.assertEqual((walk.dword1, walk.rights), (0x3192, LOAD_AND_FETCH | Right.WRITE))
        self.assertEqual(walk.receipts[2], Receipt(0x22, 1, 2, Answer.AT, 0x1001, 0x3112))

    def test_each_field_of_an_access_counts(self) -> None:
        fetch = LOAD._replace(want=Want.FETCH)
        ends = {
            LOAD._replace(amr=1 << 62): Outcome.AMR,
            LOAD._replace(iamr=1 << 62): Outcome.AT,
            fetch._replace(iamr=1 << 62): Outcome.IAMR,
            fetch._replace(no_execute=True): Outcome.DENIED,
            LOAD._replace(key=True): Outcome.AT,
            LOAD._replace(vsid=2): Outcome.NO_PAGE,
            LOAD._replace(one_tb=True): Outcome.NO_PAGE,
            LOAD._replace(shift=13): Outcome.PARAMETER,
        }
        self.assertEqual({access: self.table.walk(access).outcome for access in ends}, ends)
        self.assertEqual(len(self.table.walk(LOAD._replace(vsid=2)).receipts), 16)

    def test_all_that_refuses_an_access(self) -> None:
        first, second = 0x3005, 0x1000000000017212  # a page of 4 KB in one of 64 KB, of key 9
        self.assertEqual(self.table.h_enter(Flag.EXACT, 0x33, first, second).code, Code.H_SUCCESS)
        access = Access(0x5678, 3, Want.FETCH, amr=2 << 44, iamr=1 << 44, no_execute=True)
        walk = self.table.walk(access)
        self.assertEqual((walk.outcome, walk.causes), (Outcome.DENIED, Cause.NO_EXECUTE | Cause.IAMR))
        self.assertEqual((walk.logical, walk.base_shift, walk.actual_shift), (0, 12, 16))

    def test_a_key_that_the_protection_refuses(self) -> None:
        self.table.h_enter(0, 8, OF_1TB, 0x6010)
        access = Access(0x678, 1, one_tb=True)
        self.assertEqual(self.table.walk(access).logical, 0x6678)
        probe = self.table.probe(access._replace(key=True))
        self.assertEqual((probe.outcome, probe.causes, probe.entry), (Outcome.DENIED, Cause.PROTECTION, 8))

    def test_a_probe_changes_nothing(self) -> None:
        probe = self.table.probe(LOAD)
        self.assertEqual((probe.outcome, probe.logical, probe.dword1), (Outcome.AT, 0x3678, 0x3012))
        self.assertEqual((probe.rights, probe.receipts), (Right(0), ()))
        self.assertEqual(self.table[0x22], Entry(0x1001, 0x3012, 1, True, False, False))


@needs_calls
class Decoded(unittest.TestCase):
    """Entries decoded."""

    def test_a_page(self) -> None:
        page = decode(18, 0x33, 0x3005, 0x1000000000017292)
        sizes = (12, 16)
        self.assertEqual(page[:10], (Decoding.PAGE, 3, 5, 0x10000, *sizes, 9, 2, 2, False))
        self.assertEqual(page[10:], (False, False, False, False, True))
        page = decode(18, 0xE0, 0x4000000015240015, 0x8000000400003112)
        self.assertEqual((page.vsid, page.page, page.real), (0x15, 9, 0x400000000))
        self.assertEqual((page.base_shift, page.protection), (34, 6))
        self.assertTrue(page.one_tb and page.bolted and page.referenced)
        self.assertFalse(page.no_execute or page.secondary or page.changed)
        page = decode(18, 0x3FD8, 0x1003, 0x3016)
        self.assertTrue(page.secondary and page.no_execute)

    def test_no_page(self) -> None:
        reasons = {
            (18, 1 << 14, 0x1001, 0x3012): Decoding.NO_INDEX,
            (17, 0, 0x1001, 0x3012): Decoding.NO_INDEX,
            (18, 0x20, 0x1000, 0x3012): Decoding.EMPTY,
            (18, 0x20, 0x1005, 0x2010): Decoding.NO_SIZE,
            (18, 0x20, 0x8000000000001001, 0x3012): Decoding.NO_SEGMENT,
            (18, 0x400, 0x1015, 0x11012): Decoding.OTHER_GROUP,
        }
        self.assertEqual({words: decode(*words).why for words in reasons}, reasons)
        with self.assertRaises(OverflowError):
            decode(274, 0x20, 0x1001, 0x3012)

    def test_an_entry_of_a_table(self) -> None:
        table = Table(18, GRANTS)
        table.h_enter(Flag.EXACT, 0x22, 0x1001, 0x3012)
        table.walk(LOAD._replace(want=Want.STORE))
        page: Page = table.page(0x22)
        self.assertEqual((page.vsid, page.page, page.real, page.referenced, page.changed), (1, 5, 0x3000, True, True))

    def test_rights(self) -> None:
        found = [rights(*it) for it in ((2, True), (1, True), (6, True), (8, False))]
        self.assertEqual(found, [Right.READ | Right.WRITE, Right.READ, Right(0), Right(0)])


@needs_calls
class Resizes(unittest.TestCase):
    """The rehash, and the resize calls."""

    def test_a_rehash(self) -> None:
        table = Table(20, GRANTS)
        table.h_enter(Flag.EXACT, 0x4023, 0x1091, 0x3012)
        ended, into = table.rehashed(18)
        self.assertEqual(ended, Rehash(Code.H_SUCCESS, 0, 0, 0, True))
        self.assertEqual(list(into.valid_entries()), [(0x23, Entry(0x1091, 0x3012, 0, True, False, False))])
        table.h_enter(Flag.EXACT, 0x8023, 0x1111, 0x4012)
        ended, into = table.rehashed(18)
        self.assertEqual(ended, Rehash(Code.H_PTEG_FULL, 0x4023, 0x8023, 0x23, False))
        self.assertEqual(list(into.valid_entries()), [])

    def test_a_resize(self) -> None:
        table = Table(18, GRANTS)
        table.h_enter(Flag.EXACT, 0x23, 0x1091, 0x3012)
        self.assertEqual(table.h_resize_hpt_prepare(0, 19), Code.H_LONG_BUSY)
        self.assertEqual(table.h_resize_hpt_commit(0, 19).code, Code.H_BUSY)
        self.assertEqual(table.h_resize_hpt_commit(0, 20).code, Code.H_CLOSED)
        self.assertEqual(table.h_resize_hpt_commit(1, 19).code, Code.H_PARAMETER)
        self.assertEqual(table.h_resize_hpt_prepare(0, 19), Code.H_SUCCESS)
        self.assertEqual(table.h_resize_hpt_commit(0, 19), Rehash(Code.H_SUCCESS, 0, 0, 0, True))
        self.assertEqual((table.order, len(table)), (19, 1 << 15))
        self.assertEqual(list(table.valid_entries()), [(0x4023, Entry(0x1091, 0x3012, 0, True, False, False))])
        self.assertEqual(table.h_resize_hpt_commit(0, 19).code, Code.H_CLOSED)

    def test_a_refused_prepare_keeps_what_is_pending(self) -> None:
        table = Table(18, GRANTS)
        self.assertEqual(table.h_resize_hpt_prepare(0, 19), Code.H_LONG_BUSY)
        self.assertEqual(table.h_resize_hpt_prepare(0, 21, limit=20), Code.H_RESOURCE)
        self.assertEqual(table.h_resize_hpt_prepare(0, 35, limit=46), Code.H_RESOURCE)
        self.assertEqual(table.h_resize_hpt_prepare(1, 20), Code.H_PARAMETER)
        self.assertEqual(table.h_resize_hpt_prepare(0, 19), Code.H_SUCCESS)
        self.assertEqual(table.h_resize_hpt_commit(0, 19).code, Code.H_SUCCESS)

    def test_what_is_pending_is_dropped(self) -> None:
        table = Table(18, GRANTS)
        table.h_resize_hpt_prepare(0, 19)
        self.assertEqual(table.h_resize_hpt_prepare(0, 0), Code.H_SUCCESS)
        self.assertEqual(table.h_resize_hpt_commit(0, 19).code, Code.H_CLOSED)
        table.h_resize_hpt_prepare(0, 19)
        self.assertEqual(table.h_resize_hpt_prepare(0, 18), Code.H_SUCCESS)
        self.assertEqual(table.h_resize_hpt_commit(0, 19).code, Code.H_CLOSED)
        self.assertEqual(table.h_resize_hpt_commit(0, 18).code, Code.H_SUCCESS)


@needs_calls
class Changes(TableTest):
    """Which entries changed."""

    def test_they_are_told_once(self) -> None:
        self.assertEqual(self.table.take_changed(room=1), Taken((0x21,), 0x22))
        self.assertEqual(self.table.take_changed(0x22), Taken((0x22,), 1 << 14))
        self.assertEqual(self.table.take_changed(), Taken((), 1 << 14))

    def test_an_access_counts_and_a_read_does_not(self) -> None:
        self.table.take_changed()
        self.table.h_read(0, 0x21)
        self.table.probe(LOAD)
        self.assertEqual(self.table.take_changed().indexes, ())
        self.table.walk(LOAD)
        self.assertEqual(self.table.take_changed().indexes, (0x22,))
        self.table.walk(LOAD)
        self.assertEqual(self.table.take_changed().indexes, ())

    def test_an_index_past_the_table_is_refused(self) -> None:
        for first in (-1, (1 << 14) + 1):
            with self.assertRaises(IndexError):
                self.table.take_changed(first)


@needs_calls
class Transfers(unittest.TestCase):
    """Entries as bytes."""

    OLD = bytes.fromhex("00000000000010010000000000003192" "40000000010000010000000000006010")
    NEW = bytes.fromhex("00000000000010010000000000003192" "00000000010000010400000000006010")

    def test_both_layouts(self) -> None:
        table = Table(18, GRANTS)
        table.import_entries(self.OLD, first=0x22)
        self.assertEqual(table[0x22], Entry(0x1001, 0x3012, 0, True, True, True))
        self.assertEqual(table[0x23], Entry(OF_1TB, 0x6010, 0, True, False, False))
        self.assertEqual(table.export_entries(first=0x22, number=2), self.OLD)
        self.assertEqual(table.export_entries(Layout.NEW, 0x22, 2), self.NEW)
        table.import_entries(self.NEW, Layout.NEW, 0x30)
        self.assertEqual(table[0x31], table[0x23])

    def test_a_whole_table(self) -> None:
        table, other = Table(18, GRANTS), Table(18, GRANTS)
        table.import_entries(self.OLD, first=0x22)
        other.import_entries(table.export_entries())
        self.assertEqual(list(other), list(table))

    def test_refusals(self) -> None:
        table = Table(18, GRANTS)
        with self.assertRaises(TransferRefused) as caught:
            table.import_entries(self.OLD, Layout.NEW, 0x40)
        self.assertEqual((caught.exception.index, caught.exception.refusal), (0x41, TransferRefusal.UNHELD))
        with self.assertRaisesRegex(TransferRefused, "entry 0x41 is refused: UNENTERED"):
            table.import_entries(self.OLD[:-1] + b"\x38", first=0x40)
        for first in (len(table), -1, 1 << 64):
            with self.assertRaises((TransferRefused, OverflowError)):
                table.import_entries(self.OLD, first=first)
        with self.assertRaises(ValueError):
            table.import_entries(self.OLD[:-1])
        with self.assertRaises(TransferRefused):
            table.export_entries(first=len(table), number=1)
        self.assertEqual(list(table.valid_entries()), [])
