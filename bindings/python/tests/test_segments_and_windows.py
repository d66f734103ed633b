"""Tests of the segment lookaside buffer and of DMA windows."""

import unittest

from support import GRANTS, needs_calls

from papr import Access, Answer, Code, DeviceAccess, DeviceOutcome, Flag, Outcome, Receipt, Reply, Segments, Slot
from papr import SlotRefusal, SlotRefused, Table, Want, Window


@needs_calls
class OfSegments(unittest.TestCase):
    """Segments."""

    def test_what_slbmte_refuses(self) -> None:
        refused = {
            (0x18000003, 0x5E10): SlotRefusal.PAGE_SIZE,
            (0x18000003, 0x8000000000005E00): SlotRefusal.SEGMENT_SIZE,
            (0x18000020, 0x5E00): SlotRefusal.SLOT,
        }
        for words, refusal in refused.items():
            with self.assertRaises(SlotRefused) as caught:
                Segments().slbmte(*words)
            self.assertEqual(caught.exception.refusal, refusal)

    def test_slots(self) -> None:
        segments = Segments()
        segments.slbmte(0x18000003, 0x5D00)
        self.assertEqual(segments.find(0x12345678), Slot(1, 5, 24, False, True, True, False))
        self.assertIsNone(segments.find(0x2345678))
        segments.slbmte(0x0000010008000001, 0x4000000007000A00)
        found = segments.find(0x1FFFFFFFFFF)
        assert found is not None
        self.assertEqual((found.vsid, found.shift), (7, 12))
        self.assertEqual((found.one_tb, found.ks, found.kp, found.no_execute), (True, True, False, True))
        segments.slbmte(3, 0)
        self.assertIsNone(segments.find(0x12345678))
        segments.clear()
        self.assertIsNone(segments.find(0x1FFFFFFFFFF))

    def test_an_access_in_a_segment(self) -> None:
        segments, table = Segments(), Table(18, GRANTS)
        segments.slbmte(0x8000000, 0x1400)  # VSID 1, Kp
        table.h_enter(Flag.EXACT, 0x20, 0x1001, 0x3011)
        slot = segments.find(0x5678)
        assert slot is not None
        self.assertEqual(slot.access(0x5678), Access(0x5678, 1))
        user = slot.access(0x5678, Want.STORE, problem_state=True)
        self.assertEqual(user, Access(0x5678, 1, Want.STORE, key=True))
        self.assertEqual(table.walk(slot.access(0x5678, Want.STORE)).outcome, Outcome.AT)
        self.assertEqual(table.walk(user).outcome, Outcome.DENIED)


@needs_calls
class OfWindows(unittest.TestCase):
    """A window of three pages."""

    def setUp(self) -> None:
        self.window = Window(0x7000, 3, GRANTS)

    def test_a_tce_and_what_a_device_reaches_by_it(self) -> None:
        put = Receipt(1, 0, 0, Answer.NOTFOUND, 0, 0)
        reply = self.window.put_tce(0x8123, 0x4001)
        self.assertEqual(reply, Reply(Code.H_SUCCESS, (), (put, put._replace(answer=Answer.ENTERED)), False))
        self.assertEqual(self.window.get_tce(0x8000).words, (0x4001,))
        read = self.window.read(0x8123)
        self.assertEqual((read.outcome, read.address, len(read.receipts)), (DeviceOutcome.AT, 0x2000004123, 1))
        self.assertEqual(self.window.write(0x8123).outcome, DeviceOutcome.DENIED)
        self.assertEqual(self.window.write(0xA000), DeviceAccess(DeviceOutcome.NO_WINDOW, 0, ()))
        reply = self.window.put_tce(0x8000, 0)
        self.assertEqual((reply.code, reply.stale), (Code.H_SUCCESS, True))
        self.assertEqual(self.window.get_tce(0x8000).words, (0,))

    def test_refusals(self) -> None:
        self.assertEqual(self.window.put_tce(0x8000, 0x100001).code, Code.H_PARAMETER)
        self.assertEqual(self.window.put_tce(0x6000, 0x4001).code, Code.H_PARAMETER)
        self.assertEqual(Window(0x7001, 3).get_tce(0x8000).code, Code.H_PARAMETER)
        self.assertEqual(Window(0x7001, 3).read(0x8000).outcome, DeviceOutcome.PARAMETER)
        for pages in (0, 16_385):
            with self.assertRaises(ValueError):
                Window(0, pages)
