"""What the accesses of a processor ask of which entries: its segments, its masks, and the groups of a page."""

from dataclasses import dataclass, field
from typing import NamedTuple, Optional

from entry_states import SECONDARY, VALID, Access
from numerals import number_of
from timed import Call

A_GROUP = 8
SLOTS, SLOT_VALID = 2**12, 0x0800_0000
BASE_SHIFTS = {0x000: 12, 0x110: 16, 0x100: 24, 0x120: 34}
SETS, LINES = 32, 4  # of a processor's cache


class Page(NamedTuple):
    """A page of the virtual address space."""

    one_tb: bool
    vsid: int
    shift: int
    number: int  # in the segment

    @property
    def tag(self) -> int:
        """B, the abbreviated virtual page number and V, as doubleword 0 has them."""
        address = self.vsid << (40 if self.one_tb else 28) | self.number << self.shift
        return self.one_tb << 62 | address >> 16 & 0x3FFF_FFFF_FFFF_FF80 | VALID

    def groups(self, order: int) -> tuple[int, int]:
        """The primary and the secondary group in a table of 2^order bytes."""
        mask = (1 << order - 7) - 1
        mixed = self.vsid ^ self.number ^ (self.vsid << 25 if self.one_tb else 0)
        return mixed & mask, ~mixed & mask


class Slot(NamedTuple):
    """A valid slot of the segment lookaside buffer."""

    esid: int
    one_tb: bool
    vsid: int
    shift: int
    key: tuple[bool, bool]  # Ks and Kp
    no_execute: bool

    def covers(self, ea: int) -> bool:
        """Whether the segment has the address."""
        return ea >> 40 == self.esid >> 12 if self.one_tb else ea >> 28 == self.esid

    def page(self, ea: int) -> Page:
        """The page of an address."""
        offset = ea & (1 << (40 if self.one_tb else 28)) - 1
        return Page(self.one_tb, self.vsid, self.shift, offset >> self.shift)


class Tried(NamedTuple):
    """What an access tries: the page, and the operation on each entry of its groups in turn."""

    page: Page
    operations: list[tuple[int, Access]]


@dataclass
class Processor:
    """Its slots and its masks."""

    slots: dict[int, Slot] = field(default_factory=dict)
    masks: dict[str, int] = field(default_factory=lambda: {"amr": 0, "iamr": 0})

    def follow(self, call: Call) -> None:
        """Goes on by a line that changes a slot or a mask."""
        if call.words[1] == "slbclear":
            self.slots.clear()
        elif call.words[1] in self.masks:
            self.masks[call.words[1]] = number_of(call.words[2])
        elif call.words[1] == "slbmte" and call.told == ["ok"]:
            self.put(*map(number_of, call.words[2:4]))

    def put(self, rb: int, rs: int) -> None:
        """What an slbmte makes of a slot."""
        self.slots.pop(rb % SLOTS, None)
        shift = BASE_SHIFTS.get(rs & 0x130)
        if rb & SLOT_VALID and shift is not None:
            one_tb = rs >> 62 == 1
            vsid = (rs & 2**62 - 1) >> (24 if one_tb else 12)
            key = bool(rs & 0x800), bool(rs & 0x400)
            self.slots[rb % SLOTS] = Slot(rb >> 28, one_tb, vsid, shift, key, bool(rs & 0x200))

    def tries(self, call: Call, order: int) -> Optional[Tried]:
        """What an access tries in a table of this order, or nothing where no segment has its address."""
        ea, is_user = number_of(call.words[2]), call.words[3] == "user"
        slot = next((self.slots[at] for at in sorted(self.slots) if self.slots[at].covers(ea)), None)
        if slot is None:
            return None
        page = slot.page(ea)
        asked = (slot.key[is_user], slot.no_execute, self.masks["amr"], self.masks["iamr"], ea)
        operations = [
            (group * A_GROUP + at, Access(page.tag | secondary, page.shift, call.words[1], *asked))
            for group, secondary in zip(page.groups(order), (0, SECONDARY))
            for at in range(A_GROUP)
        ]
        return Tried(page, operations)
