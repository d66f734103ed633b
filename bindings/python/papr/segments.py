"""Segments: the segment lookaside buffer of a processor."""

from typing import Optional

from ._library import function
from ._owned import NotCopied
from ._structs import CSlb
from .codes import SlotRefusal
from .errors import SlotRefused
from .records import Slot, slot_of


class Segments(NotCopied):
    """A segment lookaside buffer of 32 slots, all invalid at first."""

    def __init__(self) -> None:
        """No segment."""
        self._slb = CSlb()

    def slbmte(self, rb: int, rs: int) -> None:
        """The instruction slbmte; SlotRefused says what is wrong with its words."""
        refusal = function("papr_slb_mte")(self._slb, rb, rs)
        if refusal:
            raise SlotRefused(SlotRefusal(refusal))

    def clear(self) -> None:
        """Makes all slots invalid."""
        function("papr_slb_clear")(self._slb)

    def find(self, ea: int) -> Optional[Slot]:
        """The slot of the segment in which an address lies."""
        found = function("papr_slb_find")(self._slb, ea)
        return slot_of(found) if found.valid else None
