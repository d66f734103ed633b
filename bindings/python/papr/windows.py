"""DMA windows: the calls on translation control entries, and a device's access."""

from collections.abc import Iterable

from ._library import function
from ._owned import NotCopied
from ._room import Room
from ._structs import CEntry
from .codes import DeviceOutcome
from .grants import Grants, grants_of
from .records import DeviceAccess, Grant, Reply

PAGES = range(1, 16_385)


class Window(NotCopied):
    """A DMA window: an entry for each of its pages of 4,096 bytes, from the bus address `base` on."""

    def __init__(self, base: int, pages: int, grants: "Grants | Iterable[Grant]" = ()) -> None:
        """A window in which nothing is set."""
        if pages not in PAGES:
            raise ValueError(f"a window has {PAGES[0]} to {PAGES[-1]} pages, and not {pages}")
        self._base, self._entries = base, (CEntry * pages)()
        self.grants = grants_of(grants)
        self._room = Room()

    def __len__(self) -> int:
        """How many pages there are."""
        return len(self._entries)

    def put_tce(self, ioba: int, tce: int) -> Reply:
        """H_PUT_TCE: sets the entry of the page with this bus address, or empties it. No word."""
        given = (self.grants.c_list, ioba, tce, *self._room.for_receipts)
        call = function("papr_put_tce")
        return self._room.reply_of(call(self._entries, len(self), self._base, *given))

    def get_tce(self, ioba: int) -> Reply:
        """H_GET_TCE: the word is the page's entry, or 0 if none is set."""
        call = function("papr_get_tce")
        return self._room.reply_of(call(self._entries, len(self), self._base, ioba, *self._room.for_both))

    def read(self, ioba: int) -> DeviceAccess:
        """A device's read at a bus address."""
        return self._access(ioba, False)

    def write(self, ioba: int) -> DeviceAccess:
        """A device's write at a bus address."""
        return self._access(ioba, True)

    def _access(self, ioba: int, is_write: bool) -> DeviceAccess:
        """A device's access."""
        given = (self.grants.c_list, ioba, is_write, *self._room.for_receipts)
        ended = function("papr_device")(self._entries, len(self), self._base, *given)
        receipts = self._room.receipts_of(ended.receipts)
        return DeviceAccess(DeviceOutcome(ended.outcome), ended.address, receipts)
