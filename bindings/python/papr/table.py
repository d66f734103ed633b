"""The hashed page table: the calls on its entries, the walk, the rehash and the resize calls."""

from collections.abc import Iterable, Iterator
from ctypes import sizeof
from mmap import MAP_ANONYMOUS, MAP_PRIVATE, mmap
from typing import Any, Optional

from ._calls import Calls
from ._library import function
from ._room import Room
from ._structs import U8, U32, CAccess, CEntry, CResize
from .codes import Code, Layout, Right, TransferRefusal
from .errors import TransferRefused
from .grants import Grants, grants_of
from .records import Access, Entry, Grant, Page, Rehash, Reply, Taken, Walk
from .records import entry_of, page_of, rehash_of, struct_of

ORDERS = range(18, 35)
AN_ENTRY = 16  # bytes, in a guest's table and in an export
NO_ENTRIES = (CEntry * 0)()


def entries_of(order: int) -> Any:
    """The empty entries of a table of 2^order bytes; MemoryError where there is no memory for them."""
    if order not in ORDERS:
        raise ValueError(f"the order is from {ORDERS[0]} to {ORDERS[-1]}, and not {order}")
    entries = CEntry * ((1 << order) // AN_ENTRY)
    try:
        # Memory that is made as it is touched: a large table of which little is used is a small one. It is private:
        # after a fork each process has entries of its own.
        memory = mmap(-1, sizeof(entries), flags=MAP_PRIVATE | MAP_ANONYMOUS)
    except OSError as error:
        raise MemoryError(f"there is no memory for a table of 2^{order} bytes") from error
    return entries.from_buffer(memory)


class Table(Calls):
    """A table of 2^order bytes with its entries, and the memory that is granted to its guest.

    One call at a time: threads take a lock of their own, or a SharedTable. While it is shared, the table itself
    has no entries, and its calls answer H_PARAMETER. After a fork parent and child have a table each. A copy, by
    `copy` or by `pickle`, is a table of its own too; TypeError while the table is shared.

    >>> table = Table(18, [Grant(0x0, 0x2000000000, 0x40000000)])
    >>> print(table.h_enter(Flag.EXACT, 0x27, 0x1001, 0x3012))
    0 0x27 | 0x27.0.0.entered
    """

    def __init__(self, order: int = 18, grants: "Grants | Iterable[Grant]" = ()) -> None:
        """An empty table. MemoryError: there is no memory for its entries, which take 24 bytes each."""
        self._order, self._entries = order, entries_of(order)
        self.grants = grants_of(grants)
        self._pending, self._pending_entries = CResize(), NO_ENTRIES
        self._room = Room()

    # ---- copies

    def __getstate__(self) -> dict[str, Any]:
        """What a copy is made of: the memory that calls write is there as bytes."""
        if not self._entries:
            raise TypeError(f"a {type(self).__name__} can't be copied or pickled while it is shared")
        memory = {name: bytes(getattr(self, name)) for name in ("_entries", "_pending", "_pending_entries")}
        return {**vars(self), **memory, "_room": None}

    def __setstate__(self, state: dict[str, Any]) -> None:
        """Makes a copy, with memory of its own."""
        vars(self).update(state, _room=Room(), _pending=CResize.from_buffer_copy(state["_pending"]))
        for name in ("_entries", "_pending_entries"):
            data = state[name]
            setattr(self, name, (CEntry * (len(data) // sizeof(CEntry))).from_buffer_copy(data))

    # ---- entries

    @property
    def order(self) -> int:
        """The table has 2^order bytes."""
        return self._order

    def __len__(self) -> int:
        """How many entries there are."""
        return len(self._entries)

    def __getitem__(self, index: int) -> Entry:
        """An entry."""
        if not 0 <= index < len(self):
            raise IndexError(f"there is no entry {index:#x}")
        return entry_of(self._entries[index])

    def __iter__(self) -> Iterator[Entry]:
        """All entries."""
        return map(entry_of, self._entries)

    def valid_entries(self) -> Iterator[tuple[int, Entry]]:
        """The valid entries, each with its index, in rising order."""
        return ((at, entry_of(it)) for at, it in enumerate(self._entries) if it.valid)

    def page(self, index: int) -> Page:
        """What an entry says."""
        return decode(self._order, index, *self[index].doublewords)

    def _exchange_entries(self, entries: Any = NO_ENTRIES) -> Any:
        """Takes the entries out of the table, and puts these in."""
        taken, self._entries = self._entries, entries
        return taken

    @property
    def _table(self) -> tuple[Any, int, int]:
        """What the library takes for the table."""
        entries = self._entries  # once: the collector may give the entries of a shared table back in between
        return entries, len(entries), self._order

    # ---- the calls

    def _call(self, name: str, *arguments: Any) -> Reply:
        """A call that takes the table and these arguments."""
        return self._room.reply_of(function(f"papr_{name}")(*self._table, *arguments, *self._room.for_both))

    def _call_by_number(self, number: int, words: Any) -> Reply:
        """A call by its number, whose words are put over the arguments."""
        given = (self.grants.c_list, number, *self._room.with_arguments(words))
        return self._room.reply_of(function("papr_hcall")(*self._table, *given))

    # ---- the walk

    def walk(self, access: Access) -> Walk:
        """Walks the page's groups, and records an access that is allowed in R and C."""
        given = struct_of(CAccess, access)
        return self._room.walk_of(function("papr_walk")(*self._table, given, *self._room.for_receipts))

    def probe(self, access: Access) -> Walk:
        """What a walk would find, in the entries as they are: it changes none."""
        return self._room.walk_of(function("papr_probe")(*self._table, struct_of(CAccess, access)))

    # ---- which entries changed

    def take_changed(self, first: int = 0, room: Optional[int] = None) -> Taken:
        """The entries from `first` on that were changed since their marks were last taken, `room` of them at most.

        Takes the marks of those that it tells.
        """
        if not 0 <= first <= len(self):
            raise IndexError(f"there is no entry {first:#x}")
        most = len(self) - first
        indexes = (U32 * (most if room is None else min(room, most)))()
        taken = function("papr_take_changed")(*self._table, first, indexes, len(indexes))
        return Taken(tuple(indexes[: taken.count]), taken.next)

    # ---- the rehash and the resize calls

    def rehashed(self, order: int) -> tuple[Rehash, "Table"]:
        """A table of another order with the bolted entries of this one; at H_PTEG_FULL it is empty.

        MemoryError: there is no memory for a table of that order.
        """
        into = Table(order, self.grants)
        return rehash_of(function("papr_rehash")(*self._table, *into._table)), into

    def h_resize_hpt_prepare(self, flags: int, shift: int, limit: int = ORDERS[-1]) -> Code:
        """H_RESIZE_HPT_PREPARE: makes 16,384 more entries of a pending table ready; `limit` is the highest shift.

        No memory is taken for a call that is refused. H_NO_MEM: there is none for a table of 2^shift bytes.
        """
        if self._is_pending(shift):
            return self._prepare(flags, shift, limit, self._pending_entries)
        # Without entries the library answers H_NO_MEM to a call that it doesn't refuse, and nothing is pending then.
        answer = self._prepare(flags, shift, limit, NO_ENTRIES)
        if answer is not Code.H_NO_MEM:
            return answer
        try:
            return self._prepare(flags, shift, limit, entries_of(shift))
        except MemoryError:
            return Code.H_NO_MEM

    def _prepare(self, flags: int, shift: int, limit: int, into: Any) -> Code:
        """The same call with these entries for the pending table."""
        answer = function("papr_resize_prepare")(self._pending, limit, flags, shift, into, len(into))
        if self._is_pending(shift):
            self._pending_entries = into
        self._free_what_is_not_pending()
        return Code(answer)

    def _free_what_is_not_pending(self) -> None:
        """Frees the entries of a pending table that was dropped or committed."""
        if not self._pending.pending:
            self._pending_entries = NO_ENTRIES

    def _is_pending(self, shift: int) -> bool:
        """Whether a table of this order is pending."""
        return bool(self._pending.pending) and self._pending.order == shift

    def h_resize_hpt_commit(self, flags: int, shift: int) -> Rehash:
        """H_RESIZE_HPT_COMMIT: at H_SUCCESS the pending table is this one, with the bolted entries."""
        into = self._pending_entries
        call = function("papr_resize_commit")
        ended = rehash_of(call(self._pending, *self._table, into, len(into), flags, shift))
        if ended.code is Code.H_SUCCESS:
            self._order, self._entries = shift, into
        self._free_what_is_not_pending()
        return ended

    # ---- entries as bytes

    def export_entries(self, layout: Layout = Layout.OLD, first: int = 0, number: Optional[int] = None) -> bytes:
        """Entries from `first` on as 16 bytes each, R and C in them; all that follow where no number is given."""
        number = len(self) - first if number is None else number
        out = (U8 * (AN_ENTRY * max(0, min(number, len(self)))))()  # for more the library refuses it
        made = function("papr_export")(*self._table, layout, first, number, out, len(out))
        raise_for_transfer(made)
        return bytes(out)

    def import_entries(self, data: bytes, layout: Layout = Layout.OLD, first: int = 0) -> None:
        """Reads entries of 16 bytes into the table from `first` on; all, or none where one is refused."""
        number, rest = divmod(len(data), AN_ENTRY)
        if rest:
            raise ValueError(f"an entry is {AN_ENTRY} bytes, and these are {len(data)}")
        given = (U8 * len(data)).from_buffer_copy(data)
        call = function("papr_import")
        made = call(*self._table, self.grants.c_list, layout, first, number, given, len(given))
        raise_for_transfer(made)


def raise_for_transfer(made: Any) -> None:
    """Raises what a refused transfer says."""
    if made.refusal:
        raise TransferRefused(made.index, TransferRefusal(made.refusal))


def decode(order: int, ptex: int, dword0: int, dword1: int) -> Page:
    """Decodes the doublewords of an entry, as H_READ, a receipt or a walk has them, at an index of a table."""
    return page_of(function("papr_decode")(order, ptex, dword0, dword1))


def rights(protection: int, key: bool) -> Right:
    """What protection bits allow an access with this key: READ and WRITE."""
    return Right(function("papr_rights")(protection, key))


def library_version() -> tuple[int, int, int]:
    """The version of libpapr.so.0."""
    number = function("papr_version")()
    return number >> 16, number >> 8 & 0xFF, number & 0xFF
