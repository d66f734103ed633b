"""The library's part of a shared table: it knows all passes that are out, and gives the entries back in the end."""

import sys
import threading
from collections.abc import Callable
from typing import NamedTuple
from weakref import ref

from ._library import function
from ._structs import CPass
from .codes import Code
from .errors import PassRefused
from .table import Table


def raise_for_pass(what: str, code: int) -> None:
    """Raises why the library refuses this."""
    if code != Code.H_SUCCESS:
        raise PassRefused(what, Code(code))


class PassOut(NamedTuple):
    """A pass that is out, or that was: as its user has it, and as the library does."""

    user: "ref[object]"
    made: CPass
    lock: threading.Lock  # held during a call, in which the library has the pass and it looks closed

    def is_given_back(self, root: CPass) -> bool:
        """Gives it back to the table's own pass, and its call up. Not if a finaliser is in a call on it even now."""
        if not self.lock.acquire(blocking=False):
            return False
        try:
            if self.made.live:
                function("papr_give_up")(self.made)
                raise_for_pass("a pass isn't joined", function("papr_join")(root, self.made))
        finally:
            self.lock.release()
        return True


class Opened:
    """A table of the library that has the entries of a Table, and the passes of it that are out.

    A shared table and its passes have it together. When nobody has it any more, it takes all passes back, and gives
    the entries back; so in a cycle it doesn't matter what the collector finalises first.
    """

    def __init__(self, table: Table, passes: int) -> None:
        """Opens it for so many passes at once beside its own. PassRefused: the table has its entries still."""
        self._root, self._lock = CPass(), threading.Lock()
        self._out: list[PassOut] = []
        call = function("papr_open")
        self._table, self._entries = table, table._exchange_entries()
        try:
            code = call(self._entries, len(self._entries), table.order, passes + 1, self._root)
            raise_for_pass("the table isn't shared", code)
        finally:
            # If there were none, another shared table has them, and may give them back at any time.
            if self._entries and not self._root.live:
                table._exchange_entries(self._entries)

    @property
    def is_open(self) -> bool:
        """Whether it isn't closed yet."""
        with self._lock:
            return bool(self._root.live)

    def split(self, out: PassOut) -> None:
        """Makes a closed pass one of this table. It is taken back when its user has gone."""
        with self._lock:
            self._take_back_what_is_left()
            self._out.append(out)
            raise_for_pass("there is no other pass", function("papr_split")(self._root, out.made))

    def join(self, made: CPass) -> None:
        """Takes a pass back."""
        with self._lock:
            raise_for_pass("the pass isn't joined", function("papr_join")(self._root, made))

    def close(self) -> None:
        """Gives the entries back; nothing if it is closed."""
        with self._lock:
            if self._root.live:
                self._take_back_what_is_left()
                self._close()

    def _close(self) -> None:
        """The same of a table that is open, where all passes are back that will be."""
        code = function("papr_close")(self._root, self._entries, len(self._entries))
        raise_for_pass("the table isn't closed", code)
        self._table._exchange_entries(self._entries)

    def _take_back_what_is_left(self) -> None:
        """Takes back the passes that nobody has any more."""
        self._out = [it for it in self._out if it.user() is not None or not it.is_given_back(self._root)]

    def __del__(self, is_ending: Callable[[], bool] = sys.is_finalizing) -> None:
        """Gives all back; without the lock, which nobody else can have. When Python ends, all ends with it."""
        if self._root.live and not is_ending():
            self._out = [it for it in self._out if not it.is_given_back(self._root)]
            self._close()
