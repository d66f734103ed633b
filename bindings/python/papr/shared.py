"""A table that threads share: each makes calls and walks on a pass of its own, at once with the others."""

import threading
import time
from collections.abc import Callable
from functools import partial
from types import TracebackType
from typing import Any, Optional, ParamSpec, TypeVar, cast
from weakref import ref

from ._calls import Calls
from ._library import function
from ._opened import Opened, PassOut
from ._owned import NotCopied
from ._room import Room
from ._structs import CAccess, CPass, CWalk
from .codes import Code, Hold
from .errors import Busy, PassRefused
from .grants import Grants
from .records import Access, HeldUp, Reply, Walk, held_up_of, struct_of
from .table import Table

MOST_PASSES = 63  # the library has 64 shares, and the table keeps one
WALK_BUSY = 6  # an outcome of the library, beside those of Outcome
SPINS, YIELDS = 16, 64  # tries before the first yield, and before the first sleep
A_SLEEP = 50e-6  # seconds

Arguments = ParamSpec("Arguments")
Answer = TypeVar("Answer", Reply, Walk)


def give_way(tries: int) -> None:
    """Lets the thread go on that is at an entry: at first at once, then by yields, and then by sleeps."""
    if tries > YIELDS:
        time.sleep(A_SLEEP)
    elif tries > SPINS:
        time.sleep(0)


class SharedTable(NotCopied):
    """The entries of a table, for several threads at once with no lock around the calls.

    It takes the entries of the table, and close() gives them back as the threads left them. In between the table
    has none. split() and close() may be called by any thread. If nobody has it and its passes any more, the entries
    go back by themselves.

    >>> table = Table(18, [Grant(0x0, 0x2000000000, 0x40000000)])
    >>> with SharedTable(table) as shared, shared.split() as mine:
    ...     print(mine.finish(mine.h_enter, Flag.EXACT, 0x27, 0x1001, 0x3012))
    0 0x27 | 0x27.0.0.entered
    """

    def __init__(self, table: Table, passes: int = MOST_PASSES) -> None:
        """Opens it for so many passes at once, 1 to 63.

        PassRefused: H_NO_MEM, or H_PARAMETER if the table is shared already.
        """
        if not 1 <= passes <= MOST_PASSES:
            raise ValueError(f"a shared table has 1 to {MOST_PASSES} passes, and not {passes}")
        self._table, self._opened = table, Opened(table, passes)

    @property
    def grants(self) -> Grants:
        """The memory that is granted to the guest of the table."""
        return self._table.grants

    @property
    def is_open(self) -> bool:
        """Whether it isn't closed yet."""
        return self._opened.is_open

    def split(self) -> "Pass":
        """A new pass.

        PassRefused: H_RESOURCE if all passes are out, H_NO_MEM, or H_PARAMETER if the table is closed.
        """
        made = Pass(self._opened, self.grants)
        self._opened.split(PassOut(ref(made), made._pass, made._lock))
        return made

    def close(self) -> None:
        """Gives the entries back; nothing if it is closed. PassRefused: H_RESOURCE if passes are out."""
        self._opened.close()

    def __enter__(self) -> "SharedTable":
        return self

    def __exit__(
        self,
        kind: Optional[type[BaseException]],
        error: Optional[BaseException],
        trace: Optional[TracebackType],
    ) -> None:
        """Closes it. If an error is on its way and passes are out, it stays open."""
        try:
            self.close()
        except PassRefused:
            if error is None:
                raise


class Pass(NotCopied, Calls):
    """The right of one thread to work on a shared table: its calls and walks are those of Table.

    If another thread is at an entry, a call raises Busy. The pass keeps the call then, and again() goes on with
    it; until it has ended, other calls answer H_PARAMETER. finish() makes a call and goes on until it has ended. A
    call on a pass that is joined answers H_PARAMETER. If threads use one pass, they wait for each other. A pass
    that nobody has any more goes back to the table by itself, and a call that it had to go on with is given up.
    """

    def __init__(self, opened: Opened, grants: Grants) -> None:
        """A pass that is closed; SharedTable.split() calls this, and opens it."""
        self._opened, self._pass, self._room, self._lock = opened, CPass(), Room(), threading.Lock()
        self.grants = grants

    # ---- the calls

    def _call(self, name: str, *arguments: Any) -> Reply:
        """A call on the pass with these arguments."""
        made = function(f"papr_try_{name}")
        with self._lock:
            return self._reply_of(made(self._pass, *arguments, *self._room.for_both))

    def _call_by_number(self, number: int, words: Any) -> Reply:
        """A call by its number, whose words are put over the arguments."""
        made = function("papr_try_hcall")
        with self._lock:
            given = (self.grants.c_list, number, *self._room.with_arguments(words))
            return self._reply_of(made(self._pass, *given))

    def again(self) -> Reply:
        """Goes on with the call that was busy, at the same entry; H_PARAMETER if there is none.

        The answer is that of the whole call, with the words and receipts of earlier tries.
        """
        with self._lock:
            return self._reply_of(function("papr_again")(self._pass, *self._room.for_both))

    def _reply_of(self, it: Any) -> Reply:
        """What the call answered, if it has ended."""
        reply = self._room.reply_of(it)
        if reply.code is Code.H_BUSY:
            raise Busy(self._held_up(), reply.words, reply.receipts, reply.stale)
        return reply

    # ---- the walk

    def walk(self, access: Access) -> Walk:
        """Walks the page's groups, and records an access that is allowed in R and C."""
        given = struct_of(CAccess, access)
        with self._lock:
            return self._walk_of(function("papr_try_walk")(self._pass, given, *self._room.for_receipts))

    def walk_again(self) -> Walk:
        """Goes on with the walk that was busy. Outcome PARAMETER: there is none."""
        with self._lock:
            return self._walk_of(function("papr_walk_again")(self._pass, *self._room.for_receipts))

    def _walk_of(self, it: CWalk) -> Walk:
        """What the walk found, if it has ended."""
        if it.outcome == WALK_BUSY:
            raise Busy(self._held_up(), (), self._room.receipts_of(it.receipts), False)
        return self._room.walk_of(it)

    # ---- a call that is busy

    def finish(
        self,
        call: Callable[Arguments, Answer],
        *arguments: Arguments.args,
        **named: Arguments.kwargs,
    ) -> Answer:
        """Makes a call or a walk of this pass, and goes on with it until it has ended, however long that takes.

        The first 16 tries follow each other at once; up to the 64th it yields the processor in between, and then it
        sleeps for 50 microseconds.

        >>> print(mine.finish(mine.h_read, 0, 0x27))
        0 0x1001 0x3012 | 0x27.1.0.read
        """
        tried: Callable[[], Answer] = partial(call, *arguments, **named)
        tries = 0
        while True:
            try:
                return tried()
            except Busy as busy:
                go_on = self.walk_again if busy.held_up.hold is Hold.CHANGING else self.again
                tried = cast(Callable[[], Answer], go_on)
            tries += 1
            give_way(tries)

    def held_up(self) -> HeldUp:
        """What holds up the call of this pass, and how many of its operations are made."""
        with self._lock:
            return self._held_up()

    def _held_up(self) -> HeldUp:
        """The same for a thread that has the lock."""
        return held_up_of(function("papr_held_up")(self._pass))

    def give_up(self) -> None:
        """Drops the call that is busy, if there is one; what it has made stays made.

        It is for a processor that is reset.
        """
        with self._lock:
            function("papr_give_up")(self._pass)

    # ---- its end

    def join(self) -> None:
        """Gives the pass back to the table; nothing if it is back.

        PassRefused: H_BUSY if it has a call to go on with.
        """
        with self._lock:
            if self._pass.live:
                self._opened.join(self._pass)

    def __enter__(self) -> "Pass":
        return self

    def __exit__(self, *_error: object) -> None:
        """Gives up the call that is busy, if there is one, and gives the pass back."""
        self.give_up()
        self.join()
