"""The arrays for words and receipts that a table, a pass or a window lends to its calls."""

from typing import Any

from ._structs import U64, CReceipt, CReply, CWalk
from .codes import Cause, Code, Outcome, Right
from .records import Receipt, Reply, Walk, receipt_of

WORDS, RECEIPTS = 8, 16  # the most that a call gives


class Room:
    """Places for a call's words and receipts, which the next call uses again."""

    def __init__(self) -> None:
        self.words = (U64 * WORDS)()
        self.receipts = (CReceipt * RECEIPTS)()
        self.for_receipts = (self.receipts, RECEIPTS)
        self.for_both = (self.words, WORDS, *self.for_receipts)

    def with_arguments(self, words: Any) -> tuple[Any, ...]:
        """What a call by its number takes, with its arguments in the places of the words."""
        self.words[:] = words[:]
        return (self.words, *self.for_receipts)

    def receipts_of(self, count: int) -> tuple[Receipt, ...]:
        """The first receipts."""
        return tuple([receipt_of(it) for it in self.receipts[:count]])

    def reply_of(self, it: CReply) -> Reply:
        """What a call answered, with its words and receipts."""
        return Reply(Code(it.rc), tuple(self.words[: it.words]), self.receipts_of(it.receipts), it.stale)

    def walk_of(self, it: CWalk) -> Walk:
        """What a walk or a probe found, with its receipts."""
        return Walk(
            Outcome(it.outcome),
            it.logical,
            it.entry,
            it.dword0,
            it.dword1,
            it.base_shift,
            it.actual_shift,
            Right(it.rights),
            Cause(it.causes),
            self.receipts_of(it.receipts),
        )
