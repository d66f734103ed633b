"""The doublewords of entries, as far as replies and their trace tell them."""

from typing import Iterable, Optional

from common import Bad
from decoding import Doublewords
from numerals import checked
from papr.numbers import hexadecimal
from replies import COMMIT, TABLE, Receipt, Reply, Shown
from traces import ORDERS, number_of, read_order, resize_of

ENTER, ENTER_NUMBER = "H_ENTER", 0x08


class Known:
    """Doublewords by table, entry and stamp: each change of an entry but that of R and C raises its stamp."""

    def __init__(self, trace: Optional[Iterable[str]] = None, order: Optional[int] = None) -> None:
        self._words: dict[tuple[int, int, int], Doublewords] = {}
        self._orders: dict[int, int] = {}
        self._trace: list[list[str]] = [line.split() for line in trace or []]
        for words in self._trace:
            if words[:1] == ["begin"]:
                self._orders.setdefault(0, ORDERS[0])
            elif words[:1] == ["order"]:
                self._orders[0] = checked(read_order, " ".join(words[1:]))
        if order is not None:
            self._orders[0] = order

    def take(self, reply: Reply, shown: list[Shown]) -> None:
        """What a reply tells, and its line of the trace."""
        for entry in shown:
            self._words[reply.table, entry.entry, entry.stamp] = entry.dword0, entry.dword1
        if reply.call == "dump":
            self._orders[reply.table] = order_of_dump(reply)
            return
        receipts = [it for it in reply.of_table if it.answer in ("removed", "read")]
        values = values_of(reply.words) if receipts else []
        if len(values) == 2 * len(receipts):
            for receipt, *words in zip(receipts, values[0::2], values[1::2]):
                self._words[reply.table, receipt.entry, receipt.stamp] = words[0], words[1]
        for receipt in reply.of_table:
            before = self._words.get((reply.table, receipt.entry, receipt.stamp))
            if receipt.answer == "was" and before is not None:  # R and C aside they stay
                self._words.setdefault((reply.table, receipt.entry, receipt.stamp + 1), before)
        if self._trace:
            self._take_line(reply, self._line(reply.line))

    def _line(self, number: int) -> list[str]:
        """The words of a line of the trace."""
        if not 1 <= number <= len(self._trace):
            raise Bad(f"the trace has no line {number}: these aren't its replies")
        return self._trace[number - 1]

    def _take_line(self, reply: Reply, words: list[str]) -> None:
        """What a line of the trace tells of its reply."""
        if (reply.call, reply.ending) == (COMMIT, "0"):
            resize = resize_of(words)
            if resize is not None and resize.shift in ORDERS:
                self._orders[reply.table + 1] = resize.shift
        first = 4 if words[1:2] == [ENTER] else 5
        if first == 5 and (words[1:2] != ["hcall"] or number_of(words, 2) != ENTER_NUMBER):
            return
        dword0, dword1 = number_of(words, first), number_of(words, first + 1)
        for receipt in reply.of_table:
            if receipt.answer == "entered" and dword0 is not None and dword1 is not None:
                self._words.setdefault((reply.table, receipt.entry, receipt.stamp + 1), (dword0, dword1))

    def order(self, table: int) -> Optional[int]:
        """The table's order."""
        return self._orders.get(table)

    def words(self, receipt: Receipt) -> Optional[Doublewords]:
        """The doublewords that the receipt is about: those before, or those that it entered."""
        stamp = receipt.stamp + (receipt.answer == "entered")
        return self._words.get((receipt.table, receipt.entry, stamp)) if receipt.store == TABLE else None


def order_of_dump(reply: Reply) -> int:
    """The table's order: a dump's words are `table T order S place P entries K`."""
    return int(reply.words[3])


def values_of(words: list[str]) -> list[int]:
    """The hexadecimal words of a reply."""
    given = [hexadecimal(word) for word in words if word.startswith("0x")]
    values = [value for value in given if value is not None]
    if len(values) < len(given):
        raise Bad(f"one of these words of a reply is no number: {' '.join(words)[:60]}")
    return values
