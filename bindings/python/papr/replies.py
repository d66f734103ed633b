"""The replies of papr as records: one for each reply, and in it one for each receipt."""

import re
from collections.abc import Iterable, Iterator
from typing import NamedTuple, Optional

from .errors import BadReplies
from .numbers import ENTRIES, ORDERS, PROCESSORS, WORDS, decimal, hexadecimal
from .records import CHANGED, REFERENCED

CHANGES = ("entered", "removed", "protected", "was", "at")
COMMIT = "H_RESIZE_HPT_COMMIT"
ON_WINDOWS = ("H_PUT_TCE", "H_GET_TCE", "dmaread", "dmawrite")
TABLE, WINDOW = "table", "window"
A_GROUP = 8  # entries

RECEIPT = re.compile(r"(?<!\S)0x([0-9a-f]{1,16})\.([0-9]{1,20})\.([0-3])\.([a-z]+)(?!\S)")
SHOWN = 60  # characters of a line in a message


class Mark(NamedTuple):
    """What a reply shows of a receipt: the entry, its stamp, R (2) and C (1) before, and the answer."""

    entry: int
    stamp: int
    bits: int
    answer: str

    def __str__(self) -> str:
        return f"{self.entry:#x}.{self.stamp}.{self.bits}.{self.answer}"


class ReceiptRow(NamedTuple):
    """A receipt as a row of a database: numbers and texts, and no name is a word of SQL."""

    resizes: int  # how many resizes were committed before
    line: int
    cpu: int
    call: str
    entry: int
    pteg: Optional[int]  # the entry's group; none of a window's entry
    stamp: int
    referenced: int  # R before
    changed: int  # C before
    answer: str
    changes: int  # 1 if the entry is another afterwards
    store: str


class ReplyRow(NamedTuple):
    """A reply as a row of a database, with the number of its receipts."""

    resizes: int
    line: int
    cpu: Optional[int]
    call: str
    ending: str
    words: str
    receipts: int
    store: str


class Receipt(NamedTuple):
    """One receipt: who made it by which call, the entry's state before, and what it answered."""

    table: int  # how many resizes were committed before
    line: int
    cpu: int
    call: str
    entry: int
    stamp: int
    bits: int
    answer: str
    store: str  # which the entry is of: the page `table`, or a DMA `window`

    @property
    def bits_after(self) -> Optional[int]:
        """R (2) and C (1) after, or nothing where this receipt alone doesn't say."""
        if self.answer == "removed":
            return 0
        if self.answer == "at":
            return self.bits | (3 if self.call == "store" else 2)
        if self.answer == "was":
            cleared = {"H_CLEAR_REF": REFERENCED, "H_CLEAR_MOD": CHANGED}.get(self.call)
            return None if cleared is None else self.bits & ~cleared
        return None if self.answer == "entered" else self.bits

    @property
    def is_change(self) -> bool:
        """Whether the entry is another afterwards."""
        if self.answer == "at":
            return self.bits_after != self.bits
        return self.answer in CHANGES

    @property
    def is_valid_after(self) -> Optional[bool]:
        """Whether the entry is valid after, or nothing where this receipt alone doesn't say."""
        if self.answer in ("entered", "taken", "protected", "was", "at", "denied", "masked"):
            return True
        return False if self.answer == "removed" else None

    @property
    def place(self) -> tuple[int, int, int, bool]:
        """Where it is in the entry's history."""
        return self.table, self.stamp, self.bits.bit_count(), self.is_change

    @property
    def row(self) -> ReceiptRow:
        """As a row of a database."""
        return ReceiptRow(
            self.table,
            self.line,
            self.cpu,
            self.call,
            self.entry,
            self.entry // A_GROUP if self.store == TABLE else None,
            self.stamp,
            int(self.bits & REFERENCED != 0),
            int(self.bits & CHANGED != 0),
            self.answer,
            int(self.is_change),
            self.store,
        )

    def __str__(self) -> str:
        return (
            f"line {self.line}, processor {self.cpu}: {self.call} {self.answer}; before: stamp "
            f"{self.stamp}, R {self.bits >> 1}, C {self.bits & 1}"
        )


class Shown(NamedTuple):
    """An entry as a dump shows it, with R and C."""

    entry: int
    dword0: int
    dword1: int
    stamp: int


class Reply(NamedTuple):
    """One reply: the line of the trace, its call or access, how it ended, and its receipts."""

    table: int  # how many resizes were committed before
    line: int
    cpu: Optional[int]  # none of a dump
    call: str
    # A code; of an access `at`, `denied`, `masked`, `nopage`, `nosegment`, of a device's `at`,
    # `denied`, `nowindow`; `ok`, `refused`.
    ending: str
    words: list[str]
    receipts: list[Receipt]
    store: str = TABLE  # which all receipts are of

    @property
    def of_table(self) -> list[Receipt]:
        """The receipts of the page table's entries: all of them, or none."""
        return self.receipts if self.store == TABLE else []

    @property
    def row(self) -> ReplyRow:
        """As a row of a database."""
        words = " ".join(self.words)
        place = self.table, self.line, self.cpu, self.call
        return ReplyRow(*place, self.ending, words, len(self.receipts), self.store)


def store_of(call: str, ending: str, words: list[str], answers: list[str]) -> str:
    """Which store a line is on. Of a call by its number the form of the reply says it."""
    is_on_window = call in ON_WINDOWS
    if call == "hcall" and answers:
        # Other calls that read or remove an entry, or find none, have other words or codes.
        is_get = (answers, len(words)) == (["read"], 1)
        is_put = answers[0] in ("removed", "notfound") and not words and ending in ("0", "1")
        is_on_window = is_get or is_put
    return WINDOW if is_on_window else TABLE


def mark_of(word: str) -> Optional[Mark]:
    """The mark `ENTRY.STAMP.BITS.ANSWER`, or nothing if the word is none."""
    found = RECEIPT.fullmatch(word)
    if found is None:
        return None
    mark = Mark(int(found[1], 16), int(found[2]), int(found[3]), found[4])
    return mark if mark.entry < ENTRIES and mark.stamp < WORDS else None


def bad(what: str, text: str) -> BadReplies:
    """That a text isn't what it should be."""
    return BadReplies(f"this is no {what}: {text.strip()[:SHOWN]}")


def has_bounds(receipt: Receipt) -> bool:
    """Whether a trace's table may have such an entry, with such a stamp."""
    return receipt.entry < ENTRIES and receipt.stamp < WORDS


def dump_of(text: str, table: int, line: int, words: list[str]) -> Reply:
    """The reply to a dump: `table T order S place P entries K`."""
    names, values = words[0::2], words[1::2]
    if names != ["table", "order", "place", "entries"] or len(values) != len(names):
        raise bad("reply", text)
    numbers = decimal(values[0]), decimal(values[1]), hexadecimal(values[2]), decimal(values[3])
    if None in numbers or numbers[1] not in ORDERS:
        raise bad("reply", text)
    return Reply(table, line, None, "dump", "ok", words, [])


def reply_of(text: str, table: int) -> Reply:
    """The reply that a line of the output has."""
    head, _, tail = text.partition(" |")
    words = head.split()
    line = decimal(words[0]) if len(words) >= 4 else None
    if line is None:
        raise bad("reply", text)
    if words[1] == "dump":
        return dump_of(text, table, line, words[2:])
    cpu, call = decimal(words[1], PROCESSORS), words[2]
    if cpu is None or call == "dump":  # no processor makes a dump
        raise bad("reply", text)
    found = RECEIPT.findall(tail)
    store = store_of(call, words[3], words[4:], [answer for *_state, answer in found])
    receipts = [
        Receipt(table, line, cpu, call, int(entry, 16), int(stamp), int(bits), answer, store)
        for entry, stamp, bits, answer in found
    ]
    if len(receipts) < len(tail.split()) or not all(map(has_bounds, receipts)):
        raise bad("reply", text)
    return Reply(table, line, cpu, call, words[3], words[4:], receipts, store)


def shown_of(line: str) -> Shown:
    """The entry that a further line of a dump shows."""
    words = line.split()
    if len(words) != 4:
        raise bad("entry of a dump", line)
    entry, dword0, dword1 = hexadecimal(words[0], ENTRIES), hexadecimal(words[1]), hexadecimal(words[2])
    stamp = decimal(words[3])
    if entry is None or dword0 is None or dword1 is None or stamp is None:
        raise bad("entry of a dump", line)
    return Shown(entry, dword0, dword1, stamp)


def replies_of(text: Iterable[str]) -> Iterator[tuple[Reply, list[Shown]]]:
    """Each reply in the order of the trace; a dump with the entries that it shows."""
    table = 0
    dump: Optional[Reply] = None
    shown: list[Shown] = []
    for line in text:
        if line.startswith("papr: "):
            raise BadReplies(f"these are no replies: {line.strip()}")
        if line.startswith(" ") and dump is not None:
            shown.append(shown_of(line))
            continue
        if dump is not None:
            yield dump, shown
        reply = reply_of(line, table)
        dump, shown = (reply, []) if reply.call == "dump" else (None, [])
        if dump is None:
            yield reply, []
        if (reply.call, reply.ending) == (COMMIT, "0"):
            table += 1
    if dump is not None:
        yield dump, shown


class Replies:
    """The replies to a trace: a text, and records of it."""

    def __init__(self, text: str) -> None:
        """The replies that a text has; `papr.run` gives them, or another program wrote them."""
        self.text = text

    def __str__(self) -> str:
        return self.text

    def __iter__(self) -> Iterator[Reply]:
        """Each reply, in the order of the trace."""
        return (reply for reply, _ in self.with_entries())

    def with_entries(self) -> Iterator[tuple[Reply, list[Shown]]]:
        """Each reply, and of a dump the entries that it shows."""
        return replies_of(self.text.splitlines())

    def receipts(self) -> Iterator[Receipt]:
        """Each receipt of each reply."""
        return (receipt for reply in self for receipt in reply.receipts)

    def rows(self) -> Iterator[ReplyRow]:
        """The replies as rows of a database."""
        return (reply.row for reply in self)

    def receipt_rows(self) -> Iterator[ReceiptRow]:
        """The receipts as rows of a database."""
        return (receipt.row for receipt in self.receipts())
