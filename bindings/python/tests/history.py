"""What threads did to a shared table, by their receipts, and whether it is one legal history of each entry."""

import random
from collections.abc import Iterable, Sequence
from typing import NamedTuple

from papr import Access, Answer, Entry, Flag, Receipt, Want

R, C, TAG, PROTECTION = 0x100, 0x80, ~0x7F, 7
GROUP = 4  # of the eight entries that all calls are on
PAGES = 8  # that the group is for, of segments 1 to 8
KINDS = {"h_enter": 20, "h_remove": 20, "h_protect": 8, "h_read": 12, "h_clear_ref": 7, "h_clear_mod": 7}
KINDS |= {"h_bulk_remove": 6, "walk": 20}


class Operation(NamedTuple):
    """A part of a call, on one entry: of h_enter with the doublewords, of the other calls with flags and avpn."""

    call: str  # h_bulk_remove doesn't occur: its operations are those of h_remove
    first: int  # of a walk the first doubleword of the page's entries
    second: int = 0
    access: Access = Access(0, 0)


class Call(NamedTuple):
    """A call, and the operations that it makes, as far as it gets."""

    name: str
    arguments: tuple[object, ...]
    operations: list[Operation]


class Made(NamedTuple):
    """An operation with its receipt."""

    receipt: Receipt
    operation: Operation

    @property
    def is_change(self) -> bool:
        """Whether it left its entry in another state."""
        before = entry_of(self.receipt)
        return after(before, self.operation) != before

    @property
    def place(self) -> tuple[int, int, int, bool]:
        """Where it is in the histories: what leaves the state as it is comes before what changes it."""
        return self.receipt.entry, self.receipt.stamp, self.receipt.bits, self.is_change


# ---- random calls


def draw(source: random.Random) -> Call:
    """A random call on the group."""
    (name,) = source.choices(list(KINDS), list(KINDS.values()))
    ptex, dword0 = 8 * GROUP + source.randrange(8), source.randint(1, PAGES) << 12 | 1
    avpn = dword0 & TAG
    if name == "h_enter":
        flags = source.choice([0, 0, 0, Flag.EXACT])
        dword1 = source.randint(3, 66) << 12 | source.randrange(4) << 7 | 0x12
        return Call(name, (flags, ptex, dword0, dword1), [Operation(name, dword0, dword1)] * 8)
    if name == "h_bulk_remove":
        return bulk_remove(source)
    if name == "walk":
        return walk(source)
    if name == "h_read":
        return Call(name, (source.choice([0, Flag.READ_4]), ptex), [Operation(name, 0)] * 4)
    if name in ("h_clear_ref", "h_clear_mod"):
        return Call(name, (0, ptex), [Operation(name, 0)])
    flags = source.choice([0, 0, Flag.AVPN, Flag.ANDCOND]) if name == "h_remove" else source.randrange(8)
    return Call(name, (flags, ptex, avpn), [Operation(name, flags, avpn)])


def bulk_remove(source: random.Random) -> Call:
    """A removal of four entries."""
    pairs, operations = [], []
    for _ in range(4):
        test, avpn = source.choice([0, 2]), source.randint(1, PAGES) << 12
        pairs += [1 << 62 | test << 56 | 8 * GROUP + source.randrange(8), avpn]
        operations.append(Operation("h_remove", Flag.AVPN if test else 0, avpn))
    return Call("h_bulk_remove", (pairs,), operations)


def walk(source: random.Random) -> Call:
    """A walk of one of the pages: of the group, and then of its page's secondary group."""
    segment = source.randint(1, PAGES)
    want, key = source.choice([Want.LOAD, Want.STORE]), source.random() < 0.25
    access = Access((segment ^ GROUP) << 12 | 0x678, segment, want, key=key)
    tags = [segment << 12 | secondary | 1 for secondary in (0, 2) for _ in range(8)]
    return Call("walk", (access,), [Operation("walk", tag, access=access) for tag in tags])


# ---- an entry, by hand


def entry_of(receipt: Receipt) -> Entry:
    """The entry's state before, as a receipt shows it."""
    is_valid = receipt.dword0 & 1 != 0
    dword1 = receipt.dword1 & ~(R | C)
    return Entry(receipt.dword0, dword1, receipt.stamp, is_valid, receipt.referenced, receipt.changed)


def is_found(entry: Entry, operation: Operation) -> bool:
    """Whether an entry is valid and passes the test of a call's flags."""
    flags, avpn = operation.first, operation.second
    is_other = flags & Flag.AVPN and entry.dword0 & TAG != avpn
    return entry.valid and not is_other and not (flags & Flag.ANDCOND and entry.dword0 & avpn)


def lets_in(entry: Entry, access: Access) -> bool:
    """Whether an entry's PP lets a load or a store in."""
    protection = entry.dword1 & 3
    if access.key:
        return protection == 2 if access.want is Want.STORE else protection != 0
    return access.want is Want.LOAD or protection != 3


def answer_of(entry: Entry, operation: Operation) -> Answer:
    """What an entry in this state answers."""
    if operation.call == "h_enter":
        return Answer.TAKEN if entry.valid else Answer.ENTERED
    if operation.call == "h_read":
        return Answer.READ
    if operation.call == "walk":
        if not entry.valid or entry.dword0 != operation.first:
            return Answer.NOMATCH
        return Answer.AT if lets_in(entry, operation.access) else Answer.DENIED
    if not is_found(entry, operation):
        return Answer.NOTFOUND
    return {"h_remove": Answer.REMOVED, "h_protect": Answer.PROTECTED}.get(operation.call, Answer.WAS)


def after(entry: Entry, operation: Operation) -> Entry:
    """The state that an operation leaves."""
    first, second, stamp = operation.first, operation.second, entry.stamp + 1
    answer = answer_of(entry, operation)
    if answer is Answer.ENTERED:
        return Entry(first, second & ~(R | C), stamp, True, second & R != 0, second & C != 0)
    if answer is Answer.REMOVED:
        return Entry(0, 0, stamp, False, False, False)
    if answer is Answer.PROTECTED:
        return entry._replace(dword1=entry.dword1 & ~PROTECTION | first & PROTECTION, stamp=stamp)
    if answer is Answer.WAS:
        cleared = {"referenced": False} if operation.call == "h_clear_ref" else {"changed": False}
        return entry._replace(stamp=stamp, **cleared)
    if answer is Answer.AT:
        return entry._replace(referenced=True, changed=entry.changed or operation.access.want is Want.STORE)
    return entry


# ---- the check


def faults(opening: Sequence[Entry], closing: Sequence[Entry], made: Iterable[Made]) -> list[str]:
    """What is wrong with the histories of all entries, from their opening to their closing states: one line each."""
    histories: dict[int, list[Made]] = {}
    for it in sorted(made, key=lambda it: it.place):
        histories.setdefault(it.receipt.entry, []).append(it)
    found = [fault_of(opening[at], closing[at], histories.get(at, [])) for at in range(len(opening))]
    return [f"entry {at:#x}: {fault}" for at, fault in enumerate(found) if fault]


def fault_of(opening: Entry, closing: Entry, history: Iterable[Made]) -> str:
    """What is wrong with the history of one entry, or nothing."""
    state = opening
    for it in history:
        if (entry_of(it.receipt), it.receipt.answer) != (state, answer_of(state, it.operation)):
            return f"{it.receipt} comes after {state}"
        state = after(state, it.operation)
    return "" if state == closing else f"it closes as {closing}, after {state}"
