"""What each call did to which entries, by its reply."""

from dataclasses import dataclass, field
from typing import Iterator, NamedTuple, Optional

from allowances import BIT_62, CLEAR_REF_IN_TWO_STEPS, NOTHING, OF_ENTER, OF_READ, Allowed
from entry_states import C, ENTERED, NO_MATCH, NOT_FOUND, R, TAKEN
from entry_states import Access, Answer, Clear, ClearHeld, Enter, Hold, Operation, Protect, Read, Remove, Test
from entry_states import entered_words
from grants import Grant
from numerals import number_of
from processors import A_GROUP, Page, Processor
from timed import Call

EXACT, AVPN, ANDCOND, READ_4 = 1 << 39, 1 << 31, 1 << 30, 1 << 37
SUCCESS, PTEG_FULL, NO_ENTRY = "0", "-6", "-7"
INDEX = (1 << 56) - 1
END_OF_PAIRS, REMOVED, NOT_REMOVED = 3, 0x80, 0x90  # of the words of H_BULK_REMOVE
MARK = 1 << 62  # which a reply of another hypervisor may have
FOUR = 4
ACCESSES = ("load", "store", "fetch")
ENDINGS: dict[str, Answer] = {"denied": ("denied",), "nopage": NO_MATCH}
CLEARED = {"H_CLEAR_REF": R, "H_CLEAR_MOD": C}


class Impossible(Exception):
    """A reply that its call can't have."""

    def __init__(self, call: Call) -> None:
        super().__init__(str(call))
        self.call = call


class Did(NamedTuple):
    """One step on one entry."""

    entry: int
    operation: Operation
    answer: Answer
    differences: Allowed = NOTHING  # those that the answer may have


@dataclass
class Searched:
    """An access: what it tried, how it ended, and at which of the entries it may have ended."""

    call: Call
    page: Page
    operations: list[tuple[int, Access]]
    answer: Answer  # of the entry at which it ended; that of no match, where it ended at none
    candidates: list[int] = field(default_factory=list)  # places in the operations
    ended: Optional[int] = None  # the place that is taken

    def answer_at(self, place: int) -> Optional[Answer]:
        """What the entry at a place answered, or nothing where it wasn't tried."""
        if self.ended is None or place < self.ended:
            return NO_MATCH
        return self.answer if place == self.ended else None


def entered(call: Call, given: list[int]) -> Iterator[Did]:
    """The entries that an H_ENTER tried."""
    flags, index = given[:2]
    enter = Enter(entered_words(*given[2:4]))
    first = index if flags & EXACT else index // A_GROUP * A_GROUP
    last = index if flags & EXACT else first + A_GROUP - 1
    if call.told[0] == SUCCESS:
        if len(call.told) != 2 or not first <= call.values[0] <= last:
            raise Impossible(call)
        yield from (Did(entry, enter, TAKEN, OF_ENTER) for entry in range(first, call.values[0]))
        yield Did(call.values[0], enter, ENTERED)
    elif call.told[0] == PTEG_FULL:
        yield from (Did(entry, enter, TAKEN) for entry in range(first, last + 1))


def test_of(flags: int, word: int) -> Test:
    """What a call's flags ask of the entry."""
    return Test(word if flags & AVPN else None, word if flags & ANDCOND else None)


def changed(call: Call, given: list[int], allowed: Allowed) -> Iterator[Did]:
    """What a call did to the one entry that it names."""
    name, words = call.name, call.values
    test, entry = test_of(given[0], given[2]), given[1]
    if name == "H_REMOVE":
        yield from told(call, Did(entry, Remove(test, 2), ("removed", *words)), 2)
    elif name == "H_PROTECT":
        yield from told(call, Did(entry, Protect(Test(test.avpn), given[0]), ("protected",)), 0)
    else:
        was: Answer = ("was", *(word & ~MARK if BIT_62 in allowed else word for word in words))
        is_in_two = CLEAR_REF_IN_TWO_STEPS in allowed and name == "H_CLEAR_REF" and clears(call)
        yield from told(call, Did(entry, Hold(call.cpu) if is_in_two else Clear(CLEARED[name]), was), 1)
        if is_in_two:
            yield Did(entry, ClearHeld(R, call.cpu), ("was",))


def clears(call: Call) -> bool:
    """Whether an H_CLEAR_REF found R, and so has something to clear."""
    return call.told[0] == SUCCESS and any(word & R for word in call.values)


def told(call: Call, did: Did, count: int) -> Iterator[Did]:
    """The step of a call that succeeded with so many words, or found no entry."""
    if call.told[0] == SUCCESS:
        if len(call.values) != count:
            raise Impossible(call)
        yield did
    elif call.told[0] == NO_ENTRY:
        yield Did(did.entry, did.operation, NOT_FOUND)


def read(call: Call, given: list[int]) -> Iterator[Did]:
    """The entries that an H_READ read."""
    if call.told[0] != SUCCESS:
        return
    first, count = (given[1] // FOUR * FOUR, FOUR) if given[0] & READ_4 else (given[1], 1)
    words = call.values
    if len(words) != 2 * count:
        raise Impossible(call)
    yield from (Did(first + at, Read(), ("read", *words[2 * at : 2 * at + 2]), OF_READ) for at in range(count))


def removed(call: Call, given: list[int]) -> Iterator[Did]:
    """The entries of the pairs of an H_BULK_REMOVE, up to the end or an ill-formed pair."""
    words = call.values
    if len(words) != len(given):
        raise Impossible(call)
    for asked, word, reply in zip(given[::2], given[1::2], words[::2]):
        status = reply >> 56 & 0xF0
        if asked >> 62 == END_OF_PAIRS or status & ~0xC not in (REMOVED, NOT_REMOVED):
            return
        flags = asked >> 56 & 3
        remove = Remove(Test(word if flags & 2 else None, word if flags & 1 else None), 1)
        is_removed = reply >> 60 == REMOVED >> 4
        removal: Answer = ("removed", reply >> 51 & 0x180)
        yield Did(asked & INDEX, remove, removal if is_removed else NOT_FOUND)


def steps_of(call: Call, allowed: Allowed) -> list[Did]:
    """The steps of a hypervisor call."""
    given = call.arguments
    if call.name == "H_ENTER":
        return list(entered(call, given))
    if call.name == "H_READ":
        return list(read(call, given))
    if call.name == "H_BULK_REMOVE":
        return list(removed(call, given))
    return list(changed(call, given, allowed)) if call.name.startswith("H_") else []


def logical_of(machine: int, grants: list[Grant]) -> Optional[int]:
    """The logical address of a machine address."""
    holding = (grant for grant in grants if grant.frames[0] <= machine < grant.frames[1])
    return next((grant.logical + machine - grant.machine for grant in holding), None)


def searched(call: Call, processor: Processor, order: int, grants: list[Grant]) -> Optional[Searched]:
    """An access's search of the table, or nothing where there was none."""
    if call.told == ["nosegment"]:
        return None
    tried = processor.tries(call, order)
    if tried is None:
        raise Impossible(call)
    ending: Optional[Answer] = None
    if call.told[0] == "at" and len(call.told) == 2:
        logical = logical_of(number_of(call.told[1]), grants)
        ending = None if logical is None else ("at", logical)
    elif call.told[0] == "masked" and len(call.told) == 2:
        ending = ("masked", call.told[1])
    else:
        ending = ENDINGS.get(" ".join(call.told))
    if ending is None:
        raise Impossible(call)
    return Searched(call, *tried, ending)
