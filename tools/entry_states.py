"""One entry by itself: what it answers to an operation, and its next state.

The tools search by these rules, and the proved program judges what they find: a mistake here can't make a bad
text good.
"""

from abc import ABC, abstractmethod
from dataclasses import dataclass
from typing import Optional, Union

VALID, SECONDARY, LARGE = 0x1, 0x2, 0x4
R, C = 0x100, 0x80
RC = R | C
TAG, COMPARED = 0xFFFF_FFFF_FFFF_FF80, 0xFFFF_FFFF_FFFF_FF83
HYPERVISORS, RESERVED = 0x60, 1 << 62  # the bits that H_ENTER clears in the doublewords
KEPT_BY_PROTECT = 0x4FFF_FFFF_FFFF_F1F8  # R and C too
NO_EXECUTE = 0xC  # N, and G
PAGE_BITS = 0x0FFF_FFFF_FFFF_F000

# Base shift, actual shift, and the low part of the real page number, of a page with L set.
LARGE_SIZES = ((16, 16, 0x1), (24, 24, 0x0), (34, 34, 0x3), (12, 16, 0x7), (12, 24, 0x38), (16, 24, 0x8))
# What a page's protection bits allow with a key of 0, and of 1.
PERMISSIONS = {0: ("rw", ""), 1: ("rw", "r"), 2: ("rw", "rw"), 3: ("r", "r"), 6: ("r", "")}

Words = tuple[int, int]
# Nothing of an empty entry; else the doublewords with R and C, and the processor whose call holds the entry.
State = Optional[tuple[int, int, Optional[int]]]
# The word of a receipt, and what the reply tells beside it.
Answer = tuple[Union[str, int], ...]

ENTERED: Answer = ("entered",)
TAKEN: Answer = ("taken",)
NOT_FOUND: Answer = ("notfound",)
NO_MATCH: Answer = ("nomatch",)
HELD: Answer = ("held",)  # no answer: the entry's lock is another's
CHANGES = ("entered", "removed", "protected", "was")  # each raises the stamp


def valid(words: Words) -> State:
    """A valid entry that nobody holds."""
    return words[0], words[1], None


def sizes_of(dword0: int, dword1: int) -> Optional[tuple[int, int]]:
    """The base and the actual size of the page, as binary logarithms, if the doublewords encode any."""
    if not dword0 & LARGE:
        return 12, 12
    number = dword1 >> 12
    return next(((base, actual) for base, actual, low in LARGE_SIZES if number % (1 << actual - 12) == low), None)


def entered_words(pteh: int, ptel: int) -> Words:
    """The doublewords that H_ENTER stores."""
    return pteh & ~HYPERVISORS | VALID, ptel & ~RESERVED


def bits_of(state: State) -> int:
    """R and C as receipts have them."""
    return 0 if state is None else (2 if state[1] & R else 0) + (1 if state[1] & C else 0)


class Operation(ABC):
    """What a call or an access does to one entry."""

    @abstractmethod
    def reply(self, state: State) -> tuple[Answer, State]:
        """The answer of an entry in this state, and its next state."""


@dataclass(frozen=True)
class Test:
    """What H_REMOVE and H_PROTECT ask of the first doubleword."""

    avpn: Optional[int] = None
    andcond: Optional[int] = None

    def passes(self, dword0: int) -> bool:
        """Whether a valid entry passes it."""
        if self.avpn is not None and dword0 & TAG != self.avpn:
            return False
        return self.andcond is None or not dword0 & self.andcond


@dataclass(frozen=True)
class Enter(Operation):
    """Puts the doublewords into an empty entry."""

    words: Words

    def reply(self, state: State) -> tuple[Answer, State]:
        if state is None:
            return ENTERED, valid(self.words)
        return (TAKEN if state[2] is None else HELD), state


@dataclass(frozen=True)
class Remove(Operation):
    """Empties the entry. Its caller is told the doublewords, R and C alone, or nothing."""

    test: Test
    told: int  # doublewords: 2, 0, or 1 for R and C

    def reply(self, state: State) -> tuple[Answer, State]:
        if state is None:
            return NOT_FOUND, None
        if state[2] is not None:
            return HELD, state
        if not self.test.passes(state[0]):
            return NOT_FOUND, state
        told: Answer = (state[0], state[1]) if self.told == 2 else (state[1] & RC,) if self.told else ()
        return ("removed", *told), None


@dataclass(frozen=True)
class Protect(Operation):
    """Gives the entry PP0, key, N and PP of the flags."""

    test: Test
    flags: int

    def reply(self, state: State) -> tuple[Answer, State]:
        if state is None:
            return NOT_FOUND, None
        if state[2] is not None:
            return HELD, state
        if not self.test.passes(state[0]):
            return NOT_FOUND, state
        flags = (self.flags & 0x100) << 55 | (self.flags & 0x3000) << 48 | self.flags & 0xE07
        return ("protected",), valid((state[0], state[1] & KEPT_BY_PROTECT | flags))


@dataclass(frozen=True)
class Read(Operation):
    """Tells the doublewords."""

    def reply(self, state: State) -> tuple[Answer, State]:
        if state is None:
            return ("read", 0, 0), None
        if state[2] is not None:
            return HELD, state
        return ("read", state[0], state[1]), state


@dataclass(frozen=True)
class Clear(Operation):
    """Clears R or C, and tells the second doubleword from before."""

    bit: int

    def reply(self, state: State) -> tuple[Answer, State]:
        if state is None:
            return NOT_FOUND, None
        if state[2] is not None:
            return HELD, state
        return ("was", state[1]), valid((state[0], state[1] & ~self.bit))


@dataclass(frozen=True)
class Hold(Operation):
    """The first step of a clearing in two: the second doubleword is read, and the entry held."""

    cpu: int

    def reply(self, state: State) -> tuple[Answer, State]:
        if state is None:
            return NOT_FOUND, None
        if state[2] is not None:
            return HELD, state
        return ("was", state[1]), (state[0], state[1], self.cpu)


@dataclass(frozen=True)
class ClearHeld(Operation):
    """The second step: the bit is cleared, whatever accesses have set since, and the entry let go."""

    bit: int
    cpu: int

    def reply(self, state: State) -> tuple[Answer, State]:
        if state is None or state[2] is None:
            return NOT_FOUND, state
        if state[2] != self.cpu:
            return HELD, state
        return ("was",), valid((state[0], state[1] & ~self.bit))


@dataclass(frozen=True)
class Access(Operation):
    """An access by a processor: it needs no lock."""

    tag: int  # B, the abbreviated virtual page number, H and V
    base: int
    want: str  # load, store or fetch
    key: bool
    no_execute: bool
    amr: int
    iamr: int
    ea: int

    def matches(self, dword0: int, dword1: int) -> bool:
        """Whether doublewords translate the page."""
        sizes = sizes_of(dword0, dword1)
        return dword0 & COMPARED == self.tag and sizes is not None and sizes[0] == self.base

    def logical(self, dword0: int, dword1: int) -> int:
        """The logical address in the page of the doublewords."""
        _base, actual = sizes_of(dword0, dword1) or (12, 12)
        return (dword1 & PAGE_BITS) >> actual << actual | self.ea & (1 << actual) - 1

    def is_allowed(self, dword1: int) -> bool:
        """Whether the protection allows the access."""
        allowed = PERMISSIONS.get(dword1 >> 63 << 2 | dword1 & 3, ("", ""))[self.key]
        if self.want == "fetch":
            return "r" in allowed and not self.no_execute and not dword1 & NO_EXECUTE
        return ("w" if self.want == "store" else "r") in allowed

    def mask_against(self, dword1: int) -> Optional[str]:
        """The mask that refuses the access, if one does."""
        key = (dword1 >> 60 & 3) << 3 | dword1 >> 9 & 7
        name, mask = ("iamr", self.iamr) if self.want == "fetch" else ("amr", self.amr)
        return name if mask >> 62 - 2 * key & (2 if self.want == "store" else 1) else None

    def reply(self, state: State) -> tuple[Answer, State]:
        if state is None or not self.matches(state[0], state[1]):
            return NO_MATCH, state
        if not self.is_allowed(state[1]):
            return ("denied",), state
        mask = self.mask_against(state[1])
        if mask is not None:
            return ("masked", mask), state
        bits = RC if self.want == "store" else R
        return ("at", self.logical(state[0], state[1])), (state[0], state[1] | bits, state[2])
