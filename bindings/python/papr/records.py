"""What goes into the calls and comes out of them: named tuples, as rows of a database are."""

from ctypes import Structure
from typing import NamedTuple, TypeVar

from ._structs import CBusy, CEntry, CPage, CReceipt, CRehash, CSlot
from .codes import Answer, Cause, Code, Decoding, DeviceOutcome, Hold, Outcome, Right, Want

REFERENCED, CHANGED = 2, 1  # R and C in the bits of a receipt
R_OF_DWORD1, C_OF_DWORD1 = 0x100, 0x80

Struct = TypeVar("Struct", bound=Structure)


class Entry(NamedTuple):
    """An entry of a table; all zero is an empty one."""

    dword0: int
    dword1: int  # with R and C clear
    stamp: int  # how often calls entered, removed or protected it, or cleared R or C, set or not
    valid: bool
    referenced: bool
    changed: bool

    @property
    def doublewords(self) -> tuple[int, int]:
        """Both doublewords with R and C, as H_READ shows them."""
        bits = (R_OF_DWORD1 if self.referenced else 0) | (C_OF_DWORD1 if self.changed else 0)
        return self.dword0, self.dword1 | bits


class Taken(NamedTuple):
    """Which entries were changed since their marks were last taken."""

    indexes: tuple[int, ...]  # in ascending order
    next: int  # the index from which to go on; the number of entries, if none is left


class Receipt(NamedTuple):
    """One operation on one entry, with the entry's state before."""

    entry: int
    stamp: int
    bits: int  # R counts 2, C counts 1
    answer: Answer
    dword0: int
    dword1: int  # with R and C

    @property
    def referenced(self) -> bool:
        """R before."""
        return self.bits & REFERENCED != 0

    @property
    def changed(self) -> bool:
        """C before."""
        return self.bits & CHANGED != 0

    def __str__(self) -> str:
        """As replies write it: `0x27.0.0.entered`."""
        return f"{self.entry:#x}.{self.stamp}.{self.bits}.{self.answer.name.lower()}"


class Reply(NamedTuple):
    """What a call answers."""

    code: Code
    words: tuple[int, ...]
    receipts: tuple[Receipt, ...]
    stale: bool  # cached translations have to be dropped before the guest goes on

    def __str__(self) -> str:
        """As replies write it: the code, the words, and the receipts."""
        words = " ".join([str(int(self.code)), *(f"{word:#x}" for word in self.words)])
        return f"{words} | {' '.join(map(str, self.receipts))}" if self.receipts else words


class Grant(NamedTuple):
    """A range of the guest's logical addresses and the machine range that it maps to, in bytes."""

    logical: int
    machine: int
    length: int
    is_io: bool = False  # a device's registers, not main storage


class Range(NamedTuple):
    """Where granted logical addresses begin in the machine's memory."""

    machine: int
    is_io: bool


class Access(NamedTuple):
    """An access, in a segment that the caller has looked up."""

    ea: int  # the effective address
    vsid: int  # the segment's number
    want: Want = Want.LOAD
    shift: int = 12  # log2 of its base page
    one_tb: bool = False  # a segment of 1 TB, not of 256 MB
    key: bool = False  # Kp in problem state, else Ks
    no_execute: bool = False  # the segment's N
    amr: int = 0  # the processor's mask for loads and stores; 0 refuses nothing
    iamr: int = 0  # its mask for instruction fetches


class Walk(NamedTuple):
    """What a walk or a probe found: all that a TLB keeps of the translation, also if it refuses the access."""

    outcome: Outcome
    logical: int  # the logical address if the outcome is AT, else 0
    entry: int
    dword0: int
    dword1: int  # with R and C; after a walk as it left them
    base_shift: int
    actual_shift: int
    rights: Right
    causes: Cause
    receipts: tuple[Receipt, ...]


class HeldUp(NamedTuple):
    """What holds up the call or the walk of a pass."""

    hold: Hold
    entry: int  # that of the next operation
    done: int  # how many operations are made
    looked: int  # the entry's control word, as the try noted it
    found: int  # .. and as its last step found it


class Page(NamedTuple):
    """What two doublewords say; without a page `why` has the first reason."""

    why: Decoding
    vsid: int
    page: int  # the index of the base page in its segment
    real: int  # the logical address of the real page
    base_shift: int
    actual_shift: int
    key: int
    protection: int  # PP0, which counts 4, and PP
    wimg: int  # W 8, I 4, M 2, G 1
    one_tb: bool
    no_execute: bool  # N or G is set
    bolted: bool
    secondary: bool
    referenced: bool
    changed: bool


class Rehash(NamedTuple):
    """How a rehash or a commit ended; at H_PTEG_FULL with the two old indices that collide at a new one."""

    code: Code
    first: int
    second: int
    target: int
    stale: bool


class Slot(NamedTuple):
    """A slot of a segment lookaside buffer."""

    esid: int
    vsid: int
    shift: int
    one_tb: bool
    ks: bool
    kp: bool
    no_execute: bool

    def access(self, ea: int, want: Want = Want.LOAD, problem_state: bool = False) -> Access:
        """An access to an address in this segment; `_replace` gives it masks."""
        key = self.kp if problem_state else self.ks
        return Access(ea, self.vsid, want, self.shift, self.one_tb, key, self.no_execute)


class DeviceAccess(NamedTuple):
    """Where a device's access ends."""

    outcome: DeviceOutcome
    address: int  # the machine address; at UNGRANTED the logical one, else 0
    receipts: tuple[Receipt, ...]


def entry_of(it: CEntry) -> Entry:
    """An entry of the library."""
    return Entry(it.dword0, it.dword1, it.stamp, it.valid, it.referenced, it.changed)


def receipt_of(it: CReceipt) -> Receipt:
    """A receipt of the library."""
    return Receipt(it.entry, it.stamp, it.bits, Answer(it.answer), it.dword0, it.dword1)


def held_up_of(it: CBusy) -> HeldUp:
    """What the library says of a pass that is busy."""
    return HeldUp(Hold(it.hold), it.entry, it.done, it.looked, it.found)


def rehash_of(it: CRehash) -> Rehash:
    """How a rehash of the library ended."""
    return Rehash(Code(it.rc), it.first, it.second, it.target, it.stale)


def slot_of(it: CSlot) -> Slot:
    """A slot of the library."""
    return Slot(it.esid, it.vsid, it.shift, it.one_tb, it.ks, it.kp, it.no_execute)


def page_of(it: CPage) -> Page:
    """What the library says of two doublewords."""
    return Page(
        Decoding(it.why),
        it.vsid,
        it.page,
        it.real,
        it.base_shift,
        it.actual_shift,
        it.key,
        it.protection,
        it.wimg,
        it.one_tb,
        it.no_execute,
        it.bolted,
        it.secondary,
        it.referenced,
        it.changed,
    )


def struct_of(kind: type[Struct], record: NamedTuple) -> Struct:
    """A record as a struct. A number that its field doesn't hold is refused; ctypes alone would cut it."""
    values = record._asdict()
    made = kind(**values)
    for name, value in values.items():
        if getattr(made, name) != value:
            raise OverflowError(f"{name} of a {type(record).__name__} can't be {value:#x}")
    return made
