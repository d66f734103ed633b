"""Traces with replies, made of the parts of a recording: the lines of each processor and what each answered.

QEMU keeps translations of its own, so that a walk is made for each access which it has to look up, and none for the
others. A trace's processor has a cache of 32 sets of four translations. What a walk of QEMU's found is written as a
hit if that cache has the very translation, and else as a walk.
"""

from collections import Counter
from dataclasses import dataclass, field
from itertools import chain

import hypercalls
from common import Bad
from papr.numbers import number
from recordings import CALL, ENTRY, MASKS, NOMATCH, STAMP, WALK, WAS, Part, Record, States, in_order
from traces import MOST_BYTES, MOST_LINES

CALLS = {number: call for number, call in hypercalls.CALLS.items() if call.works_on != hypercalls.WINDOW}
ANSWERS = (
    "entered",
    "taken",
    "removed",
    "protected",
    "was",
    "read",
    "notfound",
    "nomatch",
    "denied",
    "at",
    "worn",
    "masked",
)
WANTS = ("load", "store", "fetch")
ENDINGS = {1: "denied", 2: "nopage", 4: "masked amr", 5: "masked iamr"}
ALLOWED = 0
SETS, WAYS, SLOTS = 32, 4, 32
VALID_SLOT = 0x0800_0000
SHIFTS = (28, 40)  # of segments of 256 MB and of 1 TB

Page = tuple[int, int, int]  # B and VSID, the index of the page in its segment, and log2 of its size
Translation = tuple[int, int]  # an entry and its stamp


def shown(receipt: int) -> str:
    """A receipt as a reply shows it."""
    entry, stamp, bits = receipt & ENTRY, receipt >> 24 & STAMP, receipt >> 56 & 3
    return f"{entry:#x}.{stamp}.{bits}.{ANSWERS[receipt >> 60]}"


@dataclass
class Segments:
    """The segment lookaside buffer of a processor in the trace, which has a slot for each number."""

    slots: dict[tuple[int, int], tuple[int, int]] = field(default_factory=dict)  # by size and ESID: slot, word
    keys: dict[int, tuple[int, int]] = field(default_factory=dict)  # by slot
    following: int = 0

    def lines(self, ea: int, word: int) -> list[str]:
        """The slbmte that make this the segment of an address: mostly none."""
        size = word >> 62
        key, other = (size, ea >> SHIFTS[size]), (1 - size, ea >> SHIFTS[1 - size])
        found = self.slots.get(key)
        if other not in self.slots and found is not None and found[1] == word:
            return []
        made = []
        if other in self.slots:
            slot = self.slots.pop(other)[0]
            del self.keys[slot]
            made.append(f"slbmte {slot:#x} 0x0")
        slot = self.free() if found is None else found[0]
        self.slots[key], self.keys[slot] = (slot, word), key
        made.append(f"slbmte {key[1] << SHIFTS[size] | VALID_SLOT | slot:#x} {word:#x}")
        return made

    def free(self) -> int:
        """A slot for another segment, whose old one is forgotten."""
        slot = self.following
        self.following = (slot + 1) % SLOTS
        old = self.keys.pop(slot, None)
        if old is not None:
            del self.slots[old]
        return slot


class Cache:
    """The cached translations of a processor in the trace."""

    def __init__(self) -> None:
        """None."""
        self.sets: list[dict[Page, Translation]] = [{} for _set in range(SETS)]

    def is_hit(self, page: Page, receipts: list[int], is_allowed: bool) -> bool:
        """Whether these receipts of a walk end at the translation that is cached; else the cache follows them."""
        lines = self.sets[page[1] % SETS]
        last = receipts[-1] if receipts else NOMATCH << 60
        found = last & ENTRY, last >> 24 & STAMP
        if last >> 60 != NOMATCH and lines.get(page) == found:
            return True
        lines.pop(page, None)
        if is_allowed:
            lines[page] = found
            if len(lines) > WAYS:
                del lines[next(iter(lines))]
        return False


@dataclass
class Processor:
    """What a processor of the trace has from line to line."""

    segments: Segments = field(default_factory=Segments)
    cache: Cache = field(default_factory=Cache)
    masks: tuple[int, int] = 0, 0


@dataclass(frozen=True)
class Range:
    """A grant: the logical addresses, and what is added to make machine addresses of them."""

    start: int
    end: int
    added: int


def ranges_of(head: list[str]) -> list[Range]:
    """The grants of a trace."""
    found = []
    for words in (line.split() for line in head):
        if words[:1] not in (["ram"], ["io"]):
            continue
        numbers = [value for word in words[1:] if (value := number(word)) is not None]
        if len(numbers) != 3 or len(words) != 4:
            raise Bad(f"`{' '.join(words)}` at the head of a part is no grant")
        logical, machine, length = numbers
        found.append(Range(logical, logical + length, machine - logical))
    return found


def fault_of(record: Record) -> str:
    """What no line of a trace says of a record, if there is such a thing."""
    answers, kind = [receipt >> 60 for receipt in record.receipts], record.kind
    if kind == CALL and record.number not in CALLS:
        return f"the call {record.number:#x}"
    if max(answers, default=0) >= len(ANSWERS):
        return "a receipt without an answer"
    if kind != CALL and answers and min(answers) <= WAS:
        return "a receipt of a call beside none"
    if kind == WALK and record.header >> 24 & 0xFF >= len(WANTS):
        return "a walk for no access"
    if kind == WALK and record.words[1] >> 62 >= len(SHIFTS):
        return "a segment of no size"
    return ""


def check(records: list[list[Record]]) -> None:
    """Refuses records that no trace has."""
    for record in chain.from_iterable(records):
        fault = fault_of(record)
        if fault:
            raise Bad(f"actor-{record.actor}: no trace has {fault}")


class Written:
    """A trace with replies, as it is written."""

    def __init__(self, head: list[str]) -> None:
        """A trace without run lines."""
        self.trace = [f"{line}\n" for line in head]
        self.replies: list[str] = []
        self.counts: Counter[str] = Counter()
        self.ranges = ranges_of(head)
        self.processors: dict[int, Processor] = {}

    def add(self, record: Record) -> None:
        """The lines of one record."""
        processor = self.processors.setdefault(record.actor, Processor())
        if record.kind == CALL:
            self.add_call(record)
        elif record.kind == MASKS:
            self.add_masks(record, processor)
        else:
            self.add_walk(record, processor)

    def put(self, line: str, reply: str, receipts: list[int]) -> None:
        """One line and its reply: both begin with the processor."""
        self.trace.append(f"{line}\n")
        bar = " | " if receipts else ""
        self.replies.append(f"{len(self.trace)} {reply}{bar}{' '.join(map(shown, receipts))}\n")

    def add_call(self, record: Record) -> None:
        """A hypervisor call."""
        name, count, _works_on = CALLS[record.number]
        asked = "".join(f" {word:#x}" for word in record.words[2 : 2 + count])
        told = "".join(f" {word:#x}" for word in record.words[10:])
        self.counts["calls"] += 1
        self.put(f"{record.actor} {name}{asked}", f"{record.actor} {name} {record.code}{told}", record.receipts)
        if record.is_commit:
            for processor in self.processors.values():
                processor.cache = Cache()

    def add_masks(self, record: Record, processor: Processor) -> None:
        """Those of AMR and IAMR that are others."""
        for name, old, new in zip(("amr", "iamr"), processor.masks, record.words):
            if old != new:
                self.put(f"{record.actor} {name} {new:#x}", f"{record.actor} {name} ok", [])
        processor.masks = record.words[0], record.words[1]

    def add_walk(self, record: Record, processor: Processor) -> None:
        """An access, behind the segment that it needs."""
        ea, word, logical = record.words
        for line in processor.segments.lines(ea, word):
            self.counts["segments"] += 1
            self.put(f"{record.actor} {line}", f"{record.actor} slbmte ok", [])
        size, shift = word >> 62, record.header >> 32 & 0xFF
        page = word >> (24 if size else 12), ea % 2 ** SHIFTS[size] >> shift, shift
        outcome = record.header >> 16 & 0xFF
        is_hit = processor.cache.is_hit(page, record.receipts, outcome == ALLOWED)
        self.counts["hits" if is_hit else "walks"] += 1
        want, mode = WANTS[record.header >> 24 & 0xFF], "user" if record.header >> 40 & 1 else "priv"
        ending, way = self.ending(outcome, logical), "hit" if is_hit else "walk"
        receipts = record.receipts[-1:] if is_hit else record.receipts
        self.put(f"{record.actor} {want} {ea:#x} {mode}", f"{record.actor} {want} {ending} {way}", receipts)

    def ending(self, outcome: int, logical: int) -> str:
        """How the reply to an access says where it ended."""
        if outcome in ENDINGS:
            return ENDINGS[outcome]
        for it in self.ranges:
            if it.start <= logical < it.end:
                return f"at {logical + it.added:#x}"
        return f"ungranted {logical:#x}"

    @property
    def size(self) -> int:
        """The bytes of both texts."""
        return sum(map(len, self.trace)) + sum(map(len, self.replies))


def written(part: Part) -> Written:
    """The trace of a part, with its replies."""
    made = Written(part.head)
    states = States(part.head)
    for records in part.sections:
        check(records)
        for record in in_order(records, states):
            made.add(record)
            if record.is_commit:
                states.clear()
    if len(made.trace) > MOST_LINES or made.size > MOST_BYTES:
        raise Bad(f"part {part.number} is more than one trace has: record with a smaller papr-part")
    return made
