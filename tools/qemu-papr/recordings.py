"""A recording of a QEMU whose page table is papr's, read back: papr-record.h has its format."""

import heapq
import mmap
import re
from dataclasses import dataclass, field
from pathlib import Path
from typing import Iterator, Optional, Union

from common import Bad

CALL, WALK, MASKS, MARK, PART, END = range(1, 7)
RESIZE_COMMIT = 0x370

ENTERED, REMOVED, PROTECTED, WAS, NOMATCH, AT = 0, 2, 3, 4, 7, 9  # answers of receipts
H_CLEAR_MOD = 0x10
REFERENCED, CHANGED = 2, 1
STORE = 1
BESIDE_A_CALL = 1 << 41
ENTRY, STAMP = 2**24 - 1, 2**32 - 1

ENTRY_LINE = re.compile(r"entry old (0x[0-9a-f]+) [0-9a-f]{16}([0-9a-f]{16})")
UNRECORDED = re.compile(r"unrecorded ([0-9]{1,20})")
PLACES = re.compile(r"# begins at((?: [0-9]{1,18})+)\n")
HEAD_ENDS, LAST_LINE = re.compile(rb"(?:begin|unrecorded [0-9]{1,20})\n\Z"), 64


@dataclass
class Record:
    """A call, a walk or masks that an actor recorded: the words after the first two, and its receipts."""

    actor: int
    header: int
    ticks: int
    words: list[int]
    receipts: list[int]

    @property
    def kind(self) -> int:
        """A call, a walk, or masks."""
        return self.header & 0xFF

    @property
    def number(self) -> int:
        """Of a call."""
        return self.words[0]

    @property
    def code(self) -> int:
        """Of a call: its answer, with its sign."""
        return self.words[1] - 2**64 if self.words[1] >> 63 else self.words[1]

    @property
    def is_beside(self) -> bool:
        """Whether it is a search beside a call, of whose stamps each may be one more or less."""
        return self.kind == WALK and self.header & BESIDE_A_CALL != 0

    @property
    def is_commit(self) -> bool:
        """Whether it is a resize that was committed."""
        return self.kind == CALL and self.number == RESIZE_COMMIT and self.code == 0


@dataclass(frozen=True)
class Quiet:
    """What ends an actor's records of one section: a mark or a part with its number, or the end of all."""

    kind: int
    number: int


class Cut(Bad):
    """An actor's records end before what was looked for."""


class Actor:
    """The records of one actor, as far as they are written."""

    def __init__(self, path: Path, number: int) -> None:
        """Opens its file."""
        self.number = number
        size = path.stat().st_size // 8 * 8
        with open(path, "rb") as stream:
            data: Union[mmap.mmap, bytes] = mmap.mmap(stream.fileno(), size, access=mmap.ACCESS_READ) if size else b""
        self.words = memoryview(data).cast("Q")
        self.at = 0

    def section(self) -> tuple[list[Record], Quiet]:
        """Its records up to the next mark, part or end."""
        records: list[Record] = []
        while self.at < len(self.words):
            header = self.words[self.at]
            kind = header & 0xFF
            if kind in (MARK, PART, END):
                self.check_end(self.at + 3)
                self.at += 3
                return records, Quiet(kind, self.words[self.at - 1])
            records.append(self.record(header, kind))
        raise Cut(f"actor-{self.number}: its last record is cut off")

    def record(self, header: int, kind: int) -> Record:
        """The record at the place that was come to."""
        if kind not in (CALL, WALK, MASKS):
            raise Bad(f"actor-{self.number}: word {self.at} begins no record")
        own = {CALL: 10 + (header >> 16 & 0xFF), WALK: 3, MASKS: 2}[kind]
        begin, receipts = self.at + 2, header >> 8 & 0xFF
        middle, end = begin + own, begin + own + receipts
        self.check_end(end)
        self.at = end
        words, made = self.words[begin:middle].tolist(), self.words[middle:end].tolist()
        return Record(self.number, header, self.words[begin - 1], words, made)

    def check_end(self, end: int) -> None:
        """Refuses a record that ends after the file."""
        if end > len(self.words):
            raise Cut(f"actor-{self.number}: its last record is cut off")

    def begins(self, part: int, place: int) -> bool:
        """Whether the part is written there, as far as the file goes."""
        found = self.words[place : place + 3]
        if len(found) == 3 and (found[0], found[2]) != (PART, part):
            raise Bad(f"actor-{self.number}: part {part} doesn't begin at word {place}")
        return len(found) == 3

    def has_end(self) -> bool:
        """Whether it may have ended: its last words are those of an end."""
        return len(self.words) >= 3 and (self.words[-3], self.words[-1]) == (END, 0)


@dataclass
class Part:
    """One part of a recording: the head of its trace, and the records of each actor between quiet points."""

    number: int
    head: list[str]
    sections: list[list[list[Record]]] = field(default_factory=list)

    @property
    def unrecorded(self) -> Optional[int]:
        """The order of a table that no trace has, if therefore nothing was recorded."""
        found = UNRECORDED.fullmatch(self.head[-1]) if self.head else None
        return int(found[1]) if found else None


def actors_of(folder: Path) -> list[Actor]:
    """The actors of a recording."""
    actors: list[Actor] = []
    while (path := folder / f"actor-{len(actors)}").is_file():
        actors.append(Actor(path, len(actors)))
    if not actors:
        raise Bad(f"{folder} is no recording: it has no actor-0")
    return actors


@dataclass(frozen=True)
class Place:
    """Where a part begins in each actor's words. After the last part comes number 0: the recording ends there."""

    number: int
    words: tuple[int, ...]


class Recording:
    """A recording, as far as it is written when this is made."""

    def __init__(self, folder: Path) -> None:
        """Opens it."""
        self.folder, self.actors = folder, actors_of(folder)

    def has_head(self, number: int) -> bool:
        """Whether the head of a part is written whole."""
        path = self.folder / f"part-{number}.head"
        if not path.is_file():
            return False
        with open(path, "rb") as stream:
            stream.seek(max(0, path.stat().st_size - LAST_LINE))
            return HEAD_ENDS.search(stream.read()) is not None

    def head(self, number: int) -> str:
        """The head of a part."""
        path = self.folder / f"part-{number}.head"
        try:
            return path.read_text(encoding="ascii")
        except UnicodeDecodeError as error:
            raise Bad(f"{path.name} isn't ASCII: byte {error.start} is {error.object[error.start]:#04x}") from error

    def told(self, number: int) -> Optional[Place]:
        """Where a part begins, as its head says; not all heads do."""
        found = PLACES.match(self.head(number))
        words = tuple(map(int, found[1].split())) if found else ()
        if found and len(words) != len(self.actors):
            raise Bad(f"part {number} has {len(words)} actors, but the recording {len(self.actors)}")
        return Place(number, words) if found else None

    def begins(self, part: Place) -> bool:
        """Whether the actors have all begun a part."""
        return all([actor.begins(part.number, word) for actor, word in zip(self.actors, part.words)])

    def first(self) -> Optional[Place]:
        """The first part, if it has begun."""
        part = Place(1, (0,) * len(self.actors))
        return part if self.has_head(1) and self.begins(part) else None

    def find(self, number: int) -> Optional[Place]:
        """Where a part begins, if it has begun."""
        part = self.told(number) if self.has_head(number) else None
        if part is not None:
            return part if self.begins(part) else None
        part = self.first()
        while part is not None and 0 < part.number < number:
            part = self.behind(part)
        return part if part is not None and part.number == number else None

    def behind(self, part: Place) -> Optional[Place]:
        """What comes after a part, if the part is whole."""
        has_next = self.has_head(part.number + 1)
        following = self.told(part.number + 1) if has_next else None
        if following is not None:
            return following if self.begins(following) else None
        return self.scanned(part) if has_next or all(actor.has_end() for actor in self.actors) else None

    def scanned(self, part: Place) -> Optional[Place]:
        """The same, found by reading the part's records."""
        try:
            *_marks, (_records, end) = self.sections(part)
        except Cut:
            return None
        return Place(end.number, tuple(actor.at - 3 for actor in self.actors))

    def sections(self, part: Place) -> Iterator[tuple[list[list[Record]], Quiet]]:
        """The records of all actors up to each quiet point of a part, and what it is."""
        for actor, word in zip(self.actors, part.words):
            actor.at = word + 3
        end = Quiet(MARK, 0)
        while end.kind == MARK:
            found = [actor.section() for actor in self.actors]
            ends = [own for _records, own in found]
            end = ends[0]
            if any(own != end for own in ends):
                raise Bad(f"the actors' quiet points are not the same: {ends}")
            yield [records for records, _own in found], end

    def part(self, place: Place) -> Part:
        """A part that is whole."""
        sections = [records for records, _end in self.sections(place) if any(records)]
        return Part(place.number, self.head(place.number).splitlines(), sections)


def part_at(folder: Path, place: Place) -> Part:
    """A whole part of a recording."""
    return Recording(folder).part(place)


class States:
    """The stamp of each entry, with R and C, as receipts leave it."""

    def __init__(self, head: list[str]) -> None:
        """Those of the opening entries."""
        self.places: dict[int, int] = {}
        for line in head:
            found = ENTRY_LINE.fullmatch(line)
            if found:
                self.places[int(found[1], 16)] = int(found[2], 16) >> 7 & 3

    def has(self, record: Record) -> bool:
        """Whether each receipt starts from the state that its entry has then."""
        own: dict[int, int] = {}  # what the record's earlier receipts leave: a call may come back to an entry
        places, is_call, is_beside = self.places, record.kind == CALL, record.is_beside
        for receipt in record.receipts:
            entry = receipt & ENTRY
            before = own[entry] if entry in own else places.get(entry, 0)
            away = (before >> 2) - (receipt >> 24 & STAMP)
            if abs(away) > is_beside or before & 3 != receipt >> 56 & 3:
                return False
            if is_call:
                own[entry] = place_after(record, receipt, before)
        return True

    def take(self, record: Record) -> None:
        """Goes on by a record's receipts. Where its stamps aren't known, they become those of the entries."""
        if record.is_beside and self.has(record):
            record.receipts = [self.settled(receipt) for receipt in record.receipts]
        for receipt in record.receipts:
            if receipt >> 60 != NOMATCH:
                before = (receipt >> 24 & STAMP) << 2 | receipt >> 56 & 3
                self.places[receipt & ENTRY] = place_after(record, receipt, before)

    def can_wait(self, record: Record) -> bool:
        """Whether a search beside a call would fit too when the entry that it came to has changed once more."""
        last = record.receipts[-1] if record.is_beside and record.receipts else 0
        return record.is_beside and self.places.get(last & ENTRY, 0) >> 2 <= last >> 24 & STAMP

    def settled(self, receipt: int) -> int:
        """A receipt with the stamp that its entry has."""
        return receipt & ~(STAMP << 24) | self.places.get(receipt & ENTRY, 0) >> 2 << 24

    def clear(self) -> None:
        """Forgets all: a resize was committed. (What the new table has isn't known.)"""
        self.places.clear()


def place_after(record: Record, receipt: int, before: int) -> int:
    """The stamp, with R and C, that an entry has after a receipt."""
    answer = receipt >> 60
    if answer == AT:
        return before | REFERENCED | (CHANGED if record.header >> 24 & 0xFF == STORE else 0)
    if answer == ENTERED:
        return (before >> 2) + 1 << 2 | record.words[5] >> 7 & 3
    if answer == REMOVED:
        return (before >> 2) + 1 << 2
    if answer == PROTECTED:
        return before + 4
    if answer == WAS:
        return before + 4 & ~(CHANGED if record.number == H_CLEAR_MOD else REFERENCED)
    return before


def in_order(records: list[list[Record]], states: States) -> Iterator[Record]:
    """The records of a section in one order: each actor's own, and where several may be next, the earliest one
    whose receipts start from the states that the ones before it left."""
    places = [0] * len(records)
    heads = [(own[0].ticks, actor) for actor, own in enumerate(records) if own]
    heapq.heapify(heads)
    while heads:
        at = 0
        first = records[heads[0][1]][places[heads[0][1]]]
        if not states.has(first) or states.can_wait(first):
            at = first_ready(heads, records, places, states)
        actor = heads[at][1]
        record = records[actor][places[actor]]
        states.take(record)
        yield record
        places[actor] += 1
        if places[actor] < len(records[actor]):
            heads[at] = records[actor][places[actor]].ticks, actor
        else:
            heads[at] = heads[-1]
            heads.pop()
        heapq.heapify(heads)


def first_ready(
    heads: list[tuple[int, int]], records: list[list[Record]], places: list[int], states: States
) -> int:
    """The place of the earliest head whose receipts fit, and that can't wait; else of the earliest one that fits; of
    the earliest of all, if none does."""
    order = sorted(range(len(heads)), key=lambda at: heads[at])
    ready = [at for at in order if states.has(records[heads[at][1]][places[heads[at][1]]])]
    urgent = (at for at in ready if not states.can_wait(records[heads[at][1]][places[heads[at][1]]]))
    return next(urgent, ready[0] if ready else order[0])
