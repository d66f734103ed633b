"""The history of each entry: the steps of all calls on it, and an order of them."""

from bisect import bisect_right
from collections import defaultdict
from dataclasses import dataclass, field
from itertools import accumulate
from math import inf
from typing import Iterator, NamedTuple, Optional

from allowances import Allowed, Beside
from call_steps import ACCESSES, Did, Impossible, Searched, searched, steps_of
from entry_states import ENTERED, NO_MATCH, Access, Answer, Enter, State, Words, valid
from grants import Grant
from joint import Item, Joint
from order import Bound, Made, Step, find_order
from processors import Processor
from timed import Call

MOST_REPAIRS = 1_000


class NoOrder(Exception):
    """There is no order of the steps on an entry."""

    def __init__(self, entry: int) -> None:
        super().__init__(f"no order of entry {entry:#x}")
        self.entry = entry


class Coupled(Exception):
    """Entry by entry it isn't found at which entries accesses ended."""


class Told(NamedTuple):
    """A step as its call tells it; of an access, what it has to do with it is known later."""

    call: Call
    place: int
    did: Did
    access: Optional[Searched]


class Removals:
    """When removals of an entry began and ended."""

    def __init__(self, times: list[tuple[float, float]]) -> None:
        self._begins = sorted(begin for begin, _end in times)
        ends = [end for _begin, end in sorted(times)]
        self._ends = [*accumulate(reversed(ends), lambda one, other: min(one, other))][::-1]

    def end_after(self, sure: float) -> float:
        """When the first ended of those that began after a time."""
        at = bisect_right(self._begins, sure)
        return self._ends[at] if at < len(self._ends) else inf


class Stays:
    """Doublewords that an entry may have had, and when."""

    def __init__(self) -> None:
        self._times: dict[Words, list[tuple[float, float]]] = defaultdict(list)
        self._sorted: dict[Words, tuple[list[float], list[float]]] = {}

    def add(self, words: Words, begin: float, end: float) -> None:
        """One stay."""
        self._times[words].append((begin, end))

    def during(self, begin: float, end: float) -> Iterator[Words]:
        """The doublewords that may have been there at some time."""
        for words, times in self._times.items():
            if words not in self._sorted:
                times.sort()
                self._sorted[words] = [it[0] for it in times], list(accumulate((it[1] for it in times), max))
            begins, ends = self._sorted[words]
            at = bisect_right(begins, end)
            if at and ends[at - 1] >= begin:
                yield words


def fits(operation: Access, words: Words, answer: Answer) -> bool:
    """Whether an access may have such an answer of these doublewords, protection and masks aside."""
    return operation.matches(*words) and (answer[0] != "at" or operation.logical(*words) == answer[1])


@dataclass
class Histories:
    """All steps, by entry and by processor."""

    order: int
    grants: list[Grant]
    openings: dict[int, Words]
    allowed: Allowed
    bound: Bound
    told: dict[int, list[list[Told]]] = field(default_factory=dict)
    accesses: dict[int, Searched] = field(default_factory=dict)  # by their lines
    found: dict[int, list[Made]] = field(default_factory=dict)
    joint: Optional[Joint] = None
    cpus: int = 0
    _stays: dict[int, Stays] = field(default_factory=dict)
    _beside: dict[int, Beside] = field(default_factory=dict)

    def read(self, by_cpu: list[list[Call]]) -> None:
        """Takes the calls of each processor."""
        self.cpus = len(by_cpu)
        told: dict[int, list[list[Told]]] = defaultdict(lambda: [[] for _ in by_cpu])
        for cpu, calls in enumerate(by_cpu):
            for one in self.told_by(calls):
                told[one.did.entry][cpu].append(one)
        self.told = dict(told)
        for access in self.accesses.values():
            self.set_candidates(access)

    def told_by(self, calls: list[Call]) -> Iterator[Told]:
        """The steps of one processor's calls."""
        processor = Processor()
        for call in calls:
            if call.words[1] not in ACCESSES:
                processor.follow(call)
                yield from (Told(call, at, did, None) for at, did in enumerate(steps_of(call, self.allowed)))
                continue
            access = searched(call, processor, self.order, self.grants)
            if access is not None:
                self.accesses[call.line] = access
                dids = (Did(entry, operation, access.answer) for entry, operation in access.operations)
                yield from (Told(call, at, did, access) for at, did in enumerate(dids))

    # ---- at which entry an access ended

    def stays(self, entry: int) -> "Stays":
        """The doublewords that may be in an entry, and when: up to the first removal after they surely were."""
        if entry not in self._stays:
            told = [one for own in self.told.get(entry, []) for one in own]
            removals = Removals([(one.call.begin, one.call.end) for one in told if one.did.answer[0] == "removed"])
            stays = Stays()
            if entry in self.openings:
                stays.add(self.openings[entry], -inf, removals.end_after(-inf))
            for one in told:
                if isinstance(one.did.operation, Enter) and one.did.answer == ENTERED:
                    stays.add(one.did.operation.words, one.call.begin, removals.end_after(one.call.end))
            self._stays[entry] = stays
        return self._stays[entry]

    def set_candidates(self, access: Searched) -> None:
        """Finds where the access may have ended."""
        if access.answer == NO_MATCH:
            return
        for place, (entry, operation) in enumerate(access.operations):
            words = self.stays(entry).during(access.call.begin, access.call.end)
            if any(fits(operation, it, access.answer) for it in words):
                access.candidates.append(place)
        if not access.candidates:
            raise Impossible(access.call)
        if len(access.candidates) == 1:
            access.ended = access.candidates[0]

    # ---- steps

    def step(self, one: Told, is_open: bool) -> Optional[Step]:
        """The step as it is searched, or nothing where the access wasn't there.

        Where it is open at which entry an access ended, it may be any of those at which it may have; the others
        are then not asked, since a cached translation asks none of them.
        """
        answer: Optional[Answer] = one.did.answer
        may_skip, access = False, one.access
        if access is not None and access.candidates:
            if not is_open and access.ended is not None:
                answer = access.answer_at(one.place)
            elif one.place not in access.candidates:
                answer = None
            else:
                may_skip = len(access.candidates) > 1
        if answer is None:
            return None
        call = one.call
        place = call.line, one.place
        allowed = self.allowed_of(one)
        return Step(one.did.operation, frozenset([answer]), call.begin, call.end, place, allowed, may_skip)

    def allowed_of(self, one: Told) -> Allowed:
        """The differences that a step may have."""
        allowed, entry = one.did.differences & self.allowed, one.did.entry
        if not allowed:
            return allowed
        if entry not in self._beside:
            beside = self._beside[entry] = Beside(self.cpus)
            for it in (it for own in self.told[entry] for it in own):
                beside.add(it.call.cpu, it.did.operation, it.did.answer, it.call.begin, it.call.end)
        return self._beside[entry].among(allowed, one.call.cpu, one.call.begin, one.call.end)

    def steps(self, entry: int, is_open: bool = False) -> list[list[Step]]:
        """The steps on an entry, by processor."""
        return [
            [step for one in own if (step := self.step(one, is_open)) is not None] for own in self.told[entry]
        ]

    def opening(self, entry: int) -> State:
        """The state of an entry before all calls."""
        return valid(self.openings[entry]) if entry in self.openings else None

    # ---- the search

    def find(self) -> None:
        """Finds an order for each entry, or raises that there is none."""
        for entry in sorted(self.unsettled()):
            self.settle(entry, self.search(entry, True))
        for access in self.accesses.values():
            if access.ended is None and access.candidates:
                access.ended = access.candidates[-1]
        todo, repairs = sorted(self.told, reverse=True), 0
        while todo:
            entry = todo.pop()
            made = find_order(self.steps(entry), self.opening(entry), self.bound)
            if made is not None:
                self.found[entry] = made
                continue
            again = self.repair(entry, self.search(entry, True))
            repairs += 1
            if not again or repairs > MOST_REPAIRS:
                raise Coupled
            todo += [*again, entry]

    def search(self, entry: int, is_open: bool) -> list[Made]:
        """An order of the steps on an entry; there is none even with open accesses."""
        made = find_order(self.steps(entry, is_open), self.opening(entry), self.bound)
        if made is None:
            raise NoOrder(entry)
        return made

    def find_at_once(self) -> bool:
        """Finds one order of all steps, in which it is known at which entries accesses end; whether there is one."""
        openings = {entry: self.opening(entry) for entry in self.told}
        self.joint = Joint([self.items(cpu) for cpu in range(self.cpus)], openings, self.bound)
        found = self.joint.run()
        self.found = found or {}
        return found is not None

    def items(self, cpu: int) -> list[Item]:
        """The calls of a processor that have steps."""
        items: dict[int, Item] = {}
        own = [one for by_cpu in self.told.values() for one in by_cpu[cpu]]
        for one in sorted(own, key=lambda it: (it.call.line, it.place)):
            item = items.setdefault(one.call.line, Item(one.call, [], [], one.access))
            step = self.step(one._replace(access=None), False)
            if step is not None:
                item.steps.append(step)
                item.entries.append(one.did.entry)
        return list(items.values())

    def unsettled(self) -> set[int]:
        """The entries at which accesses may have ended that may have ended elsewhere."""
        open_ones = [access for access in self.accesses.values() if len(access.candidates) > 1]
        return {access.operations[place][0] for access in open_ones for place in access.candidates}

    def settle(self, entry: int, made: list[Made]) -> None:
        """Has accesses that answered here end here, if they end nowhere yet."""
        for one in made:
            access = self.accesses.get(one.step.call[0])
            is_here = one.step.may_skip and one.step.operation.reply(one.state)[0] in (one.step.answers or ())
            if access is not None and access.ended is None and is_here:
                access.ended = one.step.call[1]

    def repair(self, entry: int, made: list[Made]) -> list[int]:
        """Changes where accesses end, so that they fit this entry; gives the entries to be searched again."""
        again: set[int] = set()
        for one in made:
            if not one.step.may_skip:
                continue
            access, place = self.accesses[one.step.call[0]], one.step.call[1]
            is_here = one.step.operation.reply(one.state)[0] in (one.step.answers or ())
            before = access.ended
            if is_here:
                access.ended = place
            elif access.ended == place:
                at = access.candidates.index(place)
                access.ended = access.candidates[at - 1]
            if access.ended != before:
                again |= {other for other, _operation in access.operations if other in self.told}
        return sorted(again - {entry})
