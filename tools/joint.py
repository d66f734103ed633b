"""The search for one order of all steps: for accesses of a page that several entries translate.

Entry by entry it isn't known at which of them an access ended, and whether a cached translation was used. In one
order of all steps both follow from the steps before.
"""

from collections import defaultdict
from dataclasses import dataclass, field
from math import inf
from typing import NamedTuple, Optional

from call_steps import Searched
from entry_states import CHANGES, NO_MATCH, Answer, Hold, Operation, State
from order import QUIET, Bound, Made, Step
from processors import LINES, SETS, Page
from timed import Call

Cached = tuple[tuple[Page, int, bool], ...]  # in the order of filling: the page, the entry, and whether it is current


@dataclass(frozen=True, eq=False)
class Item:
    """A call with its steps, or an access."""

    call: Call
    steps: list[Step]
    entries: list[int]
    access: Optional[Searched]


class Node(NamedTuple):
    """Of each processor how many calls are done, and how many steps of the next; the states; and the caches."""

    made: tuple[tuple[int, int], ...]
    states: tuple[State, ...]
    caches: tuple[Cached, ...]


class Move(NamedTuple):
    """The next step of a processor, with what it leaves."""

    place: int
    after: State
    answer: Answer
    is_last: bool  # of its call
    is_quiet: bool  # it changes nothing, and may as well stand here


@dataclass
class Joint:
    """All calls of each processor."""

    items: list[list[Item]]
    openings: dict[int, State]
    bound: Bound
    parents: dict[Node, Optional[tuple[Node, int, int]]] = field(default_factory=dict)
    _at: dict[int, int] = field(default_factory=dict)  # where an entry's state is among the states

    def run(self) -> Optional[dict[int, list[Made]]]:
        """An order of the steps of each entry, or nothing where no order is left to try."""
        entries = sorted(self.openings)
        self._at = {entry: at for at, entry in enumerate(entries)}
        states = tuple(self.openings[entry] for entry in entries)
        start = Node(((0, 0),) * len(self.items), states, ((),) * len(self.items))
        whole = tuple((len(own), 0) for own in self.items)
        self.parents = {start: None}
        stack = [start]
        while stack:
            node = stack.pop()
            if node.made == whole:
                return self.orders(node)
            self.bound.take()
            for cpu, move in reversed(self.moves(node)):
                after = self.after(node, cpu, move)
                if after not in self.parents:
                    self.parents[after] = node, cpu, move.place
                    stack.append(after)
        return None

    # ---- one step

    def moves(self, node: Node) -> list[tuple[int, Move]]:
        """The steps that can be next, the likeliest first."""
        heads = [(cpu, own[done]) for cpu, (own, (done, _)) in enumerate(zip(self.items, node.made)) if done < len(own)]
        limit = min((item.call.end for _cpu, item in heads), default=inf)
        found: list[tuple[bool, float, int, int, Move]] = []
        for cpu, item in heads:
            move = self.move(node, cpu, item) if item.call.begin <= limit else None
            if move is not None and move.is_quiet:
                return [(cpu, move)]
            if move is not None:
                found.append((move.answer[0] not in QUIET, item.call.end, item.call.line, cpu, move))
        found.sort(key=lambda it: it[:3])
        return [(cpu, move) for *_rank, cpu, move in found]

    def move(self, node: Node, cpu: int, item: Item) -> Optional[Move]:
        """The next step of a processor, if it has its answer now."""
        place = node.made[cpu][1]
        if item.access is not None:
            return self.searching(node, cpu, item.access, place)
        step = item.steps[place]
        state = node.states[self._at[item.entries[place]]]
        after = next(step.after(state), state)
        answer = step.operation.reply(state)[0]
        if answer not in (step.answers or ()) and step.allowance(state) is None:
            return None
        return Move(place, after, answer, place + 1 == len(item.steps), step.is_quiet)

    def searching(self, node: Node, cpu: int, access: Searched, place: int) -> Optional[Move]:
        """The next step of an access: at the entry of a current cached translation, or else at the next entry."""
        cached = cached_entry(node.caches[cpu], access.page) if place == 0 else None
        if cached is not None:
            place = place_of(access, cached, node.states[self._at[cached]])
        entry, operation = access.operations[place]
        answer, after = operation.reply(node.states[self._at[entry]])
        if answer != NO_MATCH:
            return Move(place, after, answer, True, False) if answer == access.answer else None
        is_end = place + 1 == len(access.operations)
        if is_end and access.answer != NO_MATCH:
            return None
        return Move(place, after, answer, is_end, place not in access.candidates)

    def after(self, node: Node, cpu: int, move: Move) -> Node:
        """The node after a step."""
        done, _ = node.made[cpu]
        item = self.items[cpu][done]
        entry = (item.access.operations[move.place][0]) if item.access is not None else item.entries[move.place]
        at = self._at[entry]
        made = (done + 1, 0) if move.is_last else (done, move.place + 1)
        states, caches = node.states, node.caches
        if move.after != states[at]:
            states = (*states[:at], move.after, *states[at + 1 :])
        is_hold = item.access is None and isinstance(item.steps[move.place].operation, Hold)
        if move.answer[0] in CHANGES and not is_hold:
            caches = tuple(tuple((page, own, now and own != entry) for page, own, now in lines) for lines in caches)
        elif item.access is not None and move.is_last:
            lines = filled(caches[cpu], item.access.page, entry if move.answer[0] == "at" else None)
            caches = (*caches[:cpu], lines, *caches[cpu + 1 :])
        return Node((*node.made[:cpu], made, *node.made[cpu + 1 :]), states, caches)

    # ---- what was found

    def orders(self, node: Node) -> dict[int, list[Made]]:
        """The steps of each entry on the way to a node."""
        found: dict[int, list[Made]] = defaultdict(list)
        parent = self.parents[node]
        while parent is not None:
            before, cpu, place = parent
            item = self.items[cpu][before.made[cpu][0]]
            entry, step = step_at(item, place)
            found[entry].append(Made(step, before.states[self._at[entry]]))
            parent = self.parents[before]
        return {entry: made[::-1] for entry, made in found.items()}

    def furthest(self) -> list[Call]:
        """The calls that are next where the most are done."""
        node = max(self.parents, key=lambda it: (sum(done for done, _ in it.made), sum(at for _, at in it.made)))
        return [own[done].call for own, (done, _) in zip(self.items, node.made) if done < len(own)]


def step_at(item: Item, place: int) -> tuple[int, Step]:
    """The step at a place of a call, with its entry."""
    if item.access is None:
        return item.entries[place], item.steps[place]
    entry, operation = item.access.operations[place]
    return entry, step_of(item.call, place, operation, item.access.answer)


def step_of(call: Call, place: int, operation: Operation, answer: Answer) -> Step:
    """A step as it stands in an order."""
    return Step(operation, frozenset([answer]), call.begin, call.end, (call.line, place))


def cached_entry(lines: Cached, page: Page) -> Optional[int]:
    """The entry of a current translation of the page."""
    return next((entry for own, entry, is_current in lines if own == page and is_current), None)


def place_of(access: Searched, entry: int, state: State) -> int:
    """The place of the cached entry among those that an access tries, by H if it is there twice."""
    places = [at for at, (own, _operation) in enumerate(access.operations) if own == entry]
    matching = (at for at in places if access.operations[at][1].reply(state)[0] != NO_MATCH)
    return next(matching, places[0])


def filled(lines: Cached, page: Page, entry: Optional[int]) -> Cached:
    """A processor's cache after an access that ended at this entry, or at none; a hit changes nothing."""
    if entry is not None and (page, entry, True) in lines:
        return lines
    if cached_entry(lines, page) is not None:
        return lines  # a hit that was refused
    kept = tuple(line for line in lines if line[0] != page)
    if entry is None:
        return kept
    same_set = [line for line in kept if line[0].number % SETS == page.number % SETS]
    if len(same_set) == LINES:
        kept = tuple(line for line in kept if line != same_set[0])
    return (*kept, (page, entry, True))
