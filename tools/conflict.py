"""The smallest set of calls on an entry of which there is no order, with the calls round it."""

from dataclasses import dataclass, replace
from math import inf

from entry_states import State
from order import Bound, Search, Step, Undecided

MOST_TRIED = 20_000  # steps of a search while the set is made smaller
ENOUGH = 50  # steps before the one that fits nowhere, among which the set is looked for
AROUND = 3  # calls that are shown before and after it

Steps = list[list[Step]]
Made = tuple[int, ...]  # how many steps of each processor


@dataclass(frozen=True)
class Smaller:
    """A set of steps without an order, which is made smaller."""

    steps: Steps
    openings: list[State]

    def has_order(self) -> bool:
        """Whether the steps have an order, or may have one."""
        try:
            return Search(self.steps, self.openings, Bound(MOST_TRIED)).run() is not None
        except Undecided:
            return True

    def without(self, places: set[tuple[int, int]]) -> "Smaller":
        """The same, where it isn't asked what these steps answered."""
        steps = [
            [replace(step, answers=None) if (cpu, at) in places else step for at, step in enumerate(own)]
            for cpu, own in enumerate(self.steps)
        ]
        return Smaller(steps, self.openings)

    @property
    def asked(self) -> list[tuple[int, int]]:
        """The places of the steps whose answers are asked."""
        return [(cpu, at) for cpu, own in enumerate(self.steps) for at, it in enumerate(own) if it.answers is not None]

    def tried(self, size: int) -> "Smaller":
        """Leaves out each part of this size that can be."""
        kept, places = self, self.asked
        for first in range(0, len(places), size):
            smaller = kept.without(set(places[first : first + size]))
            if not smaller.has_order():
                kept = smaller
        return kept

    def smallest(self) -> "Smaller":
        """One of which no step can be left out: large parts are tried first."""
        kept, size = self, max(1, len(self.asked) // 2)
        while size > 1:
            kept, size = kept.tried(size), size // 2
        while len(smaller := kept.tried(1).asked) < len(kept.asked):
            kept = kept.without(set(kept.asked) - set(smaller))
        return kept


@dataclass(frozen=True)
class Conflict:
    """The states that the entry may have had before, the lines of the calls of the set, and all that are shown."""

    states: list[State]
    lines: set[int]
    shown: list[int]


def last_rest(steps: Steps, furthest: Made) -> Made:
    """The last point, enough steps before this one, at which each step had ended or not begun."""
    timed = sorted((step.begin, step.end, cpu, at) for cpu, own in enumerate(steps) for at, step in enumerate(own))
    made, rest, end = [0] * len(steps), tuple([0] * len(steps)), -inf
    for begin, own_end, cpu, at in timed:
        if begin > end and sum(made) + ENOUGH <= sum(furthest):
            rest = tuple(made)
        made[cpu], end = at + 1, max(end, own_end)
    return rest


def conflict_of(steps: Steps, opening: State, bound: Bound) -> Conflict:
    """Why the steps have no order."""
    search = Search(steps, [opening], bound)
    search.run()
    furthest = search.furthest()
    limit, _heads = search.heads(furthest)
    rest = last_rest(steps, furthest.made)
    states = sorted({node.state for node in search.parents if node.made == rest}, key=str)
    window = [[it for it in own[at:] if it.begin <= limit] for own, at in zip(steps, rest)]
    smallest = Smaller(window, states).smallest()
    lines = {smallest.steps[cpu][at].call[0] for cpu, at in smallest.asked}
    timed = sorted((step.begin, step.end, step.call[0]) for own in steps for step in own)
    order = list(dict.fromkeys(line for _begin, _end, line in timed))
    places = [place for place, line in enumerate(order) if line in lines]
    shown = order[max(0, min(places) - AROUND) : max(places) + 1 + AROUND]
    return Conflict(states, lines, shown)
