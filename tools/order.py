"""The search for an order of the steps on one entry: each has the answer that it has, between its times."""

from dataclasses import dataclass, field
from math import inf
from typing import Iterator, NamedTuple, Optional

from allowances import NOTHING, Allowed, difference
from common import Bad
from entry_states import NO_MATCH, Answer, ClearHeld, Operation, State

QUIET = ("taken", "read", "notfound", "nomatch", "denied", "masked")  # answers of steps that change nothing


class Undecided(Bad):
    """The bound of steps is reached."""

    status = 3


@dataclass
class Bound:
    """How many steps may still be tried."""

    left: int

    def take(self) -> None:
        """Counts one."""
        self.left -= 1
        if self.left < 0:
            raise Undecided("the bound of steps is reached")


@dataclass(frozen=True, eq=False)
class Step:
    """What a call did to the entry, by its reply."""

    operation: Operation
    answers: Optional[frozenset[Answer]]  # those that the reply allows; any, where it isn't asked
    begin: float
    end: float
    call: tuple[int, int]  # the line, and the step's place in it
    allowed: Allowed = NOTHING  # known differences of other hypervisors, which the answers may have
    may_skip: bool = False  # an access that may have ended at an entry before this one

    @property
    def is_quiet(self) -> bool:
        """Whether it leaves the entry as it is, wherever it stands."""
        if self.answers is None or self.may_skip:
            return False
        return all(answer[0] in QUIET for answer in self.answers)

    def allowance(self, state: State) -> Optional[str]:
        """The known difference by which the step has its answer in a state that doesn't give it."""
        is_held = state is not None and state[2] is not None
        if not self.allowed or self.answers is None or is_held:
            return None
        (answer,) = self.answers
        return None if self.operation.reply(state)[0] == answer else difference(self.allowed, answer, state)

    def rank(self, before: State, after: State) -> int:
        """How late the step is tried: first the end of a clearing in two steps, last what needs a difference."""
        if isinstance(self.operation, ClearHeld):
            return 0
        if self.allowance(before) is not None:
            return 3
        return 1 if after == before else 2

    def after(self, state: State) -> Iterator[State]:
        """The states that the step may leave, the likeliest first."""
        answer, after = self.operation.reply(state)
        if answer == ("held",):
            return
        if self.answers is None or answer in self.answers or self.may_skip and answer == NO_MATCH:
            yield after
            if self.may_skip and after != state:
                yield state
        elif self.may_skip or self.allowance(state) is not None:
            yield state


class Node(NamedTuple):
    """How many steps of each processor are made, and the state that they left."""

    made: tuple[int, ...]
    state: State


class Made(NamedTuple):
    """A step of the order, and the state that it found."""

    step: Step
    state: State


@dataclass
class Search:
    """The steps of each processor, and what was tried of them."""

    steps: list[list[Step]]
    openings: list[State]
    bound: Bound
    parents: dict[Node, Optional[tuple[Node, int]]] = field(default_factory=dict)

    def run(self) -> Optional[Node]:
        """Where all steps are made, or nothing where no order is left to try."""
        whole = tuple(map(len, self.steps))
        stack = [Node((0,) * len(whole), state) for state in self.openings]
        self.parents = {node: None for node in stack}
        while stack:
            node = stack.pop()
            if node.made == whole:
                return node
            self.bound.take()
            for cpu, state in reversed(self.next_of(node)):
                after = Node((*node.made[:cpu], node.made[cpu] + 1, *node.made[cpu + 1 :]), state)
                if after not in self.parents:
                    self.parents[after] = node, cpu
                    stack.append(after)
        return None

    def heads(self, node: Node) -> tuple[float, list[tuple[int, Step]]]:
        """The next step of each processor, and when the first of them had ended."""
        heads = [(cpu, own[at]) for cpu, (own, at) in enumerate(zip(self.steps, node.made)) if at < len(own)]
        return min((step.end for _cpu, step in heads), default=inf), heads

    def next_of(self, node: Node) -> list[tuple[int, State]]:
        """The processors whose step can be next, with the state after it, the likeliest first.

        A step that changes nothing wherever it stands is taken at once: what follows it is as it was.
        """
        limit, heads = self.heads(node)
        found: list[tuple[int, float, tuple[int, int], int, State]] = []
        for cpu, step in heads:
            if step.begin > limit:
                continue
            after = list(step.after(node.state))
            if after and step.is_quiet and step.allowance(node.state) is None:
                return [(cpu, after[0])]
            found += [(step.rank(node.state, state), step.end, step.call, cpu, state) for state in after]
        found.sort(key=lambda it: it[:3])
        return [(cpu, state) for _rank, _end, _call, cpu, state in found]

    def order(self, node: Node) -> list[Made]:
        """The steps on the way to a node."""
        made: list[Made] = []
        parent = self.parents[node]
        while parent is not None:
            before, cpu = parent
            made.append(Made(self.steps[cpu][before.made[cpu]], before.state))
            parent = self.parents[before]
        return made[::-1]

    def furthest(self) -> Node:
        """Where the most steps are made."""
        return max(self.parents, key=lambda node: sum(node.made))


def find_order(steps: list[list[Step]], opening: State, bound: Bound) -> Optional[list[Made]]:
    """An order of all steps, or nothing where there is none."""
    search = Search(steps, [opening], bound)
    node = search.run()
    return None if node is None else search.order(node)
