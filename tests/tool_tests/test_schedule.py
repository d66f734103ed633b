"""Tests of the plan of proofs and of what a build says is left, by a model of the machine and recorded times."""

import sys
from dataclasses import dataclass, field

from .support import DATA, TOOLS, ToolTest

sys.path.append(str(TOOLS))

from progress import Estimate, in_words  # noqa: E402
from schedule import NONE, Effort, Plan, effort_of  # noqa: E402

PROGRAM = "papr_main"
PROCESSORS = 4
EVERY = 5.0  # seconds between two questions of how much is left
# Of a proof's seconds, those before the first thing of its own, and of the program's, those of compiling and linking.
STARTING, LINKING = 10, 30
HALF_A_MINUTE = 30  # what is said are whole minutes until the last few


@dataclass
class Recorded:
    """What a machine took for each crate, the lengths of the sources then, and which stood on which."""

    uses: dict[str, list[str]] = field(default_factory=dict)
    lengths: dict[str, int] = field(default_factory=dict)
    seconds: dict[str, float] = field(default_factory=dict)
    slow: float = 1.0  # how many times as long another machine takes

    def efforts(self) -> dict[str, Effort]:
        """What a build expects of these crates."""
        return {name: effort_of(name, length, name == PROGRAM) for name, length in self.lengths.items()}

    def truth(self, name: str) -> Effort:
        """What a crate's proof took, in seconds."""
        whole = self.seconds[name]
        alone = min(whole, STARTING + LINKING * (name == PROGRAM))
        return Effort(self.slow * alone, self.slow * (whole - alone))


def recorded() -> Recorded:
    """The times of tests/data/proofs.txt."""
    found = Recorded()
    for line in (DATA / "proofs.txt").read_text(encoding="ascii").splitlines():
        if not line.startswith("#"):
            head, _, uses = line.partition(":")
            name, length, seconds = head.split()
            found.uses[name], found.lengths[name], found.seconds[name] = uses.split(), int(length), float(seconds)
    return found


@dataclass(frozen=True)
class Said:
    """What a build said at a time was left, and what was."""

    at: float
    said: float
    true: float

    def is_near(self) -> bool:
        """Whether it is within a fourth of the truth, or within half a minute."""
        return abs(self.said - self.true) <= max(self.true / 4, HALF_A_MINUTE)


class Machine:
    """A machine on which proofs take what the truth says; it asks an estimate what is left while they run."""

    def __init__(self, plan: Plan, truth: dict[str, Effort]) -> None:
        self.plan, self.now = plan, 0.0
        self.at_work = Plan(plan.uses, truth, plan.most)
        self.estimate = Estimate(plan, lambda: self.now)
        self.left: dict[str, float] = {}
        self.asked: list[tuple[float, float]] = []
        self.order: list[str] = []

    def begin(self) -> None:
        """Begins the proofs that the plan has begin now."""
        for name, jobs in self.plan.begin().items():
            self.at_work.start(name, jobs)
            self.estimate.begin(name, jobs)
            self.left[name] = self.at_work.efforts[name].clock(jobs)

    def end(self, name: str) -> None:
        """Ends a proof."""
        del self.left[name]
        self.plan.end(name)
        self.at_work.end(name)
        self.estimate.end(name)
        self.order.append(name)

    def build(self) -> list[Said]:
        """Proves all, and gives what was said and was true at each question that had an answer."""
        self.begin()
        while self.left:
            pace = self.at_work.pace()
            step = min(EVERY - self.now % EVERY, min(self.left.values()) / pace)
            self.now += step
            self.left = {name: left - step * pace for name, left in self.left.items()}
            for name in [it for it, left in self.left.items() if left < 1e-6]:
                self.end(name)
            self.begin()
            said = self.estimate.left() if self.left else None
            if said is not None:
                self.asked.append((self.now, said))
        return [Said(at, said, self.now - at) for at, said in self.asked]


class WhatIsLeft(ToolTest):
    """A build's estimate against a model of a machine whose proofs take what was recorded."""

    def setUp(self) -> None:
        super().setUp()
        self.recorded = recorded()

    def build(self, most: int = PROCESSORS) -> list[Said]:
        """A first build."""
        plan = Plan(self.recorded.uses, self.recorded.efforts(), most)
        machine = Machine(plan, {name: self.recorded.truth(name) for name in plan.efforts})
        told = machine.build()
        self.assertEqual(sorted(machine.order), sorted(self.recorded.uses))
        return told

    def assert_near(self, told: list[Said]) -> None:
        """What was said from the middle on was near the truth, and something was said before a fifth was over."""
        whole = told[0].at + told[0].true
        self.assertLess(told[0].at, whole / 5)
        later = [it for it in told if it.at >= whole / 2]
        self.assertGreater(len(later), 40)
        self.assertEqual([it for it in later if not it.is_near()], [])

    def test_it_is_near_from_the_middle_on(self) -> None:
        self.assert_near(self.build())

    def test_it_is_near_on_a_machine_that_is_slower(self) -> None:
        self.recorded.slow = 1.7
        self.assert_near(self.build())

    def test_it_is_near_with_the_ratios_of_another_machine(self) -> None:
        """The six longest proofs as a machine with slow memory took them; the others took 1.65 times as long there."""
        longest = {"trace_runner": 598, "history_check": 402, "trace_read": 289, "lpar_set": 285}
        longest.update({"entry_lock": 270, "reply_text": 200})
        self.recorded.slow = 1.65
        self.recorded.seconds.update({name: seconds / 1.65 for name, seconds in longest.items()})
        self.assert_near(self.build())

    def test_it_is_near_with_two_processors(self) -> None:
        self.assert_near(self.build(most=2))

    def test_it_is_near_where_the_machine_had_other_work_at_first(self) -> None:
        for name in [*self.recorded.seconds][:18]:
            self.recorded.seconds[name] *= 1.2
        self.assert_near(self.build())

    def test_a_proof_that_takes_much_longer_than_all_others_tell_is_told_as_nearly_done(self) -> None:
        """It is never told that nothing is left while a proof runs."""
        self.recorded.seconds["lpar_set"] = 900
        told = self.build()
        self.assertGreater(min(it.said for it in told), 0)


class WhatIsSaid(ToolTest):
    """The words for a time that is left."""

    def test_minutes_and_the_last_few_in_tens_of_seconds(self) -> None:
        for left, said in ((389, "6 min"), (181, "3 min"), (179, "180 s"), (114, "110 s"), (16, "20 s"), (1, "10 s")):
            self.assertEqual(in_words(left), said)


class TheOrder(ToolTest):
    """Which proofs begin when."""

    def test_the_longest_chain_first(self) -> None:
        uses: dict[str, list[str]] = {"low": [], "other": [], "high": ["low"], "top": ["high", "other"]}
        plan = Plan(uses, {name: Effort(10 + (name == "high"), 0) for name in uses}, 1)
        begun = []
        while plan.waiting:
            (name,) = plan.begin()
            begun.append(name)
            plan.end(name)
        self.assertEqual(begun, ["low", "high", "other", "top"])

    def test_a_crate_begins_behind_those_that_it_uses(self) -> None:
        plan = Plan({"low": [], "high": ["low"]}, {"low": Effort(0, 1), "high": Effort(0, 9)}, 4)
        self.assertEqual(plan.begin(), {"low": 4})
        self.assertEqual(plan.begin(), {})
        plan.end("low")
        self.assertEqual(plan.begin(), {"high": 4})

    def test_no_more_proofs_than_processors(self) -> None:
        plan = Plan({name: [] for name in "abc"}, {name: Effort(0, 1) for name in "abc"}, 2)
        self.assertEqual(len(plan.begin()), 2)
        self.assertEqual(plan.begin(), {})

    def test_what_is_left_of_a_chain_is_its_length(self) -> None:
        uses: dict[str, list[str]] = {"low": [], "high": ["low"]}
        plan = Plan(uses, {"low": Effort(30, 0), "high": Effort(12, 0)}, 4)
        self.assertEqual(plan.left({}), 42)
        plan.begin()
        self.assertEqual(plan.left({"low": 5}), 17)

    def test_what_is_left_of_many_is_shared_by_the_processors(self) -> None:
        plan = Plan({name: [] for name in "abcd"}, {name: Effort(0, 10) for name in "abcd"}, 2)
        self.assertEqual(plan.left({}), 20)

    def test_what_was_proved_before_takes_no_time(self) -> None:
        plan = Plan({"low": [], "high": ["low"]}, {"low": NONE, "high": Effort(10, 0)}, 4)
        self.assertEqual(plan.left({}), 10)
