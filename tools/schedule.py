"""The order in which crates are proved side by side, and how long the rest of it takes."""

from dataclasses import dataclass
from typing import Mapping

from crates import CRATES, is_program, is_static

# A proof's jobs where others wait for it longest.
JOBS = {"trace_read": 2, "trace_runner": 3, "history_check": 2}
JOBS_ALONE = 4  # of a proof that has nothing beside it
# By the jobs of a proof: how long it takes, of what it takes by one job, and how many processors it keeps at work
# meanwhile. Four jobs halve it, and want three tenths more of processor.
SHARES = {1: 1.0, 2: 0.68, 3: 0.56, 4: 0.5}
BUSY = {1: 1.0, 2: 1.7, 3: 2.2, 4: 2.6}
# How long a proof takes goes by the length of its source. What each pays before the first thing of its own,
# and compiling and linking a program or a static library, are as much as these bytes, and by one processor.
STARTING, LINKING = 4_500, 14_000
# The long proofs that take more or less than their length tells, by what they take of it.
WEIGHTS = {
    "trace_runner": 2.0,
    "reply_text": 1.6,
    "trace_read": 1.5,
    "lpar_set": 1.2,
    "history_check": 1.15,
    "entry_lock": 0.8,
    "papr_c": 0.7,
}
ENDED = 1e-6  # what is left at most of a proof that has ended, against rounding


@dataclass(frozen=True)
class Effort:
    """What a crate's proof takes of one processor, in bytes of source: that which jobs share, and the rest."""

    alone: float
    shared: float

    def clock(self, jobs: int) -> float:
        """How long it takes by so many jobs."""
        return self.alone + self.shared * SHARES[jobs]

    def busy(self, jobs: int) -> float:
        """How many processors it keeps at work by so many jobs, where it gets them."""
        at_work = self.alone + self.shared * SHARES[jobs] * BUSY[jobs]
        return at_work / self.clock(jobs) if at_work else 1.0


NONE = Effort(0, 0)  # of what was proved before


def effort_of(name: str, length: int, is_linked: bool) -> Effort:
    """What a crate's proof takes, by the bytes of its source."""
    return Effort(STARTING + LINKING * is_linked, length * WEIGHTS.get(name, 1.0))


def efforts_of(names: list[str], lines: Mapping[str, str]) -> dict[str, Effort]:
    """What the proof of each crate takes, by their lines of crates.txt."""
    linked = {name for name in names if is_program(name) or is_static(lines[name])}
    return {name: effort_of(name, length_of(name), name in linked) for name in names}


def length_of(name: str) -> int:
    """The bytes of a crate's source."""
    return sum(file.stat().st_size for file in (CRATES / name / "src").rglob("*.rt"))


class Plan:
    """Which crate is proved next: of those that can be, the one with the longest chain behind it.

    That is the longest chain of crates from it to the last, each of which waits for the one
    before, by what their proofs take.
    """

    def __init__(
        self, uses: Mapping[str, list[str]], efforts: Mapping[str, Effort], most: int
    ) -> None:
        self.uses, self.efforts, self.most = uses, dict(efforts), most
        self.waiting, self.running, self.proved = list(efforts), dict[str, int](), set[str]()
        self.behind: dict[str, float] = {}
        for name in reversed(self.waiting):
            above = [self.behind[it] for it in self.behind if name in uses[it]]
            self.behind[name] = efforts[name].clock(1) + max(above, default=0)

    def begin(self) -> dict[str, int]:
        """The crates whose proofs begin now, each with its jobs."""
        found = [it for it in self.waiting if self.proved.issuperset(self.uses[it])]
        found.sort(key=self.behind.__getitem__, reverse=True)
        ready = found[: self.most - len(self.running)]
        is_alone = len(ready) + len(self.running) == 1
        begun = {it: min(self.most, JOBS_ALONE if is_alone else JOBS.get(it, 1)) for it in ready}
        for name, jobs in begun.items():
            self.start(name, jobs)
        return begun

    def start(self, name: str, jobs: int) -> None:
        """A crate's proof begins, by so many jobs."""
        self.waiting.remove(name)
        self.running[name] = jobs

    def end(self, name: str) -> None:
        """A crate is proved."""
        del self.running[name]
        self.proved.add(name)

    def pace(self) -> float:
        """How fast the proofs at work are: 1 where each has the processors that it keeps at work."""
        busy = sum(self.efforts[it].busy(jobs) for it, jobs in self.running.items())
        return min(1.0, self.most / busy) if busy else 1.0

    def copy(self) -> "Plan":
        """A plan that goes on by itself."""
        made = Plan(self.uses, self.efforts, self.most)
        made.waiting, made.running, made.proved = [*self.waiting], {**self.running}, {*self.proved}
        return made

    def left(self, at_work: Mapping[str, float]) -> float:
        """How long the rest takes, in the measure of efforts. `at_work` is what is left of those at work."""
        plan, left, now = self.copy(), dict(at_work), 0.0
        while True:
            begun = plan.begin()
            left.update({it: plan.efforts[it].clock(jobs) for it, jobs in begun.items()})
            if not left:
                return now
            step = min(left.values())
            now += step / plan.pace()
            left = {it: rest - step for it, rest in left.items()}
            for name in [it for it, rest in left.items() if rest <= ENDED]:
                del left[name]
                plan.end(name)
