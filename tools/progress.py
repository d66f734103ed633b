"""What a build says while it runs: a line that moves on a terminal, else one for each crate."""

import os
import sys
import threading
import time
from contextlib import contextmanager
from typing import Callable, Iterator, Optional

from schedule import Plan

A_MINUTE = 60  # seconds
FEW_MINUTES = 3  # below which the rest is told in seconds
TEN = 10  # seconds, to which they are rounded
COLUMNS = 80  # of a terminal that doesn't tell
ENOUGH = 0.05  # of the whole, from which on the rest is estimated
LATELY = 0.25  # of the whole: the proofs that ended last, by whose time the rest is estimated
NEARLY = 0.05  # of a proof: what is left at least of one that is at work


class Estimate:
    """How long a build may still take, by the time of the proofs that ended lately and a plan of those to come.

    The machine may have had other work before, so that the proofs that ended first don't count for long.
    """

    def __init__(self, plan: Plan, clock: Callable[[], float] = time.monotonic) -> None:
        self.plan, self.clock = plan.copy(), clock
        self.whole = sum(it.clock(1) for it in plan.efforts.values())
        self.ended: list[tuple[float, float]] = []  # the efforts and the seconds of the proofs that ended
        # The seconds of each proof at work; fewer by the clock's where processors were short.
        self.taken: dict[str, float] = {}
        self.at = clock()
        self.guard = threading.Lock()

    def begin(self, name: str, jobs: int) -> None:
        """A proof begins."""
        with self.guard:
            self.pass_time()
            self.plan.start(name, jobs)
            self.taken[name] = 0

    def end(self, name: str) -> None:
        """A proof ended."""
        with self.guard:
            self.pass_time()
            self.ended.append((self.plan.efforts[name].clock(self.plan.running[name]), self.taken.pop(name)))
            self.plan.end(name)

    def pass_time(self) -> None:
        """Counts the time since the last change to the proofs at work."""
        now = self.clock()
        passed = (now - self.at) * self.plan.pace()
        self.taken = {name: taken + passed for name, taken in self.taken.items()}
        self.at = now

    def speed(self) -> Optional[float]:
        """The effort of a second, by the proofs that ended lately, once enough ended to tell."""
        efforts = seconds = 0.0
        for effort, taken in reversed(self.ended):
            efforts, seconds = efforts + effort, seconds + taken
            if efforts >= LATELY * self.whole:
                break
        return efforts / seconds if seconds and efforts > ENOUGH * self.whole else None

    def left(self) -> Optional[float]:
        """The seconds that are left, once enough is proved to tell."""
        with self.guard:
            self.pass_time()
            speed = self.speed()
            if speed is None:
                return None
            at_work = {}
            for name, taken in self.taken.items():
                effort = self.plan.efforts[name].clock(self.plan.running[name])
                at_work[name] = max(effort - taken * speed, NEARLY * effort)
            return self.plan.left(at_work) / speed


def in_words(left: float) -> str:
    """A time that is left: in minutes, and the last few in tens of seconds."""
    if left >= FEW_MINUTES * A_MINUTE:
        return f"{round(left / A_MINUTE)} min"
    return f"{max(TEN, round(left / TEN) * TEN)} s"


class Progress:
    """Lines on standard error: one that moves on a terminal, else one for each crate."""

    def __init__(self, plan: Plan) -> None:
        self.count, self.last = len(plan.efforts), ""
        self.estimate = Estimate(plan)
        self.done: set[str] = set()
        self.start = time.monotonic()
        self.moves = sys.stderr.isatty()

    def began(self, name: str, jobs: int) -> None:
        """A crate's proof begins."""
        self.estimate.begin(name, jobs)

    def proved(self, name: str) -> None:
        """A crate is proved, or was before."""
        self.estimate.end(name)
        self.done.add(name)
        self.last = name
        if self.moves:
            self.show()
        else:
            self.say(f"crate {len(self.done)} of {self.count}: {name} ({self.clock()})")

    def clock(self) -> str:
        """The time since the start, in minutes and seconds, and how long it may still take."""
        minutes, seconds = divmod(int(time.monotonic() - self.start), 60)
        left = self.estimate.left() if len(self.done) < self.count else None
        told = "" if left is None else f", about {in_words(left)} left"
        return f"{minutes} min {seconds:02} s{told}"

    def counts(self) -> str:
        """How many crates of all are proved."""
        return f"{len(self.done)} of {self.count} crates"

    def show(self) -> None:
        """Writes the moving line anew, or a line of how far it is."""
        last = f"; last {self.last}" if self.last else ""
        line = f"{self.counts()} proved, {self.clock()}{last}"
        if not self.moves:
            self.say(line)
            return
        columns = os.get_terminal_size(sys.stderr.fileno()).columns or COLUMNS
        sys.stderr.write(f"\r\x1b[K{f'papr: {line}'[: columns - 1]}")
        sys.stderr.flush()

    def say(self, words: str) -> None:
        """A line that stays."""
        sys.stderr.write(f"{chr(13) + chr(27) + '[K' if self.moves else ''}papr: {words}\n")
        sys.stderr.flush()


@contextmanager
def moving(progress: Progress) -> Iterator[None]:
    """Moves the line on a terminal once a second; elsewhere says once a minute how far it is."""
    ended = threading.Event()

    def tick() -> None:
        while not ended.wait(1 if progress.moves else A_MINUTE):
            progress.show()

    clock = threading.Thread(target=tick)
    clock.start()
    try:
        yield
    finally:
        ended.set()
        clock.join()
