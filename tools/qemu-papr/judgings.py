"""Parts of a recording, judged by several processes: the lines come in the order of the parts."""

import signal
from collections import deque
from concurrent.futures import Future, ProcessPoolExecutor
from dataclasses import dataclass
from pathlib import Path
from typing import Callable, Iterator, Optional

from common import Bad
from judging import judge
from recorded_traces import Written, written
from recordings import Part, Place, part_at
from writing import whole

GOOD = "good"


@dataclass(frozen=True)
class Judged:
    """What is said of a part, and its verdict, if there is one."""

    number: int
    line: str
    verdict: Optional[str] = None
    is_unrecorded: bool = False

    @property
    def is_bad(self) -> bool:
        """Whether the part was judged, and isn't good."""
        return self.verdict not in (None, GOOD)


@dataclass(frozen=True)
class Work:
    """What is done with each part of a recording."""

    folder: Path
    parts: Optional[Path]
    is_judged: bool

    def __call__(self, place: Place) -> Judged:
        """Makes a part's trace with replies, and judges it."""
        part = part_at(self.folder, place)
        if part.unrecorded is not None:
            why = f"no trace has what was done with a table of order {part.unrecorded}"
            line = f"part {part.number}: not recorded, so that it can't be judged: {why}"
            return Judged(part.number, line, is_unrecorded=True)
        made = written(part)
        if self.parts is not None:
            write(part, made, self.parts)
        found = verdict(made) if self.is_judged else None
        return Judged(part.number, line_of(part, made, found), found)


def write(part: Part, made: Written, folder: Path) -> None:
    """Writes a part's trace and replies into a folder."""
    for ending, lines in (("trace", made.trace), ("replies", made.replies)):
        path = folder / f"part-{part.number}.{ending}"
        with whole(path, path) as out:
            out.writelines(lines)


def verdict(made: Written) -> str:
    """What papr says of a part."""
    section = judge("".join(made.trace).encode(), "".join(made.replies).encode())
    return GOOD if section is None else f"bad section {section}"


def line_of(part: Part, made: Written, found: Optional[str]) -> str:
    """A line about a part."""
    counts = ", ".join(f"{made.counts[name]:,} {name}" for name in ("calls", "walks", "hits", "segments"))
    end = "" if found is None else f": {found}"
    return f"part {part.number}: {len(made.replies):,} lines, {len(part.sections)} sections, {counts}{end}"


def leave_signals() -> None:
    """The process that gives out the work hears an interrupt, and those that do it don't."""
    signal.signal(signal.SIGINT, signal.SIG_IGN)
    signal.signal(signal.SIGTERM, signal.SIG_DFL)


def side_by_side(
    pool: ProcessPoolExecutor, jobs: int, work: Callable[[Place], Judged], places: Iterator[Optional[Place]]
) -> Iterator[Judged]:
    """The same with a pool. What was begun before a fault of the recording comes before it."""
    waiting: deque[Future[Judged]] = deque()
    fault: Optional[Bad] = None
    try:
        for place in places:
            if place is not None:
                waiting.append(pool.submit(work, place))
            while waiting and (len(waiting) > 2 * jobs or waiting[0].done()):
                yield waiting.popleft().result()
    except Bad as error:
        fault = error
    while waiting:
        yield waiting.popleft().result()
    if fault is not None:
        raise fault


def in_order(work: Callable[[Place], Judged], places: Iterator[Optional[Place]], jobs: int) -> Iterator[Judged]:
    """What is said of each part, in order. A place may be nothing, where another one is waited for."""
    if jobs == 1:
        yield from (work(place) for place in places if place is not None)
        return
    pool = ProcessPoolExecutor(jobs, initializer=leave_signals)
    try:
        yield from side_by_side(pool, jobs, work, places)
    finally:
        pool.shutdown(cancel_futures=True)
