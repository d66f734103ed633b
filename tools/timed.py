"""A trace with replies of any program, and the begin and end time of each call where they were recorded."""

import re
from argparse import ArgumentTypeError
from dataclasses import dataclass, replace
from math import inf
from typing import Iterable, Optional

from common import Bad
from hypercalls import ENTRIES, WINDOW, names_on
from numerals import number_of, read_number
from traces import is_quiet, is_run_line

TIMES = re.compile(r"(.*?) @ (\S+) (\S+)")
BY = ("hit", "walk")
WINDOW_CALLS = names_on(WINDOW)
ON_WINDOWS = (*WINDOW_CALLS.values(), "dmaread", "dmawrite")
CALLS = names_on(ENTRIES)
ARGUMENTS = 8


@dataclass(frozen=True)
class Call:
    """A run line with its reply."""

    line: int
    cpu: int
    words: list[str]  # of the trace's line
    told: list[str]  # of the reply, behind the name; without receipts, and without hit and walk
    begin: float = -inf
    end: float = inf

    @property
    def name(self) -> str:
        """The call's name, also of one by its number."""
        if self.words[1] != "hcall":
            return self.words[1]
        return CALLS.get(number_of(self.words[2]), "")

    @property
    def arguments(self) -> list[int]:
        """The registers of a hypervisor call; missing ones are 0."""
        given = self.words[3:] if self.words[1] == "hcall" else self.words[2:]
        return [*map(number_of, given), *[0] * (ARGUMENTS - len(given))]

    @property
    def values(self) -> list[int]:
        """The words of the reply, behind the code."""
        return [number_of(word) for word in self.told[1:]]

    @property
    def times(self) -> str:
        """The times as the text has them, or nothing."""
        return "" if self.begin == -inf or self.end == inf else f" @ {self.begin:.0f} {self.end:.0f}"

    def __str__(self) -> str:
        return f"{self.line} {' '.join(self.words)} -> {' '.join(self.told)}{self.times}"


def number_in(word: str, line: int) -> int:
    """A number of a reply."""
    try:
        return read_number(word)
    except ArgumentTypeError as error:
        raise Bad(f"the reply to line {line}: {error}") from error


def run_lines(trace: list[str]) -> dict[int, list[str]]:
    """The words of each run line by its number. Lines that aren't judged here are refused."""
    found: dict[int, list[str]] = {}
    for number, text in enumerate(trace, start=1):
        words = text.split()
        if not is_run_line(words):
            continue
        if is_quiet(words):
            raise Bad(f"line {number} of the trace is a quiet line; cut the trace before it")
        is_by_number = len(words) > 2 and words[1] == "hcall"
        if words[1:2] and words[1] in ON_WINDOWS or is_by_number and number_in(words[2], number) in WINDOW_CALLS:
            raise Bad(f"line {number} of the trace is on a DMA window, which has no order here")
        found[number] = words
    return found


def call_of(text: str, lines: dict[int, list[str]]) -> Call:
    """The call that a line of the replies answers."""
    timed = TIMES.fullmatch(text.rstrip())
    words = (timed[1] if timed else text).partition(" |")[0].split()
    number = number_in(words[0], 0) if words and words[0].isdigit() else 0
    asked = lines.get(number)
    if asked is None:
        raise Bad(f"this is no reply to a run line of the trace: {text.strip()[:60]}")
    is_known = len(words) > 3 and number_in(words[1], number) == number_in(asked[0], number)
    if not is_known or words[2] != asked[1]:
        raise Bad(f"this is no reply to line {number}: {text.strip()[:60]}")
    told = words[3:-1] if words[-1] in BY else words[3:]
    call = Call(number, number_in(asked[0], number), asked, told)
    if call.name.startswith("H_"):
        for word in told[1:]:
            number_in(word, number)
    if timed is None:
        return call
    begin, end = number_in(timed[2], number), number_in(timed[3], number)
    if end < begin:
        raise Bad(f"line {number} ended before it began")
    return replace(call, begin=begin, end=end)


def with_times(calls: list[Call]) -> list[Call]:
    """One processor's calls; those without times lie between the ones before and after them."""
    result: list[Call] = []
    earliest = -inf
    for call in calls:
        if call.begin == -inf:
            call = replace(call, begin=earliest)
        elif call.begin < earliest:
            raise Bad(f"line {call.line} began before the line of its processor before it ended")
        earliest = call.end if call.end < inf else call.begin
        result.append(call)
    latest = inf
    for place in reversed(range(len(result))):
        if result[place].end == inf:
            result[place] = replace(result[place], end=latest)
        latest = result[place].begin if result[place].begin > -inf else latest
    return result


def read_calls(trace: list[str], replies: Iterable[str]) -> list[list[Call]]:
    """The calls of each processor, in its order; the replies may stand in any order."""
    lines = run_lines(trace)
    found: dict[int, Call] = {}
    for text in replies:
        if not text.strip() or text.startswith("#"):
            continue
        call = call_of(text, lines)
        if call.line in found:
            raise Bad(f"line {call.line} has two replies")
        found[call.line] = call
    missing = next((number for number in lines if number not in found), None)
    if missing is not None:
        raise Bad(f"line {missing} has no reply")
    cpus = 1 + max((call.cpu for call in found.values()), default=0)
    by_cpu: list[list[Call]] = [[] for _ in range(cpus)]
    for number in sorted(found):
        by_cpu[found[number].cpu].append(found[number])
    return [with_times(calls) for calls in by_cpu]


def machine_of(trace: list[str], name: str) -> Optional[list[str]]:
    """The words of the first configuration line of this name, if there is one."""
    return next((words for text in trace if (words := text.split())[:1] == [name]), None)
