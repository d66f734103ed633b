"""The lines of a trace: which are quiet, what some calls ask, and how many lines papr takes."""

from argparse import ArgumentTypeError
from dataclasses import dataclass
from typing import Optional

from hypercalls import TABLE, WINDOW, names_on
from numerals import read_number
from papr import numbers

MOST_LINES, MOST_BYTES = 2**17, 2**24
MOST_QUIET, MOST_DUMPS = 256, 16
MOST_ENTRIES, ORDERS = numbers.ENTRIES, numbers.ORDERS
DIGITS = "0123456789"
SETTINGS = ("order", "limit", "cpus", "pool", "ram", "io", "entry", "window", "begin")  # that begin a line

PREPARE, COMMIT = "H_RESIZE_HPT_PREPARE", "H_RESIZE_HPT_COMMIT"
RESIZES = names_on(TABLE)
PUTS = {number: name for number, name in names_on(WINDOW).items() if name == "H_PUT_TCE"}
A_PAGE, PERMISSIONS = 2**12, 0x3  # of a DMA window's page in bytes, and of a TCE


@dataclass(frozen=True)
class Resize:
    """A resize call, by its name or by its number."""

    name: str
    flags: int
    shift: int


@dataclass(frozen=True)
class Put:
    """An H_PUT_TCE, by its name or by its number."""

    liobn: int
    ioba: int
    tce: int

    @property
    def entry(self) -> tuple[int, int]:
        """The window's number, and the page of its bus addresses."""
        return self.liobn, self.ioba // A_PAGE

    @property
    def empties(self) -> bool:
        """Whether the TCE permits nothing, and so empties the entry."""
        return not self.tce & PERMISSIONS


def read_order(word: str) -> int:
    """An order of a table, as an option names it."""
    value = read_number(word)
    if value not in ORDERS:
        raise ArgumentTypeError(f"{word} is not {ORDERS[0]} to {ORDERS[-1]}")
    return value


def number_of(words: list[str], place: int) -> Optional[int]:
    """The number at a place of a line: 0 where no word is there, and nothing where it isn't one."""
    return numbers.number(words[place]) if place < len(words) else 0


def begins_with_digit(words: list[str]) -> bool:
    """Whether a line begins as one with a number does, be it one or not."""
    return bool(words) and words[0][0] in DIGITS


def is_of_trace(words: list[str]) -> bool:
    """Whether a first line is that of a trace: a remark or a setting, which no reply is."""
    return bool(words) and (words[0][0] == "#" or words[0] in SETTINGS)


def is_run_line(words: list[str]) -> bool:
    """Whether a line has a reply: it begins with a processor's number, or is a dump."""
    return begins_with_digit(words) or words[:1] == ["dump"]


def call_of(
    words: list[str], calls: dict[int, str], count: int
) -> Optional[tuple[str, list[int]]]:
    """The name and the arguments of one of these calls, or nothing of any other line."""
    if len(words) < 3:
        return None
    name, first = words[1], 2
    if name == "hcall":
        name, first = calls.get(number_of(words, 2) or 0, ""), 3
    if name not in calls.values():
        return None
    found = (number_of(words, first + place) for place in range(count))
    given = [number for number in found if number is not None]
    return (name, given) if len(given) == count else None


def resize_of(words: list[str]) -> Optional[Resize]:
    """The resize call that a line makes, or nothing of any other line."""
    call = call_of(words, RESIZES, 2)
    return None if call is None else Resize(call[0], *call[1])


def put_of(words: list[str]) -> Optional[Put]:
    """The H_PUT_TCE that a line makes, or nothing of any other line."""
    call = call_of(words, PUTS, 3)
    return None if call is None else Put(*call[1])


def is_quiet(words: list[str]) -> bool:
    """Whether a line is a dump or a resize call, and so ends a section."""
    return words[:1] == ["dump"] or resize_of(words) is not None
