"""Grants of memory for a trace: those given, and those that its H_ENTER calls need."""

import argparse
from bisect import bisect_right
from collections import Counter
from dataclasses import dataclass
from typing import Iterable, Optional

from common import Bad
from numerals import read_number

MOST_GRANTS = 64
GRANULE = 4_096
POOL = (0x10_0000_0000, 0x10_0000_0000 + 2**24)  # where tables lie by default
MACHINE = 0x20_0000_0000  # where worked-out grants begin
MACHINE_STEP = 2**24
ADDRESS_END = 2**60
PAGE_END = 2**59  # no grant is worked out for a page above, so that all have a place

# Base shift, actual shift, and the low part of the real page number, of a page with L set.
LARGE_SIZES = (
    (16, 16, 0x1),
    (24, 24, 0x0),
    (34, 34, 0x3),
    (12, 16, 0x7),
    (12, 24, 0x38),
    (16, 24, 0x8),
)

# W (8), I (4), M (2) and G (1), as papr takes them in a grant of each kind.
SUITED = {"ram": (0x2, 0xE), "io": (0x4, 0x5)}

Range = tuple[int, int]  # first byte, and one past the last
Page = tuple[str, Range]  # `ram` or `io`, and the logical range


@dataclass(frozen=True)
class Grant:
    """Memory that the guest may map."""

    kind: str
    logical: int
    machine: int
    length: int

    @property
    def pages(self) -> Range:
        """The logical range."""
        return self.logical, self.logical + self.length

    @property
    def frames(self) -> Range:
        """The machine range."""
        return self.machine, self.machine + self.length

    def __str__(self) -> str:
        return f"{self.kind} {self.logical:#x} {self.machine:#x} {self.length:#x}"


def actual_shift(dword0: int, dword1: int) -> Optional[int]:
    """The size of the page that the doublewords map, as a binary logarithm of bytes."""
    if not dword0 & 0x04:
        return 12
    number = (dword1 & 0x0FFF_FFFF_FFFF_F000) >> 12
    for _base, actual, low in LARGE_SIZES:
        if number % 2 ** (actual - 12) == low:
            return actual
    return None


def entered_page(dword0: int, dword1: int) -> Optional[Page]:
    """The page that an H_ENTER maps, as QEMU takes it: M alone is ram, I without W is io."""
    shift = actual_shift(dword0, dword1)
    write_through, inhibited, coherent = dword1 & 0x40, dword1 & 0x20, dword1 & 0x10
    if shift is None or dword0 >> 62 > 1 or write_through:
        return None
    if not inhibited and (not coherent or dword1 & 0x08):
        return None
    start = (dword1 & 0x0FFF_FFFF_FFFF_F000) >> shift << shift
    if start + 2**shift > PAGE_END:
        return None
    return "io" if inhibited else "ram", (start, start + 2**shift)


def suits(dword1: int, kind: str) -> bool:
    """Whether papr takes W, I, M and G in a grant of this kind."""
    return dword1 >> 3 & 0xF in SUITED[kind]


def is_held(dword0: int, dword1: int, grants: "Held") -> bool:
    """Whether papr's H_ENTER takes the words: one grant holds the page, and suits W, I, M and G."""
    shift = actual_shift(dword0, dword1)
    if shift is None or dword0 >> 62 > 1:
        return False
    start = (dword1 & 0x0FFF_FFFF_FFFF_F000) >> shift << shift
    grant = grants.around((start, start + 2**shift))
    return grant is not None and suits(dword1, grant.kind)


def meets(one: Range, other: Range) -> bool:
    """Whether the two have a byte in common."""
    return one[0] < other[1] and other[0] < one[1]


def inside(one: Range, other: Range) -> bool:
    """Whether the first lies in the second."""
    return other[0] <= one[0] and one[1] <= other[1]


def merged(ranges: Iterable[Range]) -> list[Range]:
    """The same bytes as ranges that neither meet nor touch, in rising order."""
    result: list[Range] = []
    for start, end in sorted(ranges):
        if result and start <= result[-1][1]:
            result[-1] = result[-1][0], max(result[-1][1], end)
        else:
            result.append((start, end))
    return result


class Others:
    """Ranges, in order, so that one that isn't empty need not be compared with each of them."""

    def __init__(self, ranges: Iterable[Range]) -> None:
        whole = merged(ranges)
        self._starts, self._ends = [start for start, _ in whole], [end for _, end in whole]

    def meet(self, one: Range) -> bool:
        """Whether one of them has a byte in common with this range."""
        at = bisect_right(self._ends, one[0])
        return at < len(self._ends) and self._starts[at] < one[1]


class Held:
    """Grants, of which no two meet, in the order of their logical ranges."""

    def __init__(self, grants: Iterable[Grant]) -> None:
        self._grants = sorted(grants, key=lambda grant: grant.logical)
        self._starts = [grant.logical for grant in self._grants]

    def around(self, page: Range) -> Optional[Grant]:
        """The grant that holds a page."""
        at = bisect_right(self._starts, page[0]) - 1
        return self._grants[at] if at >= 0 and inside(page, self._grants[at].pages) else None


def spanned(ranges: list[Range], others: Others) -> list[Range]:
    """The ranges with every gap closed in which no other range lies."""
    result: list[Range] = []
    for start, end in ranges:
        if result and not others.meet((result[-1][1], start)):
            start = result.pop()[0]
        result.append((start, end))
    return result


def joined(ranges: list[Range], others: Others, room: int) -> list[Range]:
    """At most `room` ranges, made by closing the smallest gaps in which no other range lies."""
    gaps = [(left[1], right[0]) for left, right in zip(ranges, ranges[1:])]
    # Which gap is closed changes no other. Of equal ones the first is closed first.
    open_gaps = sorted((end - start, start) for start, end in gaps if not others.meet((start, end)))
    closed = {start for _size, start in open_gaps[: max(0, len(ranges) - room)]}
    result: list[Range] = []
    for start, end in ranges:
        if result and result[-1][1] in closed:
            start = result.pop()[0]
        result.append((start, end))
    return result[:room]


def free_machine(length: int, grants: list[Grant]) -> int:
    """The lowest machine address from `MACHINE` on where so many bytes meet no grant."""
    ends = {-(-g.frames[1] // MACHINE_STEP) * MACHINE_STEP for g in grants}
    starts = sorted({MACHINE} | {end for end in ends if end > MACHINE})
    return next(
        start
        for start in starts
        if not any(meets((start, start + length), g.frames) for g in grants)
    )


def worked_out(given: list[Grant], pages: Iterable[Page]) -> list[Grant]:
    """The given grants, and for a kind that has none the ones that the pages need."""
    grants = list(given)
    wanted = {"ram", "io"} - {g.kind for g in given}
    ram = merged(page for kind, page in pages if kind == "ram" and kind in wanted)
    inhibited = merged(page for kind, page in pages if kind == "io" and kind in wanted)
    closed = [g.pages for g in given]
    if ram:
        # RAM of a pseries machine begins at 0, so it is one range where nothing else lies in it.
        put(grants, "ram", spanned(merged([(0, 0), *ram]), Others(inhibited + closed)))
    taken = Others(g.pages for g in grants)
    free = [r for r in inhibited if not taken.meet(r)]
    put(grants, "io", joined(free, taken, MOST_GRANTS - len(grants)))
    return grants


def put(grants: list[Grant], kind: str, ranges: list[Range]) -> None:
    """Adds a grant for each range that meets no grant, at free machine addresses."""
    for start, end in ranges:
        if len(grants) == MOST_GRANTS:
            return
        if start == end or any(meets((start, end), g.pages) for g in grants):
            continue
        machine = free_machine(end - start, grants)
        if machine + end - start > ADDRESS_END:
            raise Bad("no machine address is left for the grants that are worked out")
        grants.append(Grant(kind, start, machine, end - start))


def check(grants: list[Grant]) -> None:
    """Refuses what the trace's grammar refuses."""
    if len(grants) > MOST_GRANTS:
        raise Bad(f"a trace has at most {MOST_GRANTS} grants")
    for place, grant in enumerate(grants):
        if grant.length == 0:
            raise Bad(f"grant `{grant}` is empty")
        if any(n % GRANULE for n in (grant.logical, grant.machine, grant.length)):
            raise Bad(f"grant `{grant}` is not aligned to {GRANULE}")
        if max(grant.pages[1], grant.frames[1]) > ADDRESS_END:
            raise Bad(f"grant `{grant}` ends above 2^60")
        if meets(grant.frames, POOL):
            raise Bad(f"grant `{grant}` meets the pool of tables at {POOL[0]:#x}")
        for other in grants[:place]:
            if meets(grant.pages, other.pages) or meets(grant.frames, other.frames):
                raise Bad(f"grant `{grant}` meets grant `{other}`")


def count_ungranted(pages: Counter[Page], grants: list[Grant]) -> int:
    """How many H_ENTER name a page that lies in no single grant of its kind."""
    held = {kind: Held(g for g in grants if g.kind == kind) for kind in SUITED}
    return sum(count for (kind, page), count in pages.items() if held[kind].around(page) is None)


def add_options(parser: argparse.ArgumentParser) -> None:
    """The options that give grants."""
    worked_out_of = {"ram": "from 0 to the highest page entered", "io": "the io pages entered"}
    for kind, default in worked_out_of.items():
        parser.add_argument(
            f"--{kind}",
            nargs=3,
            type=read_number,
            metavar=("LOGICAL", "MACHINE", "LENGTH"),
            action="append",
            default=[],
            help=f"a grant of {kind}; may be repeated (default: {default})",
        )


def given(options: argparse.Namespace) -> list[Grant]:
    """The grants that the options name, which a trace takes."""
    named = [Grant("ram", *g) for g in options.ram] + [Grant("io", *g) for g in options.io]
    check(named)
    return named
