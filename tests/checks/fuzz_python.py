"""Calls of the Python package with numbers of all kinds, over the library.

Each call is made twice: on a table, and on a pass of a shared table with the same entries. Both have to answer the
same, with numbers that a table of that size can have, and both tables have to end with the same bytes. Resizes, DMA
windows, segments, transfers and single doublewords are tried beside them. Nothing may be raised but what the package
says of such numbers.
"""

import argparse
import random
import time
from collections import Counter
from typing import Any, Callable

import common  # noqa: F401  (it finds the package papr)
import papr
from checks.running import Failed, need_library
from papr.numbers import WORDS

CALLS = 100  # on one table
ORDER, LIMIT = 18, 20
GRANTS = (papr.Grant(0x0, 0x20_0000_0000, 0x4000_0000), papr.Grant(0x8000_0000, 0x30_0000_0000, 0x1_0000, True))
FLAGS = [0, 0, 0x80_0000_0000, 0x20_0000_0000, 0x8000_0000, 0x4000_0000, 0x2, 0x4]
TAGS = [0x1001, 0x1011, 0x1005, 0x4000_0000_0100_0001, 0x2001, 0x1000]
REALS = [0x3012, 0x4012, 0x3112, 0x8000_002A, 0x3010, 0x1_3012, 0x7012]
EDGES = [0, 1, 2**32, 2**60, 2**63, WORDS - 1]
NUMBERS = [0x04, 0x08, 0x0C, 0x10, 0x14, 0x18, 0x124, 0x36C, 0x20, 0]
REFUSALS = (papr.PaprError, OverflowError)

Call = tuple[str, tuple[Any, ...]]


class Wrong(Exception):
    """What the package did isn't right."""


class Numbers:
    """Numbers that are drawn: mostly such as a guest has, and some of all bits."""

    def __init__(self, draw: random.Random) -> None:
        self.draw = draw

    def of(self, usual: list[int]) -> int:
        """One of these, one at an edge, or any of 64 bits; seldom one that has more."""
        kind = self.draw.random()
        if kind < 0.85:
            return self.draw.choice(usual)
        if kind < 0.99:
            return self.draw.choice([self.draw.choice(EDGES), self.draw.getrandbits(self.draw.choice([8, 18, 64]))])
        return self.draw.choice([-1, WORDS, 2**80])

    def ptex(self) -> int:
        """An index: mostly of one of a few groups."""
        return self.of(list(range(0x20, 0x30)) + [0x3FD8, 0x3FFF, 0x4000])

    def tag(self) -> int:
        """What a call compares with a first doubleword."""
        return self.of([0, *TAGS])

    def call(self) -> Call:
        """A call on entries, by its name or by its number."""
        flags, ptex = self.of(FLAGS), self.ptex()
        pairs = [word for _ in range(4) for word in (self.draw.choice([1, 2, 3]) << 62 | ptex, self.tag())]
        return self.draw.choice([
            ("h_enter", (flags, ptex, self.of(TAGS), self.of(REALS))),
            ("h_enter", (0x80_0000_0000, ptex, self.of(TAGS), self.of(REALS))),
            ("h_remove", (flags, ptex, self.tag())),
            ("h_protect", (flags, ptex, self.tag())),
            ("h_read", (flags, ptex)),
            ("h_clear_ref", (flags, ptex)),
            ("h_clear_mod", (flags, ptex)),
            ("h_bulk_remove", (pairs[: self.draw.choice([8, 8, 2, 0])],)),
            ("hcall", (self.of(NUMBERS), flags, ptex, self.of(TAGS), self.of(REALS))),
            ("walk", (self.access(),)),
        ])

    def access(self) -> papr.Access:
        """An access."""
        want, shift = self.draw.choice(list(papr.Want)), self.draw.choice([12, 12, 12, 16, 24, 34, 0, 63, 255])
        ea, vsid = self.draw.choice([0x5000, 0x4000, 0x5FFF, self.draw.getrandbits(64)]), self.draw.choice([1, 0, 2])
        one_tb, key, no_execute = (self.draw.random() < 0.3 for _ in range(3))
        masks = self.draw.choice([0, 0, 3 << 62]), self.draw.choice([0, 0, 1])
        return papr.Access(ea, vsid, want, shift, one_tb, key, no_execute, *masks)


def answered(call: Callable[..., Any], *arguments: Any) -> Any:
    """What a call answers, or the refusal that it raises."""
    try:
        return call(*arguments)
    except REFUSALS as error:
        return f"{type(error).__name__}: {error}"


def check_numbers(reply: Any, size: int) -> None:
    """A reply's numbers are such as a table of this size has."""
    for receipt in getattr(reply, "receipts", ()):
        if not (receipt.entry < size and receipt.stamp < 2**32 and receipt.bits < 4):
            raise Wrong(f"receipt {receipt}")
    if any(not 0 <= word < WORDS for word in getattr(reply, "words", ())):
        raise Wrong(f"words {reply.words}")


def try_table(numbers: Numbers, ends: Counter[str]) -> None:
    """Makes the same calls on a table and on a pass of a shared one."""
    alone, given = papr.Table(ORDER, GRANTS), papr.Table(ORDER, GRANTS)
    with papr.SharedTable(given) as shared, shared.split() as own:
        for _ in range(CALLS):
            name, arguments = numbers.call()
            one, other = (answered(getattr(it, name), *arguments) for it in (alone, own))
            if one != other:
                raise Wrong(f"{name} {arguments}: {one} of the table, and {other} of the pass")
            check_numbers(one, len(alone))
            ends[name] += 1
    if alone.export_entries() != given.export_entries():
        raise Wrong("the tables differ after the same calls")
    try_resizes(numbers, alone, ends)
    try_transfers(numbers, alone, ends)


def try_resizes(numbers: Numbers, table: papr.Table, ends: Counter[str]) -> None:
    """Resize calls of a guest: any shift, below a limit that the hypervisor sets."""
    for _ in range(4):
        flags, shift = numbers.of([0, 0, 0, 1]), numbers.of([0, 17, 18, 18, 19, 20, 21, 34, 46, 64])
        if numbers.draw.random() < 0.5:
            answered(table.h_resize_hpt_prepare, flags, shift, LIMIT)
        else:
            ended = answered(table.h_resize_hpt_commit, flags, shift)
            if getattr(ended, "code", None) is papr.Code.H_SUCCESS and len(table) != 1 << shift - 4:
                raise Wrong(f"a table of {len(table)} entries after a commit of shift {shift}")
        ends["resize"] += 1


def try_transfers(numbers: Numbers, table: papr.Table, ends: Counter[str]) -> None:
    """Entries as bytes: what a table exports, another one takes back."""
    layout = numbers.draw.choice(list(papr.Layout))
    data = answered(table.export_entries, layout)
    if isinstance(data, bytes):
        other = papr.Table(table.order, GRANTS)
        if answered(other.import_entries, data, layout) is None and other.export_entries(layout) != data:
            raise Wrong("other bytes come out than went in")
        drawn = numbers.draw.randbytes(16 * numbers.draw.randrange(4))
        answered(other.import_entries, drawn, layout, numbers.draw.randrange(9))
    ends["transfer"] += 1


def try_others(numbers: Numbers, ends: Counter[str]) -> None:
    """DMA windows, segments and doublewords."""
    window, segments = papr.Window(0x1000, 16, GRANTS), papr.Segments()
    for _ in range(CALLS):
        ioba = numbers.of([0x0, 0x1000, 0x1008, 0x5000, 0x10FFF, 0x11000])
        check_numbers(answered(window.put_tce, ioba, numbers.of([0, 0x3001, 0x4003, 0x8000_0003])), len(window))
        for call in (window.get_tce, window.read, window.write):
            check_numbers(answered(call, ioba), len(window))
        answered(segments.slbmte, numbers.of([0x800_0000, 0x1800_0001, 0]), numbers.of([0x1000, 1 << 62 | 1 << 24]))
        doublewords = numbers.of(TAGS), numbers.of(REALS)
        page = answered(papr.decode, numbers.of([18, 22, 34]) % 256, numbers.ptex(), *doublewords)
        if isinstance(page, papr.Page) and not (page.key < 32 and page.protection < 8 and page.wimg < 16):
            raise Wrong(f"{page}")
        ends["others"] += 1


def add_options(parser: argparse.ArgumentParser) -> None:
    """The options of this check."""
    parser.add_argument("--seconds", type=float, default=20, help="20 where it is left out")
    parser.add_argument("--seed", type=int, default=1, help="1 where it is left out")


def check(given: argparse.Namespace) -> str:
    """Calls with drawn numbers, for some time."""
    need_library()
    ends: Counter[str] = Counter()
    seed, end = given.seed * 1_000_000, time.monotonic() + given.seconds
    while time.monotonic() < end:
        seed += 1
        numbers = Numbers(random.Random(seed))
        try:
            try_table(numbers, ends)
            try_others(numbers, ends)
        except Exception as error:
            raise Failed(f"the table of seed {seed}: {type(error).__name__}: {error}") from error
    print(", ".join(f"{count} {name}" for name, count in ends.most_common()))
    return f"{sum(ends.values())} calls, none failed"
