"""Traces of several processors on the same entries, drawn at random, and what a log of such a run has."""

import random
import re
from dataclasses import dataclass

HEAD = "ram 0x0 0x2000000000 0x40000000\n"
SEGMENT = "slbmte 0x8000000 0x1000"
EXACT, AVPN = 0x8000000000, 0x80000000
FIRST = 0x20  # the entries of the pages at 0x5000 and 0x4000: two groups
ENTRIES, A_GROUP = 16, 8
NEXT_PAGE = 0x800000  # between the addresses of pages of one group
FRAMES = (0x3000, 0x4000, 0x7000)
EMPTIED = 0x4000000000000000


def entered(draw: random.Random, pages: int) -> str:
    """An H_ENTER of a page that the accesses are of: with eight pages each entry of a group has its own."""
    flags = EXACT if pages == A_GROUP or draw.random() < 0.7 else 0
    at = draw.randrange(ENTRIES)
    dword0 = 0x1001 + 0x80 * (at % pages)
    dword1 = draw.choice(FRAMES) | draw.choice((0x10, 0x12, 0x13)) | draw.choice((0, 0, 0x100, 0x180))
    return f"H_ENTER {flags:#x} {FIRST + at:#x} {dword0:#x} {dword1:#x}"


def bulk(draw: random.Random) -> str:
    """An H_BULK_REMOVE of one to four entries."""
    pairs = [f"{EMPTIED | FIRST + draw.randrange(ENTRIES):#x} 0x0" for _ in range(draw.randrange(1, 4))]
    return " ".join(["H_BULK_REMOVE", *pairs, *["0xc000000000000000 0x0"] * (4 - len(pairs))])


def call(draw: random.Random, pages: int) -> str:
    """One call or access."""
    entry = f"{FIRST + draw.randrange(ENTRIES):#x}"
    kind = draw.randrange(20)
    if kind < 5:
        return entered(draw, pages)
    if kind < 8:
        return f"H_REMOVE {draw.choice((0, AVPN)):#x} {entry} {draw.choice((0x1000, 0x1000, 0x2000)):#x}"
    if kind < 9:
        return bulk(draw)
    if kind < 11:
        return f"H_PROTECT {draw.randrange(4):#x} {entry} 0x0"
    if kind < 13:
        return f"H_READ {draw.choice((0, 0, 0x2000000000)):#x} {entry}"
    if kind < 15:
        return f"{draw.choice(('H_CLEAR_REF', 'H_CLEAR_MOD'))} 0x0 {entry}"
    access = draw.choice(("load", "store", "store"))
    address = draw.choice((0x5008, 0x4010)) + NEXT_PAGE * draw.randrange(pages)
    return f"{access} {address:#x} {draw.choice(('priv', 'user'))}"


def trace_of(seed: int, cpus: int, lines: int, pages: int = A_GROUP) -> str:
    """A trace: the segments of all processors, and so many lines."""
    draw = random.Random(seed)
    segments = "".join(f"{cpu} {SEGMENT}\n" for cpu in range(cpus))
    run = "".join(f"{draw.randrange(cpus)} {call(draw, pages)}\n" for _ in range(lines))
    return f"cpus {cpus}\n{HEAD}begin\n{segments}{run}"


def without_receipts(replies: str) -> str:
    """The replies as another hypervisor has them."""
    return re.sub(r"( hit| walk)?( \|[^\n]*)?\n", "\n", replies)


@dataclass(frozen=True)
class Log:
    """A trace, by processor, and the replies with times."""

    trace: str
    replies: str


def times_of(draw: random.Random, cpus: list[int], width: int) -> list[tuple[int, int]]:
    """The times of calls that took effect in this order: those of one processor follow each other."""
    points = [10 * (place + 1) for place in range(len(cpus))]
    free: dict[int, int] = {}
    begins = []
    for cpu, point in zip(cpus, points):
        begins.append(max(free.get(cpu, 0), point - draw.randrange(width)))
        free[cpu] = point + 1
    later: dict[int, int] = {}
    ends = []
    for cpu, point, begin in reversed(list(zip(cpus, points, begins))):
        ends.append(min(later.get(cpu, point + width), point + draw.randrange(width)))
        later[cpu] = begin
    return list(zip(begins, reversed(ends)))


def log_of(trace: str, replies: str, seed: int, width: int) -> Log:
    """What a log has of a serial run: each processor's calls by themselves, and times that overlap."""
    head, _, body = trace.partition("begin\n")
    lines = body.splitlines()
    cpus = [int(line.split()[0]) for line in lines]
    times = times_of(random.Random(seed), cpus, width)
    order = sorted(range(len(lines)), key=lambda place: (cpus[place], place))
    first = head.count("\n") + 2
    told = without_receipts(replies).splitlines()
    timed = [
        f"{first + at} {told[place].split(maxsplit=1)[1]} @ {times[place][0]} {times[place][1]}\n"
        for at, place in enumerate(order)
    ]
    return Log(f"{head}begin\n" + "".join(f"{lines[place]}\n" for place in order), "".join(timed))
