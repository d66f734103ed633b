"""Whether sets of partitions run as their partitions do alone.

Each example's trace, as partition 0 of a set, has the replies that it has alone, with the number before
each line, or is refused at the same line for the same reason. Eight partitions of 64 processors each, whose
lines are mixed, have the replies of their own traces; so have they in a pool that is short for one of them
in turn, up to that one's first H_NO_MEM.
"""

import argparse
import random
from dataclasses import dataclass
from typing import Collection

from checks.running import REFUSAL, REFUSED, Failed, Program, add_program, program_of, replies_to, traces

PARTITIONS, CPUS, LINES = 8, 64, 300
POOL = 0x1000000000
ON_ENTRIES = ("enter", "remove", "protect", "read", "mod", "load", "store", "store", "amr", "put", "device")
KINDS = (*ON_ENTRIES, "prepare", "prepare", "commit")
NO_MEMORY = "H_RESIZE_HPT_PREPARE -9"
POOL_REMARK = "# the pool"
# The pool's order, and how many may be short of memory: the least and the most. Each may hold two tables of
# 2^19 bytes, for all of which 2^24 bytes have room. Eight tables of 2^18 fill 2^21.
POOLS = ((24, 0, 0), (23, 0, 8), (22, 1, 8), (21, 8, 8))


@dataclass(frozen=True)
class Line:
    """A line of a set, and the number of the partition that it is of."""

    number: int
    text: str

    def __str__(self) -> str:
        return f"{self.number} {self.text}"


def ran(program: Program, word: str, lines: list[str]) -> tuple[int, str]:
    """The status, and what the program writes of these lines."""
    ended = program.run([word], "".join(f"{line}\n" for line in lines).encode())
    return ended.status, ended.text


def verb(line: str) -> str:
    """The first word of a line, or none of a remark."""
    words = line.split()
    return words[0] if words and not words[0].startswith("#") else ""


def as_partition(lines: list[str], number: int) -> list[str]:
    """The lines of a trace as those of a partition. Where it has a pool its first line has to be a remark."""
    pools = [line.split()[1:] for line in lines if verb(line) == "pool"]
    kept = ["#" if verb(line) == "pool" else line for line in lines]
    if pools:
        kept[0] = "#"
    told = [f"{number} {line}" if verb(line) else line for line in kept]
    if pools:
        told[0] = f"shared {' '.join(pools[0])}"
    return told


def behind_number(text: str, number: int) -> str:
    """A text of replies with the number before each line; a refusal has none."""
    if text.startswith(REFUSAL):
        return text
    return "".join(f"{number} {line}" for line in text.splitlines(True))


def check_examples(program: Program) -> int:
    """Each example but those with `entry` or `window` lines; how many there are."""
    count = 0
    for path in traces():
        lines = path.read_text(encoding="ascii").splitlines()
        if any(verb(line) in ("entry", "window") for line in lines):
            continue
        wanted = behind_number(replies_to(path).read_text(encoding="ascii"), 0)
        status, written = ran(program, "set", as_partition(lines, 0))
        if written != wanted or status != (REFUSED if wanted.startswith(REFUSAL) else 0):
            raise Failed(f"{path.name} as partition 0: status {status}, {written[:80]!r}")
        count += 1
    return count


def settings(number: int) -> list[str]:
    """The configuration of a partition. The remark stands where its own trace has the pool."""
    ram = 0x2000000000 + (number << 32)
    return ["order 18", f"cpus {CPUS}", POOL_REMARK, f"ram 0x0 {ram:#x} 0x40000000", "begin"]


def drawn_line(draw: random.Random, may_resize: bool) -> str:
    """A line on the eight entries of page 1's group, or, where it may, now and then a resize call."""
    entry, cpu = draw.randrange(8), draw.randrange(CPUS)
    kind = draw.choice(KINDS if may_resize else ON_ENTRIES)
    texts = {
        "enter": f"H_ENTER 0x0 {entry:#x} 0x1001 {draw.choice((0x3012, 0x3212)):#x}",
        "remove": f"H_REMOVE 0x0 {entry:#x} 0x0",
        "protect": f"H_PROTECT 0x2 {entry:#x} 0x0",
        "read": f"H_READ 0x0 {entry:#x}",
        "mod": f"H_CLEAR_MOD 0x0 {entry:#x}",
        "load": "load 0x1000 priv",
        "store": "store 0x1000 priv",
        "amr": f"amr {draw.choice(('0x0', '0x2000000000000000'))}",
        "put": "H_PUT_TCE 0x1 0x0 0x3001",
        "device": "dmawrite 0x1 0x0",
        "prepare": f"H_RESIZE_HPT_PREPARE 0x0 {draw.choice((18, 19))}",
        "commit": f"H_RESIZE_HPT_COMMIT 0x0 {draw.choice((18, 19))}",
    }
    return f"{cpu} {texts[kind]}"


def drawn_set(draw: random.Random, resizing: Collection[int]) -> list[Line]:
    """The lines of eight partitions: the settings in a drawn order, then mixed run lines."""
    numbers = list(range(PARTITIONS))
    draw.shuffle(numbers)
    lines = [Line(number, line) for number in numbers for line in settings(number)]
    run = [Line(number, f"{cpu} slbmte 0x8000000 0x1000") for number in numbers for cpu in range(CPUS)]
    for number in (draw.randrange(PARTITIONS) for _ in range(LINES * PARTITIONS)):
        run.append(Line(number, drawn_line(draw, number in resizing)))
    return lines + run + [Line(number, "dump") for number in numbers]


def alone(program: Program, lines: list[Line], number: int, pool: str) -> list[str]:
    """The replies of one partition's own trace: all other lines are remarks, and the pool is its."""
    own = [line.text if line.number == number else "#" for line in lines]
    text = [f"pool {pool}" if line == POOL_REMARK else line for line in ["#", *own]]
    status, written = ran(program, "run", text)
    if status != 0:
        raise Failed(f"partition {number} alone: status {status}, {written[:80]!r}")
    return written.splitlines()


def without_place(line: str) -> str:
    """A reply, but that a dump doesn't say where the table lies."""
    words = line.split()
    if "place" in words:
        words[words.index("place") + 1] = "*"
    return " ".join(words)


def short_ones(
    program: Program, draw: random.Random, pool_order: int, resizing: Collection[int]
) -> list[int]:
    """Runs eight partitions over one pool, of which some ask for tables; which were refused memory."""
    lines = drawn_set(draw, resizing)
    pool = f"{POOL:#x} {pool_order}"
    status, written = ran(program, "set", [f"shared {pool}", *map(str, lines)])
    if status != 0:
        raise Failed(f"a set of {PARTITIONS}: status {status}, {written[:80]!r}")
    replies = [line.partition(" ") for line in written.splitlines()]
    short = []
    for number in range(PARTITIONS):
        mine = [reply for other, _, reply in replies if other == str(number)]
        own = alone(program, lines, number, pool)
        refused = [place for place, line in enumerate(mine) if line.endswith(NO_MEMORY)]
        end = refused[0] if refused else max(len(mine), len(own))
        if [without_place(it) for it in mine[:end]] != [without_place(it) for it in own[:end]]:
            raise Failed(f"partition {number} runs otherwise beside others")
        if refused:
            short.append(number)
    return short


def add_options(parser: argparse.ArgumentParser) -> None:
    """The options of this check."""
    add_program(parser)


def check(given: argparse.Namespace) -> str:
    """The examples, and drawn sets."""
    program, draw = program_of(given), random.Random("sets")
    count = check_examples(program)
    everyone = range(PARTITIONS)
    for pool_order, least, most in POOLS:
        short = short_ones(program, draw, pool_order, everyone)
        print(f"eight partitions over 2^{pool_order} bytes: short of memory are {short}")
        if not least <= len(short) <= most:
            raise Failed("that many should not be short")
    for number in everyone:
        if short_ones(program, draw, 21, [number]) != [number]:
            raise Failed(f"partition {number} alone should be short")
    pools = "pools of four sizes, and one that is short for each partition in turn"
    return f"{count} examples as partition 0; {pools}"
