"""Whether parallel runs have histories, and are judged good.

Runs `papr par` many times on traces in which all processors use the same few entries. Of each run it sorts
the receipts of an entry by their places and follows them: each must find the entry as the one before left
it, and a dump at the end must show what the last one left. `papr check` has to call the text good, and that
of `papr run` too. Fails at the first receipt that doesn't follow.
"""

import argparse
import random
from dataclasses import dataclass

from checks.running import Failed, Program, add_program, program_of

CPUS = 16
LINES = 400
REFERENCED, CHANGED = 2, 1
KINDS = (
    *("enter", "remove", "protect", "read", "ref", "mod", "load", "store", "store"),
    *("amr", "put", "put", "get", "device"),
)
READS = ("taken", "read", "notfound", "nomatch", "denied", "masked", "worn")
ON_WINDOWS = ("H_PUT_TCE", "H_GET_TCE", "dmaread", "dmawrite")
WINDOWS = ("0x1", "0x80000001")
TABLE = "table"
TCES = ("0x0", "0x3001", "0x4003", "0x40000001")  # nothing, a read, both, and a page that isn't granted
MASKS = ("0x0", "0x2000000000000000", "0x3000000000000000")  # nothing, stores, loads and stores of key 1


def drawn_line(draw: random.Random) -> str:
    """A line of some processor on the eight entries of page 1's group, or on the two of a window."""
    entry = draw.randrange(8)
    page = f"{draw.choice(WINDOWS)} {draw.randrange(3) << 12:#x}"
    kind = draw.choice(KINDS)
    cpu = draw.randrange(CPUS)
    texts = {
        "enter": f"H_ENTER 0x0 {entry:#x} 0x1001 {draw.choice((0x3012, 0x3212)):#x}",
        "remove": f"H_REMOVE 0x0 {entry:#x} 0x0",
        "protect": f"H_PROTECT {draw.choice((0x2, 0x202)):#x} {entry:#x} 0x0",
        "read": f"H_READ 0x0 {entry:#x}",
        "ref": f"H_CLEAR_REF 0x0 {entry:#x}",
        "mod": f"H_CLEAR_MOD 0x0 {entry:#x}",
        "load": "load 0x1000 priv",
        "store": "store 0x1000 priv",
        "amr": f"amr {draw.choice(MASKS)}",
        "put": f"H_PUT_TCE {page} {draw.choice(TCES)}",
        "get": f"H_GET_TCE {page}",
        "device": f"{draw.choice(('dmaread', 'dmawrite'))} {page}",
    }
    return f"{cpu} {texts[kind]}"


def drawn_trace(draw: random.Random) -> list[str]:
    """Calls and accesses of all processors on a few entries, by masks that change, and a dump."""
    lines = ["order 18", f"cpus {CPUS}", "ram 0x0 0x2000000000 0x40000000"]
    lines += [f"window {window} 0x0 0x2" for window in WINDOWS] + ["begin"]
    lines += [f"{cpu} slbmte 0x8000000 0x1000" for cpu in range(CPUS)]
    return [*lines, *(drawn_line(draw) for _ in range(LINES)), "dump"]


@dataclass(frozen=True)
class Receipt:
    """A receipt of some entry: how it found the entry, what it answered, and the call that it is of."""

    entry: int
    stamp: int
    bits: int
    answer: str
    call: str

    @property
    def before(self) -> tuple[int, int]:
        """The stamp and the bits that it found."""
        return self.stamp, self.bits

    @property
    def after(self) -> tuple[int, int]:
        """The stamp and the bits that it leaves."""
        if self.answer in READS:
            return self.before
        if self.answer == "at":
            return self.stamp, self.bits | REFERENCED | (CHANGED if self.call == "store" else 0)
        if self.answer in ("entered", "removed"):
            return self.stamp + 1, 0
        if self.answer == "protected":
            return self.stamp + 1, self.bits
        cleared = REFERENCED if self.call == "H_CLEAR_REF" else CHANGED
        return self.stamp + 1, self.bits & ~cleared

    @property
    def place(self) -> tuple[int, int, bool]:
        """Where it stands in its entry's history: what changes nothing comes first."""
        return self.stamp, bin(self.bits).count("1"), self.after != self.before


def receipts_of(reply: str) -> list[Receipt]:
    """The receipts of a line of output."""
    head, _, tail = reply.partition(" | ")
    call = head.split()[2]
    parts = (word.split(".") for word in tail.split())
    return [Receipt(int(entry, 16), int(stamp), int(bits), it, call) for entry, stamp, bits, it in parts]


def store_of(line: str) -> str:
    """The number of the window that a line of the trace is on, or the page table."""
    words = line.split()
    return words[2] if words[1] in ON_WINDOWS else TABLE


def followed(receipts: list[Receipt]) -> int:
    """Follows one entry's history, and gives the stamp that it ends with."""
    now = (0, 0)
    for receipt in sorted(receipts, key=lambda one: one.place):
        if receipt.before != now:
            raise Failed(f"{receipt} finds the entry at {receipt.before}, and it is at {now}")
        now = receipt.after
    return now[0]


def check_histories(lines: list[str], replies: list[str]) -> int:
    """Whether the replies have a history of each entry; how many receipts they have."""
    dump = next((number for number, reply in enumerate(replies) if " dump table " in reply), len(replies))
    if dump == len(replies):
        raise Failed("a run has no dump at its end")
    histories: dict[tuple[str, int], list[Receipt]] = {}
    for reply in replies[:dump]:
        store = store_of(lines[int(reply.split()[0]) - 1])
        for receipt in receipts_of(reply):
            histories.setdefault((store, receipt.entry), []).append(receipt)
    ends = {place: followed(receipts) for place, receipts in histories.items()}
    for shown in replies[dump + 1 :]:
        entry, _, _, stamp = shown.split()
        end = ends.get((TABLE, int(entry, 16)))
        if end != int(stamp):
            raise Failed(f"the dump shows {shown}, and the history ends at stamp {end}")
    return sum(map(len, histories.values()))


def check_judged(program: Program, trace: bytes, replies: bytes) -> None:
    """Whether `papr check` calls the replies good."""
    judged = program.run(["check"], trace + b"replies\n" + replies)
    if (judged.status, judged.out) != (0, b"good\n"):
        raise Failed(f"papr check ended with {judged.status}: {judged.out[:80]!r}")


def check_run(program: Program, lines: list[str]) -> int:
    """One trace under `par` and under `run`; how many receipts the first has."""
    trace = "".join(f"{line}\n" for line in lines).encode()
    runs = {word: program.run([word], trace) for word in ("par", "run")}
    for word, ran in runs.items():
        if ran.status != 0:
            raise Failed(f"papr {word} ended with {ran.status}: {ran.out[:80]!r}")
    count = check_histories(lines, runs["par"].text.splitlines())
    for ran in runs.values():
        check_judged(program, trace, ran.out)
    return count


def add_options(parser: argparse.ArgumentParser) -> None:
    """The options of this check."""
    add_program(parser)
    parser.add_argument("--runs", type=int, default=200)


def check(given: argparse.Namespace) -> str:
    """Many runs."""
    program, draw = program_of(given), random.Random(1)
    total = sum(check_run(program, drawn_trace(draw)) for _ in range(given.runs))
    return f"{given.runs} runs, {total} receipts"
