"""Traces that are wrong in all ways.

Changes the traces of examples/ by bytes, words, lines and DMA windows, and runs each under `run` and under
`par`. Each has to end with status 0 or 2 and without a message, in bounded time and memory; at 2 with one
line that says why, the same under both; at 0 with a reply for each run line; and where one processor has
all of them, with the same text under both. As partition 0 of a set it has to end as under `run`, with the
number before each reply, where no line names a pool, a window or an entry. Sets of examples/ are changed
too. Between them it tries wrong words behind the program's name: status 1 and the usage line. An input that
fails is kept in the folder that is told.
"""

import argparse
import os
import random
import re
import resource
import subprocess
import tempfile
import time
from collections import Counter
from dataclasses import dataclass
from pathlib import Path
from typing import Optional, Sequence

from checks.mutations import Lines, mutated
from checks.running import EXAMPLES, REFUSED, Ended, Failed, Program, add_program, program_of

SECONDS = 20
KILOBYTES = 512 * 1024
REFUSAL = re.compile(rb"papr: line (\d+): ([a-z]+)\n")
USAGE = (1, b"papr: usage\n")
OF_THE_WHOLE = (b"pool", b"window", b"entry")
QUIET = (b"H_RESIZE_HPT_PREPARE", b"H_RESIZE_HPT_COMMIT")
WRONG_WORDS = ["run", "par", "drill", "", "RUN", "-h", "--help", "0", "1", "100001", "0x", "x" * 5000]


def seeds(kind: str) -> list[Lines]:
    """The lines of each example of a kind."""
    return [path.read_bytes().split(b"\n") for path in sorted(EXAMPLES.glob(kind))]


def limits() -> None:
    """The bounds of a run's process."""
    resource.setrlimit(resource.RLIMIT_CPU, (SECONDS, SECONDS))
    resource.setrlimit(resource.RLIMIT_CORE, (0, 0))


@dataclass(frozen=True)
class Measured(Ended):
    """How a run ended, whether it was in time, and the memory that it took."""

    in_time: bool
    kilobytes: int

    @property
    def reason(self) -> Optional[bytes]:
        """The reason of a refusal."""
        found = REFUSAL.fullmatch(self.out)
        return found.group(2) if found else None

    def bounds_fault(self, name: str) -> str:
        """What is wrong, whatever the input is."""
        if not self.in_time:
            return f"{name} takes more than {SECONDS} seconds"
        if self.kilobytes > KILOBYTES:
            return f"{name} takes {self.kilobytes} KB"
        if self.message:
            return f"{name} has a message: {self.message[:80]!r}"
        return ""

    def fault(self, name: str) -> str:
        """What is wrong, whatever trace or set the input is."""
        fault = self.bounds_fault(name)
        if fault:
            return fault
        if self.status not in (0, REFUSED):
            return f"{name} ends with {self.status} {self.out[:80]!r}"
        if self.status == REFUSED and self.reason is None:
            return f"{name} refuses with {self.out[:80]!r}"
        return ""


def waited(ran: "subprocess.Popen[bytes]") -> tuple[bool, int]:
    """Waits for a process: whether it ended in time, and its kilobytes."""
    end, pause = time.monotonic() + SECONDS, 0.0005
    while True:
        pid, status, used = os.wait4(ran.pid, os.WNOHANG)
        if pid or time.monotonic() > end:
            break
        time.sleep(pause)
        pause = min(pause * 1.5, 0.05)
    if not pid:
        ran.kill()
        pid, status, used = os.wait4(ran.pid, 0)
    ran.returncode = os.waitstatus_to_exitcode(status)
    return time.monotonic() <= end, used.ru_maxrss


def measured(program: Program, words: Sequence[str], text: bytes, folder: Path) -> Measured:
    """Runs the program within its bounds, with its input and output in a folder."""
    source, sink, said = (folder / name for name in ("in", "out", "message"))
    source.write_bytes(text)
    with open(source, "rb") as given, open(sink, "wb") as out, open(said, "wb") as message:
        command = [str(program.path), *words]
        ran = subprocess.Popen(command, stdin=given, stdout=out, stderr=message, preexec_fn=limits)
        in_time, kilobytes = waited(ran)
    return Measured(ran.returncode, sink.read_bytes(), said.read_bytes(), in_time, kilobytes)


def run_lines(text: bytes) -> Optional[list[Lines]]:
    """The run lines of a trace, as their words; none where it has no `begin`."""
    whole = map(bytes.split, text.split(b"\n"))
    lines = [words for words in whole if words and not words[0].startswith(b"#")]
    return lines[lines.index([b"begin"]) + 1 :] if [b"begin"] in lines else None


def number(word: bytes) -> int:
    """A number as a trace writes it."""
    return int(word, 16 if word[:2].lower() == b"0x" else 10)


def has_one_processor(lines: list[Lines]) -> bool:
    """Whether one processor has all lines but resizes and dumps. A resize may be called by its number."""
    return len({number(words[0]) for words in lines if words[0] != b"dump" and words[1] not in QUIET}) <= 1


def runs_fault(text: bytes, serial: Measured, parallel: Measured) -> str:
    """What is wrong with how the two runs of an input ended."""
    fault = serial.fault("run") or parallel.fault("par")
    if fault:
        return fault
    if serial.status != parallel.status or serial.status == REFUSED and serial.out != parallel.out:
        ends = f"run ends with {serial.status} {serial.out[:40]!r}"
        return f"{ends}, par with {parallel.status} {parallel.out[:40]!r}"
    if serial.status == REFUSED:
        return ""
    lines = run_lines(text)
    if lines is None:
        return "accepted without `begin`"
    for name, ended in (("run", serial), ("par", parallel)):
        replies = [line for line in ended.out.split(b"\n") if line and not line.startswith(b" ")]
        if len(replies) != len(lines):
            return f"{name} has {len(replies)} replies to {len(lines)} lines"
    if has_one_processor(lines) and serial.out != parallel.out:
        return "one processor has all lines, and par has another text"
    return ""


def first_word(line: bytes) -> bytes:
    """The first word of a line: it ends at a space, a tab, or a CR at the line's end."""
    words = [word for word in re.split(rb"[ \t]", line[:-1] if line.endswith(b"\r") else line) if word]
    return words[0] if words else b""


def as_partition(text: bytes) -> Optional[bytes]:
    """The trace as partition 0 of a set; none where a line names what no line of a set may."""
    told = []
    for line in text.split(b"\n"):
        word = first_word(line)
        if word in OF_THE_WHOLE:
            return None
        told.append(line if not word or word.startswith(b"#") else b"0 " + line)
    return b"\n".join(told)


def partition_fault(serial: Measured, beside: Measured) -> str:
    """What is wrong with how a trace ended as partition 0 of a set."""
    fault = beside.bounds_fault("set")
    if fault:
        return fault
    wanted = serial.out
    if serial.status == 0:
        wanted = b"".join(b"0 " + line for line in serial.out.splitlines(True))
    if (beside.status, beside.out) == (serial.status, wanted):
        return ""
    ends = f"run ends with {serial.status} {serial.out[:40]!r}"
    return f"{ends}, as a partition with {beside.status} {beside.out[:40]!r}"


def wrong_words(draw: random.Random) -> list[str]:
    """Words that are no command."""
    words = [draw.choice(WRONG_WORDS) for _ in range(draw.randrange(5))]
    if words in (["run"], ["par"]) or words[:1] == ["drill"] and len(words) == 3 and words[2] in ("0", "1"):
        return ["drill", "1"]
    return words


class Fuzz:
    """The inputs that were tried, and how they ended."""

    def __init__(self, program: Program, seed: int, folder: Path) -> None:
        self.program, self.folder = program, folder
        self.draw, self.traces, self.sets = random.Random(seed), seeds("*.trace"), seeds("*.set")
        self.ends: Counter[str] = Counter()
        self.seconds, self.kilobytes = 0.0, 0

    def run(self, words: Sequence[str], text: bytes) -> Measured:
        """How a run ends."""
        return measured(self.program, words, text, self.folder)

    def count(self, ended: Measured) -> None:
        """Counts an input by how it ended."""
        self.ends[ended.reason.decode() if ended.reason else "accepted"] += 1

    def try_words(self) -> tuple[bytes, str]:
        """Tries a wrong command. The input, and what is wrong with its end."""
        words = wrong_words(self.draw)
        ended = self.run(words, b"begin\n")
        self.ends["usage"] += 1
        fault = ended.bounds_fault("a wrong command")
        if not fault and (ended.status, ended.out) != USAGE:
            fault = f"status {ended.status}"
        return repr(words).encode(), fault

    def try_trace(self) -> tuple[bytes, str]:
        """Tries a changed trace under `run` and `par`. The input, and what is wrong with its ends."""
        text = mutated(self.draw, self.traces)
        begun = time.monotonic()
        serial = self.run(["run"], text)
        self.seconds = max(self.seconds, time.monotonic() - begun)
        parallel = self.run(["par"], text)
        self.kilobytes = max(self.kilobytes, serial.kilobytes, parallel.kilobytes)
        self.count(serial)
        fault = runs_fault(text, serial, parallel)
        told = as_partition(text)
        if not fault and told is not None:
            fault = partition_fault(serial, self.run(["set"], told))
        return text, fault

    def try_set(self) -> tuple[bytes, str]:
        """Tries a changed set. The input, and what is wrong with its end."""
        text = mutated(self.draw, self.sets)
        ended = self.run(["set"], text)
        self.count(ended)
        return text, ended.fault("set")

    def try_any(self) -> tuple[bytes, str]:
        """Tries an input of some kind. The input, and what is wrong with its ends."""
        kind = self.draw.random()
        if kind < 0.05:
            return self.try_words()
        return self.try_set() if kind < 0.15 else self.try_trace()

    def try_for(self, seconds: float, kept: Path) -> int:
        """Tries inputs for so long, and keeps those that fail. How many did."""
        failed, end = 0, time.monotonic() + seconds
        while time.monotonic() < end:
            text, fault = self.try_any()
            if fault:
                failed += 1
                path = kept / f"{failed}.trace"
                path.write_bytes(text)
                print(f"{path}: {fault}")
        return failed


def add_options(parser: argparse.ArgumentParser) -> None:
    """The options of this check."""
    add_program(parser)
    parser.add_argument("--seconds", type=float, default=60, help="60 where it is left out")
    parser.add_argument("--seed", type=int, default=1, help="1 where it is left out")


def check(given: argparse.Namespace) -> str:
    """Changed inputs, for some time."""
    program = program_of(given)
    kept = Path(tempfile.mkdtemp(prefix="papr-fuzz-"))
    with tempfile.TemporaryDirectory() as folder:
        fuzz = Fuzz(program, given.seed, Path(folder))
        failed = fuzz.try_for(given.seconds, kept)
    print(f"seed {given.seed}: " + ", ".join(f"{count} {name}" for name, count in fuzz.ends.most_common()))
    print(f"at most {fuzz.seconds:.2f} seconds under run, and {fuzz.kilobytes} KB")
    counts = f"{sum(fuzz.ends.values())} inputs, {failed} failed"
    if failed:
        raise Failed(counts)
    kept.rmdir()
    return counts
