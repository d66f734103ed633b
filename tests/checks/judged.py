"""Whether a changed text is judged bad.

Changes one character of the replies of each example, at places that are drawn, and has `papr check` judge
the text. It has to be bad, but for one reason: the character lies in the stamp or the bits of a receipt
that changes nothing, and so names another moment at which the entry's history has the same answer. Tells
how many texts were judged and how many were good for this reason, and fails at the first other one.
"""

import argparse
import random
import re

from checks.running import REFUSAL, Failed, Program, add_program, program_of, replies_to, traces

# A receipt that may change nothing: an access that is allowed may find R and C set.
STILL = re.compile(rb"0x[0-9a-f]+\.([0-9]+\.[0-9])\.(?:taken|read|notfound|nomatch|denied|masked|at)")
BAD = re.compile(rb"bad section [0-9]+\n")
BAD_STATUS = 6


def other(byte: int) -> int:
    """Another character of the same kind, so that the text still looks like one."""
    if byte in b"012345678abcdefghijklmnopqrstuvwxy":
        return byte + 1
    others = {"9": "0", "z": "a", " ": ".", ".": " ", "\n": " ", "-": "+"}
    return ord(others.get(chr(byte), "-"))


def is_moved(text: bytes, at: int) -> bool:
    """Whether the character stands in the stamp or the bits of a receipt that may change nothing."""
    return any(found.start(1) <= at < found.end(1) for found in STILL.finditer(text))


def is_good(program: Program, trace: bytes, text: bytes) -> bool:
    """Whether the program calls the text good."""
    judged = program.run(["check"], trace + b"replies\n" + text)
    if (judged.status, judged.out) == (0, b"good\n"):
        return True
    if judged.status != BAD_STATUS or not BAD.fullmatch(judged.out):
        raise Failed(f"papr check ended with {judged.status}: {judged.out[:80]!r}")
    return False


def add_options(parser: argparse.ArgumentParser) -> None:
    """The options of this check."""
    add_program(parser)
    parser.add_argument("--changes", type=int, default=40, help="of each example")


def check(given: argparse.Namespace) -> str:
    """Many changes of each example."""
    program = program_of(given)
    judged = moved = 0
    for path in traces():
        trace, text = path.read_bytes(), replies_to(path).read_bytes()
        if text.startswith(REFUSAL.encode()):
            continue
        draw = random.Random(path.stem)
        for at in draw.sample(range(len(text)), min(given.changes, len(text))):
            judged += 1
            if not is_good(program, trace, text[:at] + bytes([other(text[at])]) + text[at + 1 :]):
                continue
            if not is_moved(text, at):
                changed = f"{path.stem}: character {at} of the replies was changed"
                raise Failed(f"{changed}, and the text is called good")
            moved += 1
    return f"{judged} changed texts, {moved} good: a receipt that changes nothing names another moment"
