"""What the program answers to a trace: its output, or the refusal."""

import re
import subprocess
from dataclasses import dataclass

from common import Bad, program

REFUSED = re.compile(r"(?:papr: )?line ([0-9]{1,20}): ([a-z]+)\n?")
REFUSED_STATUS, MEMORY_STATUS = 2, 5


@dataclass(frozen=True)
class Answered:
    """What the program wrote, and whether that is a refusal."""

    out: str
    is_refused: bool


def answered(given: bytes, *words: str) -> Answered:
    """The program's answer to an input, by these words."""
    try:
        ran = subprocess.run([program(), *words], input=given, stdout=subprocess.PIPE, check=False)
    except FileNotFoundError as error:
        raise Bad("there is no papr: neither above the tools nor on the path") from error
    out = ran.stdout.decode("ascii", "replace")
    if ran.returncode == 0:
        return Answered(out, False)
    if ran.returncode != REFUSED_STATUS or not REFUSED.fullmatch(out):
        memory = " (not enough memory)" if ran.returncode == MEMORY_STATUS else ""
        raise Bad(f"papr ended with status {ran.returncode}{memory}, and refused nothing")
    return Answered(out, True)


def accepted(given: bytes, *words: str) -> str:
    """What the program writes of a trace, which it must accept."""
    answer = answered(given, *words)
    if answer.is_refused:
        raise Bad(f"papr refuses this trace: {answer.out.strip().removeprefix('papr: ')}")
    return answer.out
