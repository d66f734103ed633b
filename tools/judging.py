"""What the proved program says of a trace and a text of replies."""

import re
import subprocess
from typing import Optional

from common import Bad, program

GOOD, BAD_STATUS = b"good\n", 6
BAD = re.compile(rb"bad section ([0-9]{1,20})\n")
REFUSED = re.compile(rb"papr: line ([0-9]{1,20}): ([a-z]+)\n")


def judge(trace: bytes, text: bytes) -> Optional[int]:
    """What `papr check` says: nothing of a good text, else the bad section."""
    between = b"" if not trace or trace.endswith(b"\n") else b"\n"
    whole = trace + between + b"replies\n" + text
    try:
        ran = subprocess.run([program(), "check"], input=whole, stdout=subprocess.PIPE, check=False)
    except FileNotFoundError as error:
        raise Bad("there is no papr: neither above the tools nor on the path") from error
    if ran.returncode == 0 and ran.stdout == GOOD:
        return None
    bad = BAD.fullmatch(ran.stdout)
    if ran.returncode == BAD_STATUS and bad:
        return int(bad[1])
    refused = REFUSED.fullmatch(ran.stdout)
    if refused:
        raise Bad(f"the trace is refused: line {int(refused[1])}, {refused[2].decode()}")
    raise Bad(f"papr ended with status {ran.returncode}, and judged nothing")
