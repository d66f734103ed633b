"""A summary of lines that were written about parts of a recording, also by several machines."""

import re
from typing import Iterable

from common import Bad

LINE = re.compile(r"part ([0-9]{1,18}): (.*)\n?")
JUDGED = re.compile(r".*: (good|bad section [0-9]{1,20})")
KINDS = ("good", "bad", "not judged", "not whole")
NOT_WHOLE = "not whole,"


def kind_of(said: str) -> str:
    """Whether a part is good, bad, or wasn't judged, perhaps because it isn't whole."""
    if said.startswith(NOT_WHOLE):
        return "not whole"
    found = JUDGED.fullmatch(said)
    return "not judged" if found is None else found[1].partition(" ")[0]


def read(lines: Iterable[str]) -> dict[int, str]:
    """What was said of each part."""
    parts: dict[int, str] = {}
    for line in lines:
        found = LINE.fullmatch(line)
        if found is None:
            raise Bad(f"`{line.rstrip()[:80]}` is no line about a part")
        number, said = int(found[1]), found[2]
        if parts.setdefault(number, said) != said:
            raise Bad(f"there are two different lines about part {number}")
    if not parts:
        raise Bad("there is no line about a part")
    return parts


def missing(parts: dict[int, str]) -> list[str]:
    """The ranges of numbers, from 1, of which nothing was said."""
    found, before = [], 0
    for number in sorted(parts):
        if number > before + 1:
            found.append(f"{before + 1}" if number == before + 2 else f"{before + 1} to {number - 1}")
        before = number
    return found


def summary(lines: Iterable[str]) -> tuple[list[str], int]:
    """Lines about all parts, with those of the parts that aren't good, and the exit status."""
    parts = read(lines)
    kinds = [kind_of(said) for said in parts.values()]
    counts = ", ".join(f"{kinds.count(kind):,} {kind}" for kind in KINDS)
    others = [f"part {number}: {parts[number]}" for number in sorted(parts) if kind_of(parts[number]) != "good"]
    gaps = missing(parts)
    made = [f"{len(parts):,} parts: {counts}", *others, *([f"no line: {', '.join(gaps)}"] if gaps else [])]
    return made, 1 if "bad" in kinds else 2 if gaps or "not judged" in kinds or "good" not in kinds else 0
