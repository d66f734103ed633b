"""papr's replies as records: those of the Python package papr, with the tools' error."""

import re
from itertools import chain
from typing import Iterable, Iterator

from common import Bad
from papr import BadReplies, replies
from papr.records import CHANGED, REFERENCED
from papr.replies import CHANGES, COMMIT, TABLE, Mark, Receipt, Reply, Shown, mark_of
from traces import is_of_trace

__all__ = [
    "CHANGED",
    "CHANGES",
    "COMMIT",
    "REFERENCED",
    "TABLE",
    "Mark",
    "Receipt",
    "Reply",
    "Shown",
    "mark_of",
    "needed",
    "replies_of",
    "reply_of",
]


def reply_of(text: str, table: int) -> Reply:
    """The reply that a line of the output has."""
    try:
        return replies.reply_of(text, table)
    except BadReplies as error:
        raise Bad(str(error)) from error


ENTRIES = re.compile(r" 0x([0-9a-f]+)\.")  # of receipts


def is_of_all(line: str) -> bool:
    """Whether a line tells of the whole table: a dump, one of its entries, or a commit."""
    return line.startswith(" ") or " dump " in line or COMMIT in line


def needed(lines: list[str], first: int, last: int) -> list[str]:
    """Of a text those lines that tell something of the replies from the first to the last: these, and those before of
    the same entries."""
    numbers = [(int(found[0]), line) for line in lines if (found := re.match("[0-9]{1,20}", line))]
    asked = [line for number, line in numbers if first <= number <= last]
    entries = {entry for line in asked for entry in ENTRIES.findall(line)}
    kept, number = [], 0
    for line in lines:
        found = re.match("[0-9]{1,20}", line)
        number = int(found[0]) if found else number
        if number > last:
            break
        if number >= first or not found or is_of_all(line) or not entries.isdisjoint(ENTRIES.findall(line)):
            kept.append(line)
    return kept


def replies_of(text: Iterable[str]) -> Iterator[tuple[Reply, list[Shown]]]:
    """Each reply in the order of the trace; a dump with the entries that it shows."""
    lines = iter(text)
    first = next(lines, None)
    if first is None:
        return
    if is_of_trace(first.split()):
        raise Bad("this is a trace; run it first: papr run TRACE > REPLIES")
    try:
        yield from replies.replies_of(chain([first], lines))
    except BadReplies as error:
        raise Bad(str(error)) from error
