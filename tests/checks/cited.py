"""What the documents cite of functions: the clauses that stand behind their names."""

import re
from typing import Iterable, Iterator

from checks.rattle import Function

Path = tuple[str, str]  # a crate, and a function's path in it
Clauses = dict[Path, set[str]]

# A function, and the clauses behind it.
CITED = re.compile(r"`([a-z_]+)::((?:\w+::)?\w+)`((?:\s+`\w+`)+)")
WORD = re.compile(r"`([^`]+)`")


def clauses_of(found: Iterable[Function]) -> Clauses:
    """The clauses of each function; those of several functions of one path together."""
    clauses: Clauses = {}
    for one in found:
        clauses.setdefault((one.crate, one.path), set()).update(clause.name for clause in one.clauses)
    return clauses


def faults_of_clauses(text: str, clauses: Clauses, cited: re.Pattern[str] = CITED) -> Iterator[str]:
    """Functions that a text cites with clauses and that aren't there, or lack one."""
    for crate, path, rest in cited.findall(text):
        if (crate, path) not in clauses:
            yield f"there is no function {crate}::{path}"
            continue
        for name in WORD.findall(rest):
            if name not in clauses[crate, path]:
                yield f"{crate}::{path} has no clause `{name}`"
