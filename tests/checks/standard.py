"""Whether docs/STANDARD.md names what is there.

The page's tables go from sentences of the public standards to definitions and clauses. Each definition has
to be in the file of its row, each function with its clauses in the sources, and each file or folder there.
"""

import argparse
import re
from typing import Iterator, NamedTuple

from checks.antt import Specs, read_specs
from checks.cited import CITED, WORD, Clauses, clauses_of, faults_of_clauses
from checks.rattle import read_functions
from checks.running import Failed
from crates import CRATES, TOP

PAGE = TOP / "docs" / "STANDARD.md"
ROW = re.compile(r"\| (.*?) ?\| (.+) \| (.+) \|")
SPECS = re.compile(r"([a-z_]+)/specs/(\w+)\.antt")
HEADS = ("sentence", "---")


class Row(NamedTuple):
    """A row of the page: its line, the names, and the files."""

    line: int
    names: str
    files: list[str]


def rows() -> Iterator[Row]:
    """The rows of all tables but their heads."""
    for number, line in enumerate(PAGE.read_text(encoding="utf-8").splitlines(), 1):
        found = ROW.fullmatch(line)
        if found and not found[1].startswith(HEADS):
            yield Row(number, found[2], WORD.findall(found[3]))


def faults_of_names(row: Row, names: list[str], specs: Specs) -> Iterator[str]:
    """Definitions of a row that its file doesn't have."""
    for file in row.files:
        found = SPECS.fullmatch(file)
        module = specs.modules.get((found[1], found[2])) if found else None
        if module is None:
            yield f"{file} has no definitions"
            continue
        yield from (f"{file} has no `{name}`" for name in names if module.find(name) is None)


def faults(row: Row, specs: Specs, clauses: Clauses) -> Iterator[str]:
    """What a row names and isn't there."""
    for file in row.files:
        if not (CRATES / file).exists():
            yield f"there is no crates/{file}"
            return
    yield from faults_of_clauses(row.names, clauses)
    names = WORD.findall(CITED.sub("", row.names))
    if names:
        yield from faults_of_names(row, names, specs)


def add_options(_parser: argparse.ArgumentParser) -> None:
    """This check has no options."""


def check(_given: argparse.Namespace) -> str:
    """All rows against the sources."""
    specs, clauses, found = read_specs(TOP), clauses_of(read_functions(TOP)), list(rows())
    wrong = [f"{PAGE.name}:{row.line}: {it}" for row in found for it in faults(row, specs, clauses)]
    if wrong:
        raise Failed("\n".join(["names that aren't there", *wrong]))
    return f"{len(found)} rows, {sum(len(WORD.findall(row.names)) for row in found)} names"
