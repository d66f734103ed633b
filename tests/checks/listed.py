"""The tables of the documents that list definitions, against the files."""

import re
from dataclasses import dataclass, field
from typing import Iterator

from checks.cited import WORD
from checks.declared import Declared

RULE = re.compile(r"\|[-:| ]+\|")
NAME = re.compile(r"[A-Za-z]\w*")
# A file, and in parentheses names of it; and a name with the file of its definition behind it.
IN_FILE = re.compile(r"`([\w/]+\.(?:antt|rt))` \(((?:`\w+`(?:, )?)+)\)")
HAS_FILE = re.compile(r"(`\w+`)\**(?:,| \()\s?`((?:\w+/specs/)?\w+\.antt)`")
SAME = "the same"


@dataclass
class Table:
    """A table of a page: the cells of its head, and of its rows."""

    head: list[str]
    rows: list[list[str]] = field(default_factory=list)


def cells_of(line: str) -> list[str]:
    """The cells of a row."""
    return [cell.strip() for cell in line.strip().strip("|").split(" | ")]


def tables_of(text: str) -> Iterator[Table]:
    """The tables of a text."""
    table, before = None, ""
    for line in [*text.splitlines(), ""]:
        if table and not line.startswith("|"):
            yield table
            table = None
        elif table:
            table.rows.append(cells_of(line))
        elif RULE.fullmatch(line):
            table = Table(cells_of(before))
        before = line


def parts_of(cell: str) -> tuple[list[str], list[str]]:
    """The names in a cell, and the files and folders."""
    words = WORD.findall(cell)
    return [it for it in words if NAME.fullmatch(it)], [it for it in words if not NAME.fullmatch(it)]


def faults_of_names(known: Declared, names: list[str], files: list[str]) -> Iterator[str]:
    """Names that none of the files has, and files that aren't there."""
    missing = [file for file in files if not known.files(file)]
    if missing:
        yield from (f"there is no crates/{file}" for file in missing)
        return
    there = frozenset().union(*map(known.names_of, files))
    yield from (f"{' and '.join(files)} has no `{name}`" for name in names if name not in there)


def files_in(cell: str, folder: str) -> list[str]:
    """The files that a cell names: one without a folder is in that of the file before it, or in this one."""
    files = []
    for name in WORD.findall(cell):
        folder = name.rpartition("/")[0] or folder
        files.append(name if "/" in name else f"{folder}/{name}")
    return files


def faults_by_file(known: Declared, table: Table) -> Iterator[str]:
    """The faults of a table whose last cells name files, in the folder that its head may name."""
    folder = "".join(WORD.findall(table.head[-1]))
    files: list[str] = []
    for row in table.rows:
        if row[-1] != SAME:
            files = files_in(row[-1], folder)
        yield from faults_of_names(known, parts_of(row[0])[0], files)


def faults_by_part(known: Declared, table: Table) -> Iterator[str]:
    """The faults of a table whose last cells have names, each time with their file behind them."""
    for row in table.rows:
        for part in row[-1].split(";"):
            yield from faults_of_names(known, *parts_of(part))


def faults_of_rows(known: Declared, text: str) -> Iterator[str]:
    """Names in a page's tables that the file of their row doesn't have."""
    for table in tables_of(text):
        if table.head[-1].split()[:1] == ["file"]:
            yield from faults_by_file(known, table)
        elif table.head[-2:] == ["clause", "definition"]:
            yield from faults_by_part(known, table)


def faults_of_places(known: Declared, text: str) -> Iterator[str]:
    """Names that a text has beside the name of a file which doesn't declare them."""
    cited = [*IN_FILE.findall(text), *((file, name) for name, file in HAS_FILE.findall(text))]
    for file, names in cited:
        files = [it for path, it in known.of_file.items() if path.endswith(f"/{file}")]
        there = known.crates.union(*files)
        yield from (f"{file} has no `{name}`" for name in WORD.findall(names) if name not in there)
