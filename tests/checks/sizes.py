"""How many lines of code, definitions and proofs each crate has, as docs/PROVED.md says.

Counts the lines of src/, specs/ and proofs/ without blank lines and comments. The table may differ from the
sources by a tenth, or by 20 lines where that is more, so that it needn't follow each commit.
"""

import argparse
import re
from pathlib import Path
from typing import Iterator, NamedTuple

from checks.page import Table, add_write
from checks.running import Failed
from crates import TOP

TABLE = Table(TOP / "docs" / "PROVED.md", "sizes")
HEAD = ["| crate | code | definitions | proofs |", "|---|---:|---:|---:|"]
ALL = "all"
ROW = re.compile(r"\| `?(\w+)`? \| ([\d,]+) \| ([\d,]+) \| ([\d,]+) \|")
SHARE, LEAST = 10, 20


class Sizes(NamedTuple):
    """Lines of a crate."""

    code: int
    definitions: int
    proofs: int


def lines_of(folder: Path, ending: str, remark: str) -> int:
    """The lines of a folder's files that are neither blank nor a comment."""
    count = 0
    for path in folder.rglob(f"*{ending}"):
        for line in path.read_text(encoding="utf-8").splitlines():
            text = line.strip()
            count += bool(text) and not text.startswith(remark)
    return count


def sizes_of(crate: Path) -> Sizes:
    """The sizes of a crate."""
    return Sizes(
        lines_of(crate / "src", ".rt", "//"),
        lines_of(crate / "specs", ".antt", "--"),
        lines_of(crate / "proofs", ".antt", "--"),
    )


def counted() -> dict[str, Sizes]:
    """All crates, the largest proofs first, and their sum."""
    crates = {path.name: sizes_of(path) for path in sorted((TOP / "crates").iterdir()) if path.is_dir()}
    largest = sorted(crates.items(), key=lambda item: (-item[1].proofs, -item[1].code, item[0]))
    return {ALL: Sizes(*map(sum, zip(*crates.values()))), **dict(largest)}


def rows_of(sizes: dict[str, Sizes]) -> list[str]:
    """The table."""
    rows = list(HEAD)
    for name, size in sizes.items():
        shown = name if name == ALL else f"`{name}`"
        rows.append(f"| {shown} | {size.code:,} | {size.definitions:,} | {size.proofs:,} |")
    return rows


def read_rows(rows: list[str]) -> dict[str, Sizes]:
    """The table as the page has it."""
    found = {}
    for row in rows[len(HEAD) :]:
        match = ROW.fullmatch(row)
        if not match:
            raise Failed(f"{TABLE.name}: no row of sizes: {row}")
        found[match[1]] = Sizes(*(int(number.replace(",", "")) for number in match.groups()[1:]))
    return found


def differences(there: dict[str, Sizes], now: dict[str, Sizes]) -> Iterator[str]:
    """Crates whose row is missing, or too far off."""
    for name in there.keys() | now.keys():
        if name not in there or name not in now:
            yield f"{name}: {'no row' if name in now else 'no such crate'}"
            continue
        for part, old, new in zip(Sizes._fields, there[name], now[name]):
            if abs(old - new) > max(new // SHARE, LEAST):
                yield f"{name}: {part} {old:,}, counted {new:,}"


def add_options(parser: argparse.ArgumentParser) -> None:
    """The option that writes the table."""
    add_write(parser)


def check(given: argparse.Namespace) -> str:
    """The table against the sources."""
    now = counted()
    if given.write:
        TABLE.write(rows_of(now))
    found = sorted(differences(read_rows(TABLE.parts()[1].splitlines()), now))
    if found:
        raise Failed("\n".join([f"{TABLE.name} (tests/check sizes --write)", *found]))
    total = now[ALL]
    return f"{total.code:,} lines of code, {total.definitions:,} of definitions, {total.proofs:,} of proofs"
