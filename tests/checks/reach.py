"""What must be believed: how many definitions the top clause reaches.

Counts the definitions in specs/ that the program's top call reaches by what it says of an outcome (the
field `outcome` of `EndsCommand`, which its clause `ends` cites), and their lines, without imports, blanks
and sentences. Each signature, equation and field counts as many lines as it fills when it is wrapped at 100
columns, so where a line is broken doesn't count. Names are followed by each file's `use` lines. Types that
are declared in Rust and the standard library count nothing. Prints the numbers, for each crate too, and
fails above 2,780 lines.
"""

import argparse
import re
from dataclasses import dataclass
from pathlib import Path
from typing import Callable, Iterable

from checks.antt import Definition, Specs, imports_of, read_specs
from checks.rattle import FileReader
from checks.running import Failed
from crates import TOP

MOST = 2780
COLUMNS = 100
CITED = "EndsCommand"
Width = Callable[[Definition], int]


@dataclass
class Count:
    """How many definitions there are, how many lines as they stand, and how many are counted."""

    definitions: int = 0
    standing: int = 0
    counted: int = 0

    def add(self, one: Definition, width: Width) -> None:
        """Counts a definition."""
        self.definitions += 1
        self.standing += len(one.lines)
        self.counted += width(one)


def wrapped(lines: Iterable[str]) -> int:
    """How many lines these are, where each is wrapped."""
    return sum(-(-len(line) // COLUMNS) for line in lines)


def as_it_stands(one: Definition) -> int:
    """How many lines a definition has."""
    return wrapped(one.lines)


def filled(one: Definition) -> int:
    """How many lines it would have, if each equation and each field filled its lines."""
    parts: list[str] = []
    for line in one.lines:
        is_field = one.is_type and re.match(r"  \S", line)
        if parts and line.startswith(" ") and not is_field:
            parts[-1] += " " + line.strip()
        else:
            parts.append(line)
    return wrapped(parts)


def first_ones(root: Path, specs: Specs) -> list[Definition]:
    """The definitions that the clause's arguments name, and those of the field `outcome` that it cites."""
    text = (root / "crates" / "papr_top" / "src" / "top.rt").read_text(encoding="utf-8")
    functions = FileReader("papr_top", "top.rt").read(text)
    clauses = [clause for one in functions if one.name == "papr" for clause in one.clauses]
    ends = next((clause.text for clause in clauses if clause.name == "ends"), "")
    record, _, given = ends.strip().partition("\n")
    home = specs.modules.get(("papr_top", "Ends"))
    if record != CITED or home is None or "outcome" not in home.definitions[CITED].fields:
        raise Failed(f"the clause `ends` of `papr` doesn't cite `{CITED}`, which has a field `outcome`")
    said = specs.cited(home.definitions[CITED].fields["outcome"], home.imports, home)
    return [*specs.cited(given, imports_of(text), None), *said]


def reached(specs: Specs, first: Iterable[Definition]) -> list[Definition]:
    """All definitions that these reach, and they themselves."""
    todo, seen = list(first), {}
    while todo:
        one = todo.pop()
        if one.key not in seen:
            seen[one.key] = one
            home = specs.modules[one.crate, one.module]
            todo += specs.cited("\n".join(one.lines), home.imports, home)
    return list(seen.values())


def add_options(parser: argparse.ArgumentParser) -> None:
    """The options of this check."""
    parser.add_argument("--list", action="store_true", help="print the definitions too")
    parser.add_argument("--standing", action="store_true", help="count the lines as they stand")
    parser.add_argument("--root", type=Path, default=TOP, help="another checkout")


def check(given: argparse.Namespace) -> str:
    """What the top clause reaches, and that it isn't too much."""
    specs = read_specs(given.root)
    found = reached(specs, first_ones(given.root, specs))
    width: Width = as_it_stands if given.standing else filled
    crates: dict[str, Count] = {}
    total = Count()
    for one in sorted(found, key=lambda one: one.key):
        crates.setdefault(one.crate, Count()).add(one, width)
        total.add(one, width)
        if given.list:
            print(f"{width(one):4} {one.crate}/specs/{one.module} {one.name}")
    for crate, count in sorted(crates.items(), key=lambda item: -item[1].counted):
        print(f"{count.counted:5} lines, {count.definitions:3} definitions  {crate}")
    if total.counted > MOST:
        raise Failed(f"{total.counted} lines, and {MOST} is the most")
    lines = f"{total.counted} lines of at most {COLUMNS} columns ({total.standing} as they stand)"
    return f"{lines}, {total.definitions} definitions"
