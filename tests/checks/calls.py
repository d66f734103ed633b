"""Which public calls may wait, as a table in docs/CALLS.md.

A function may wait where its own bounds or those of its `impl` have `Wait`; a `main` where it calls such a
function. Compares how many there are in each crate with `may_wait=` in crates.txt, and the table with the
one that follows from the sources; fails where they differ. A LOG is what `rt check` wrote of a crate from
nothing: the functions of which it says `may wait` have to be these.
"""

import argparse
import re
from pathlib import Path
from typing import Collection, Iterable

from checks.page import Table, add_write
from checks.rattle import Function, read_functions
from checks.running import Failed
from crates import TOP, lines_of

TABLE = Table(TOP / "docs" / "CALLS.md", "calls")
MAY_WAIT = "may_wait="


def allowed_counts() -> dict[str, int]:
    """The crates in the order of crates.txt, each with its `may_wait=`."""
    counts = {}
    for crate, line in lines_of(TOP / "crates.txt").items():
        words = line.partition(":")[0].split()
        found = [word[len(MAY_WAIT) :] for word in words if word.startswith(MAY_WAIT)]
        counts[crate] = int(found[0]) if found else 0
    return counts


def has_bound(one: Function, names: Iterable[str]) -> bool:
    """Whether a type parameter of the function or of its `impl`, or an argument, has one of these bounds."""
    return any(
        re.search(rf"[:+]\s*{name}\b", one.bounds) or re.search(rf"\bimpl {name}\b", one.signature)
        for name in names
    )


def is_method_of(one: Function, traits: Collection[str]) -> bool:
    """Whether it is a method of one of these traits."""
    return one.owner is not None and one.owner.is_trait and one.owner.name in traits


def waiting_ones(found: list[Function]) -> list[Function]:
    """The functions that may wait."""
    waiting = [one for one in found if has_bound(one, ["Wait"])]
    names = "|".join(sorted({one.name for one in waiting if not one.owner}))
    called = re.compile(rf"\b({names})\(")
    return waiting + [one for one in found if one.name == "main" and names and called.search(one.body)]


def shown(calls: Iterable[Function]) -> str:
    """The calls by name, those of one type together."""
    owners: dict[str, set[str]] = {}
    for one in calls:
        owners.setdefault(one.owner.name if one.owner else "", set()).add(one.name)
    texts = [f"`{name}`" for name in sorted(owners.pop("", ()))]
    for owner in sorted(owners):
        texts.append(f"`{owner}`: " + ", ".join(f"`{name}`" for name in sorted(owners[owner])))
    return "; ".join(texts)


def rows_of(crates: Iterable[str], found: list[Function], waiting: list[Function]) -> list[str]:
    """A row for each crate with a call that may wait, and the crates with none."""
    traits = sorted({one.owner.meets for one in waiting if one.owner and one.owner.meets})
    rows = ["| crate | may wait | may wait where its store may | never waits |", "|---|---|---|---|"]
    never = []
    for crate in crates:
        calls = [one for one in found if one.crate == crate and one.is_exported]
        own = [one for one in calls if one in waiting]
        others = [one for one in calls if one not in own]
        of_store = [one for one in others if has_bound(one, traits) or is_method_of(one, traits)]
        if own or of_store:
            rest = [one for one in others if one not in of_store]
            rows.append(f"| `{crate}` | {shown(own)} | {shown(of_store)} | {shown(rest)} |")
        elif calls:
            never.append(f"`{crate}`")
    return [*rows, "", f"No call of these crates may wait: {', '.join(never)}."]


def check_counts(counts: dict[str, int], waiting: list[Function]) -> None:
    """Whether so many functions of each crate may wait."""
    for crate, count in counts.items():
        here = [one.path for one in waiting if one.crate == crate]
        if len(here) != count:
            raise Failed(
                f"crates.txt says {MAY_WAIT}{count} of {crate}, and {len(here)} of its functions may wait: "
                + ", ".join(here)
            )


def check_log(path: Path, waiting: list[Function]) -> None:
    """Whether what a check wrote names just these functions of its crate."""
    text = path.read_text(encoding="utf-8")
    told = re.findall(r"^fn (\w+)::(?:[\w:]*::)?(\w+): proved, may wait", text, re.M)
    for crate in set(re.findall(r"^fn (\w+)::[\w:]+: proved", text, re.M)):
        here = sorted(one.name for one in waiting if one.crate == crate)
        there = sorted(name for of, name in told if of == crate)
        if here != there:
            raise Failed(f"of {crate} the check says that {there} may wait, and by their bounds {here} do")


def add_options(parser: argparse.ArgumentParser) -> None:
    """The options of this check."""
    add_write(parser)
    parser.add_argument("logs", metavar="LOG", nargs="*", type=Path, help="what `rt check` wrote")


def check(given: argparse.Namespace) -> str:
    """The counts, the logs and the table."""
    counts = allowed_counts()
    found = read_functions(TOP)
    waiting = waiting_ones(found)
    check_counts(counts, waiting)
    for path in given.logs:
        check_log(path, waiting)
    TABLE.settle(rows_of(counts, found, waiting), given.write)
    exported = sum(one.is_exported for one in found)
    own = sum(one.is_exported for one in waiting)
    stores = [f"{one.owner.name} ({one.owner.meets})" for one in waiting if one.owner and one.name == "apply"]
    return f"{exported} public calls, {own} may wait; stores that may wait are those of {', '.join(stores)}"
