"""Whether docs/REFUSALS.md stands on the sources.

Each clause that the page names has to stand in that function, and in parentheses behind it only fields of
the records that the crate's specs have. And the page has to name each variant of each error type, return
code, end of an access, reason and status that is public, and each public function that gives an `Option` or
a `Result`.
"""

import argparse
import re

from checks.antt import Specs, read_specs
from checks.cited import clauses_of, faults_of_clauses
from checks.rattle import Function, read_functions, read_variants
from checks.running import Failed
from crates import TOP

PAGE = TOP / "docs" / "REFUSALS.md"

# A function, and the clauses behind it.
NAMED = re.compile(r"`([a-z_]+)::((?:\w+::)?\w+)`((?:,?\s+(?:and\s+)?`\w+`)+)")
# The fields in parentheses behind a clause.
FIELDS = re.compile(r"`([a-z_]+)::(?:\w+::)?\w+` `\w+` \(((?:`\w+`(?:, )?)+)\)")
FUNCTION = re.compile(r"`([a-z_]+)::((?:\w+::)?\w+)`")
WORD = re.compile(r"`(\w+)`")

# Enums that are no error type and refuse all the same.
OTHERS = ("Why", "Rc", "Outcome", "Status")

# A program's `main` has no caller.
NO_CALLS = ("main",)


def check_named(page: str, found: list[Function]) -> int:
    """How many clauses are named. Each has to be there."""
    for fault in faults_of_clauses(page, clauses_of(found), NAMED):
        raise Failed(fault)
    return sum(len(WORD.findall(rest)) for _crate, _path, rest in NAMED.findall(page))


def check_fields(page: str, specs: Specs) -> int:
    """How many fields are named. Each has to be one of a record of the crate."""
    count = 0
    for crate, rest in FIELDS.findall(page):
        known = {name for one in specs.of_crate(crate) for name in one.fields}
        for name in WORD.findall(rest):
            if name not in known:
                raise Failed(f"no record of {crate} has a field `{name}`")
            count += 1
    return count


def check_functions(page: str, found: list[Function]) -> int:
    """How many public functions may refuse. Each has to be on the page, and each one there in the sources."""
    told = set(FUNCTION.findall(page))
    known = {(one.crate, one.path) for one in found}
    crates = {crate for crate, _ in known}
    for crate, path in sorted(told - known):
        if crate in crates:
            raise Failed(f"there is no function {crate}::{path}")
    refusing = [one for one in found if one.is_exported and re.search(r"-> (Option|Result)\b", one.signature)]
    for one in refusing:
        if (one.crate, one.path) not in told and one.name not in NO_CALLS:
            raise Failed(f"the page has nothing of {one.full_path}")
    return len(refusing)


def check_variants(page: str, found: list[Function], enums: dict[str, list[str]]) -> int:
    """How many variants refuse. Each has to be on the page."""
    errors = set(OTHERS)
    for one in found:
        if one.is_exported:
            errors |= set(re.findall(r"-> Result<.*, (\w+)>", one.signature)) & set(enums)
    for name in sorted(errors):
        for variant in enums[name]:
            if f"`{name}::{variant}`" not in page:
                raise Failed(f"the page has nothing of {name}::{variant}")
    return sum(len(enums[name]) for name in errors)


def add_options(_parser: argparse.ArgumentParser) -> None:
    """This check has no options."""


def check(_given: argparse.Namespace) -> str:
    """The page against the sources."""
    page = PAGE.read_text(encoding="utf-8")
    found = read_functions(TOP)
    named = check_named(page, found) + check_fields(page, read_specs(TOP))
    refusing = check_functions(page, found)
    kinds = check_variants(page, found, read_variants(TOP))
    there = f"{refusing} public functions that may refuse, and {kinds} variants, are there"
    return f"{named} clauses and fields named; {there}"
