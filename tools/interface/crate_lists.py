"""The lists of the hypervisor calls in the crates, as their sources have them, and what differs from the table."""

import re
from dataclasses import dataclass
from pathlib import Path
from typing import Iterator

from crates import CRATES
from interface.calls import Call
from interface.headers import headers

CODES, LINES = CRATES / "papr_codes", CRATES / "trace_read"
OF_CODE, OF_SPECS = CODES / "src" / "calls.rt", CODES / "specs" / "Hcalls.antt"
VERBS, FORMS = LINES / "src" / "verbs.rt", LINES / "specs" / "Forms.antt"


@dataclass(frozen=True)
class Listed:
    """A list of a source: where it is, and its pairs of a variant of Hcall and what it says of that."""

    place: str
    pairs: list[tuple[str, str]]


def pairs_in(path: Path, begin: str, pattern: str, end: str) -> Listed:
    """The pairs that a pattern finds between two texts of a file."""
    text = path.read_text(encoding="utf-8")
    part = text.partition(begin)[2].partition(end)[0]
    return Listed(f"{path.relative_to(CRATES.parent)}, {begin.strip()}", re.findall(pattern, part))


def turned(listed: Listed) -> Listed:
    """A list whose pairs have the variant behind."""
    return Listed(listed.place, [(variant, told) for told, variant in listed.pairs])


def names() -> list[Listed]:
    """The lists of names."""
    return [
        pairs_in(OF_CODE, "pub fn name(", r'Hcall::(\w+) => "(\w+)"', "\n    }"),
        pairs_in(OF_SPECS, "hcall_name : ", r'hcall_name (\w+) = codes "(\w+)"', "\n\n"),
    ]


def numbers() -> list[Listed]:
    """The lists of numbers."""
    return [
        turned(pairs_in(OF_CODE, "pub fn of_number(", r"(0x[0-9A-F]+) => Hcall::(\w+)", "\n    }")),
        pairs_in(OF_CODE, "pub fn number(", r"Hcall::(\w+) => (0x[0-9A-F]+)", "\n    }"),
        turned(pairs_in(OF_SPECS, "hcall_rows : ", r"\((0x[0-9A-F]+), (\w+)\)", "\n\n")),
        pairs_in(OF_SPECS, "hcall_number : ", r"hcall_number (\w+) = (0x[0-9A-F]+)", "\n\n"),
    ]


def counts() -> list[Listed]:
    """The lists of counts of arguments."""
    return [
        pairs_in(VERBS, "fn call(word", r"\(Hcall::(\w+), ([0-9]+)", "\n    ]"),
        pairs_in(FORMS, "call_rows : ", r"\(calls\.(\w+), ([0-9]+)\)", "\n\n"),
    ]


def variants() -> list[Listed]:
    """The lists of the calls alone."""
    return [
        pairs_in(OF_CODE, "pub enum Hcall {", r"\n    ((\w+))(?=,)", "\n}"),
        pairs_in(OF_SPECS, "is_named : ", r"is_named ((\w+)) = true", "\n\n"),
    ]


def differences(listed: Listed, wanted: dict[str, str]) -> Iterator[str]:
    """Where a list isn't the one that is wanted, by variants."""
    there = dict(listed.pairs)
    if len(there) < len(listed.pairs):
        yield f"{listed.place} has a call twice"
    for variant in sorted(there.keys() | wanted.keys()):
        if there.get(variant) != wanted.get(variant):
            yield f"{listed.place}: {variant} is {there.get(variant)}, and in the table {wanted.get(variant)}"


def faults_of_crates(calls: list[Call]) -> Iterator[str]:
    """What the crates have that isn't the table's. A variant is known by the name that the code gives it."""
    by_name = {name: variant for variant, name in names()[0].pairs}
    variant_of = {it.name: by_name.get(it.name, it.name) for it in calls}
    for listed in names():
        yield from differences(listed, {variant_of[it.name]: it.name for it in calls})
    for listed in numbers():
        found = Listed(listed.place, [(variant, str(int(number, 16))) for variant, number in listed.pairs])
        yield from differences(found, {variant_of[it.name]: str(it.number) for it in calls})
    for listed in counts():
        yield from differences(listed, {variant_of[it.name]: str(it.count) for it in calls})
    for listed in variants():
        yield from differences(listed, {it: it for it in variant_of.values()})


def faults_of_headers(calls: list[Call]) -> Iterator[str]:
    """Functions that the headers lack, or whose parameters aren't the arguments in their order."""
    declared = {name: it for header in headers() for name, it in header.functions.items()}
    for call in calls:
        for name in call.functions:
            if name not in declared:
                yield f"the headers have no {name}"
                continue
            given = [it for it, _ in declared[name].parameters if it in call.parameters]
            wanted = [it for it in call.parameters if it != "liobn"]  # a window is lent to its function
            if given != wanted:
                yield f"{name} takes {', '.join(given)}, and {call.name} {', '.join(wanted)}"
    of_calls = {name for call in calls for name in call.functions}
    for name in declared:
        if re.match(r"papr_(try_)?h_", name) and name not in of_calls:
            yield f"{name} is in a header, and no call's in the table"
