"""The hypervisor calls by their numbers: `tests/check call-table --write` writes the rows."""

from typing import NamedTuple

ENTRIES, WINDOW, TABLE = "entries", "window", "table"


class Hypercall(NamedTuple):
    """A call: its name, how many arguments it takes, and what it works on."""

    name: str
    arguments: int
    works_on: str


CALLS = {
    # tests/check call-table: begin
    0x08: Hypercall("H_ENTER", 4, "entries"),
    0x04: Hypercall("H_REMOVE", 3, "entries"),
    0x18: Hypercall("H_PROTECT", 3, "entries"),
    0x0C: Hypercall("H_READ", 2, "entries"),
    0x14: Hypercall("H_CLEAR_REF", 2, "entries"),
    0x10: Hypercall("H_CLEAR_MOD", 2, "entries"),
    0x124: Hypercall("H_BULK_REMOVE", 8, "entries"),
    0x20: Hypercall("H_PUT_TCE", 3, "window"),
    0x1C: Hypercall("H_GET_TCE", 2, "window"),
    0x36C: Hypercall("H_RESIZE_HPT_PREPARE", 2, "table"),
    0x370: Hypercall("H_RESIZE_HPT_COMMIT", 2, "table"),
    # tests/check call-table: end
}


def names_on(*works_on: str) -> dict[int, str]:
    """The names of the calls that work on one of these, by their numbers."""
    return {number: call.name for number, call in CALLS.items() if call.works_on in works_on}
