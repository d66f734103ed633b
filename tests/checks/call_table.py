"""The table of the hypervisor calls, tools/interface/calls.toml, against all lists of them.

Compares the lists of the crates and the functions of the headers with the table, and each list that is made of it.
Fails where one differs. `--write` writes the lists that are made of it.
"""

import argparse
from typing import Sequence

from checks.page import Table, add_write
from checks.running import Failed
from common import Bad
from crates import TOP
from interface import call_lists
from interface.calls import Call, calls
from interface.crate_lists import faults_of_crates, faults_of_headers

NAME = "call-table"
PYTHON, RUST = TOP / "bindings" / "python" / "papr", TOP / "bindings" / "rust" / "papr" / "src"
REPLAY = TOP / "examples" / "c"


def lists_of(found: list[Call]) -> list[tuple[Table, Sequence[str]]]:
    """Each list, with the lines that it has to have."""
    return [
        (Table(TOP / "docs" / "FORMATS.md", NAME), list(call_lists.format_rows(found))),
        (Table(TOP / "man" / "papr-trace.5", NAME), list(call_lists.manual_rows(found))),
        (Table(PYTHON / "codes.py", NAME, indent=4), list(call_lists.number_members(found))),
        (Table(PYTHON / "_calls.py", NAME, indent=4), list(call_lists.python_methods(found))),
        (Table(TOP / "tools" / "hypercalls.py", NAME, indent=4), list(call_lists.tool_rows(found))),
        (Table(TOP / "page" / "js" / "traces.js", NAME), list(call_lists.resize_rows(found))),
        (Table(REPLAY / "replay.h", NAME, indent=4), list(call_lists.c_numbers(found))),
        (Table(REPLAY / "replay.c", NAME, indent=8), list(call_lists.c_names(found))),
        (Table(RUST / "table.rs", NAME, indent=4), list(call_lists.rust_methods(found, 0, "Reply"))),
        (
            Table(RUST / "shared" / "pass.rs", NAME, indent=4),
            list(call_lists.rust_methods(found, 1, "Result<Reply, Busy>")),
        ),
    ]


def add_options(parser: argparse.ArgumentParser) -> None:
    """The options of this check."""
    add_write(parser)


def check(given: argparse.Namespace) -> str:
    """The crates, the headers and all lists."""
    try:
        found = calls()
        faults = [*faults_of_crates(found), *faults_of_headers(found)]
        lists = lists_of(found)
    except Bad as error:
        raise Failed(str(error)) from error
    if faults:
        raise Failed("\n".join(["the table of calls and the sources differ", *faults]))
    for table, rows in lists:
        table.settle(rows, given.write)
    return f"{len(found)} calls, as the crates and the headers have them, and in {len(lists)} lists"
