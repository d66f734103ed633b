"""What Rust and Python declare of the library for C: files that are written from the headers in include/.

Compares each file with what follows from the headers, and fails where one differs. `--write` writes them.
"""

import argparse
from pathlib import Path

from checks.page import add_write
from checks.running import Failed
from common import Bad
from crates import TOP
from interface import ctypes_tables, rust

SYS = TOP / "bindings" / "rust" / "papr-sys" / "src"
PACKAGE = TOP / "bindings" / "python" / "papr"
COMMAND = "tests/check declarations --write"
WRITTEN = f"Written from it by `{COMMAND}`, with its comments: change nothing here."
OF_PAPR = f"""The functions of `papr.h`, with its names and parameters.
{WRITTEN}

The caller ensures what the header asks for: each pointer is aligned and to initialised memory of
the given length, no memory that a call may change overlaps that of another parameter, and entries
and lists are all zero or as calls left them."""
OF_SHARED = f"""The functions of `papr_shared.h`: calls and walks of several threads at once on one table.
{WRITTEN}

The caller also ensures that a pass is all zero or as the calls left it, is never copied, and is in one
call at a time, that no thread ends inside a call, and that `papr_join` takes passes of one table."""
OF_BYTES = f"""The function of `papr_bytes.h`: the whole program on bytes.
{WRITTEN}"""
IN_PYTHON = f"""of papr.h, papr_shared.h and papr_bytes.h, for ctypes.

Written from them by `{COMMAND}`: change nothing here. Nothing else in Python declares them.
"""


def texts() -> dict[Path, str]:
    """The files and what they have to be."""
    return {
        SYS / "functions.rs": rust.declarations("papr.h", "structs", OF_PAPR),
        SYS / "shared_functions.rs": rust.declarations("papr_shared.h", "shared", OF_SHARED),
        SYS / "bytes_functions.rs": rust.declarations("papr_bytes.h", "bytes", OF_BYTES),
        PACKAGE / "_structs.py": ctypes_tables.structs(f"The structs {IN_PYTHON}"),
        PACKAGE / "_functions.py": ctypes_tables.functions(f"The functions {IN_PYTHON}"),
    }


def first_difference(there: str, computed: str) -> str:
    """The first line in which two texts differ, in both."""
    pairs = zip([*there.splitlines(), "(the end)"], [*computed.splitlines(), "(the end)"])
    return next((f"  there    {old}\n  computed {new}" for old, new in pairs if old != new), "  only in its end")


def settle(path: Path, text: str, write: bool) -> None:
    """Writes a file, or compares it."""
    if write:
        path.write_text(text, encoding="utf-8")
        return
    there = path.read_text(encoding="utf-8") if path.is_file() else ""
    if there != text:
        name = path.relative_to(TOP)
        raise Failed(f"{name} isn't that of the headers ({COMMAND}):\n{first_difference(there, text)}")


def add_options(parser: argparse.ArgumentParser) -> None:
    """The options of this check."""
    add_write(parser)


def check(given: argparse.Namespace) -> str:
    """All files."""
    try:
        found = texts()
    except Bad as error:
        raise Failed(str(error)) from error
    for path, text in found.items():
        settle(path, text, given.write)
    return f"{len(found)} files are as the headers declare"
