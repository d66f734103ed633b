"""The crates of this repository and what each depends on, as crates.txt lists them."""

from pathlib import Path
from typing import Iterator

from common import HERE, Bad

TOP = HERE.parent
CRATES = TOP / "crates"
PARTS = ("src", "specs", "proofs")
# The static libraries that take memory.
WITH_HEAP = ("papr_bytes", "papr_shared")


def lines_of(listed: Path) -> dict[str, str]:
    """The lines of a crates.txt by the crate's name."""
    found = {}
    for line in listed.read_text(encoding="utf-8").splitlines():
        told = line.split("#")[0].strip()
        if told:
            found[told.partition(":")[0].split()[0]] = told
    return found


def uses_of(lines: dict[str, str]) -> dict[str, list[str]]:
    """The crates of the same list that each crate's line names; those of the kit are left out."""
    return {
        name: [used for used in line.partition(":")[2].split() if used in lines]
        for name, line in lines.items()
    }


def with_those_below(names: list[str], uses: dict[str, list[str]]) -> list[str]:
    """The crates and all that they stand on, each behind those that it uses."""
    found: list[str] = []

    def visit(name: str) -> None:
        if name in found:
            return
        for used in uses[name]:
            visit(used)
        found.append(name)

    for name in names:
        if name not in uses:
            raise Bad(f"crates.txt has no crate `{name}`")
        visit(name)
    return found


def folders_of(name: str) -> list[Path]:
    """Where the files of a crate are that its proof and its library rest on."""
    return [part for part in (CRATES / name / it for it in PARTS) if part.is_dir()]


def sources_of(name: str) -> list[Path]:
    """The folders of a crate that its program is built from: its code and its definitions."""
    return [part for part in folders_of(name) if part.name != "proofs"]


def files_of(name: str) -> Iterator[Path]:
    """The files that a crate's proof and its library rest on."""
    return (f for part in folders_of(name) for f in part.rglob("*") if f.is_file())


def is_program(name: str) -> bool:
    """Whether a crate is a program."""
    return (CRATES / name / "src" / "main.rt").is_file()


def is_static(line: str) -> bool:
    """Whether the crate on a line of crates.txt is a static library."""
    return "staticlib" in line.partition(":")[0].split()


def archive_of(name: str) -> str:
    """The file of a static library."""
    return f"lib{name}.a"
