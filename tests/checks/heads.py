"""The sentence on top of each module of the crates, and the two tables of docs/ARCHITECTURE.md that are made of them.

A source module begins with `//!`, and a module of definitions with `--`: what it has, in a sentence that ends
with a full stop and says more than the module's name. Of a crate's own head the first paragraph says what the
crate is for, and one that begins with `Main contracts:` what it promises. Both tables are compared with the heads.
"""

import argparse
import re
from pathlib import Path
from typing import Iterator

from checks.page import Table, add_write
from checks.running import Failed
from crates import CRATES, TOP, lines_of

PAGE = TOP / "docs" / "ARCHITECTURE.md"
OF_CRATES, OF_MODULES = Table(PAGE, "heads", "crates"), Table(PAGE, "heads", "definitions")
CONTRACTS = "Main contracts: "
MARKS = {".rt": "//!", ".antt": "--"}
# Rustdoc's links, which are names alone in a table.
LINK = re.compile(r"\[(`[^`]*`)\](?!\()")


def paragraphs_in(text: str, mark: str) -> list[str]:
    """The paragraphs of the comment on top of a module's text, each on one line."""
    found = [""]
    for line in text.splitlines():
        if not line.startswith(mark):
            break
        said = line.removeprefix(mark).strip()
        if said:
            found[-1] = f"{found[-1]} {said}".strip()
        else:
            found.append("")
    return [LINK.sub(r"\1", it) for it in found if it]


def paragraphs_of(path: Path) -> list[str]:
    """The paragraphs of the comment on top of a module."""
    return paragraphs_in(path.read_text(encoding="utf-8"), MARKS[path.suffix])


def modules_of(crate: str) -> list[Path]:
    """The modules of a crate that have heads: its code, and its definitions without their list."""
    sources = sorted((CRATES / crate / "src").rglob("*.rt"))
    return sources + definitions_of(crate)


def definitions_of(crate: str) -> list[Path]:
    """The modules of definitions of a crate, in the order of their list."""
    folder = CRATES / crate / "specs"
    listed = folder / "Lib.antt"
    if not listed.is_file():
        return []
    names = re.findall(r"^(?:pub )?mod (\w+)", listed.read_text(encoding="utf-8"), re.MULTILINE)
    return [path for path in (folder / f"{name}.antt" for name in names) if path.is_file()]


def words_of(text: str) -> set[str]:
    """The words of a text, without their case and the letter of the plural."""
    return {word.lower().rstrip("s") for word in re.findall(r"[A-Za-z]+", text)}


def fault_in(name: str, paragraphs: list[str]) -> str:
    """What is wrong with the head of a module of this name, or nothing."""
    if not paragraphs:
        return "begins with no sentence"
    if not paragraphs[0].endswith((".", ":")):
        return "begins with a sentence that has no end"
    own = words_of(re.sub(r"([a-z])([A-Z])", r"\1 \2", name)) | {"the", "a"}
    return "begins with its name alone" if words_of(paragraphs[0]) <= own else ""


def faults_of(modules: list[Path]) -> Iterator[str]:
    """What is wrong with the heads of modules."""
    for path in modules:
        fault = fault_in(path.stem, paragraphs_of(path))
        if fault:
            yield f"{path.relative_to(TOP)} {fault} ({MARKS[path.suffix]})"


def first_sentence(text: str) -> str:
    """The first sentence of a paragraph, without its end."""
    ends = [found.start() for found in re.finditer(r"\.(?= [A-Z`]|$)", text)]
    return text[: ends[0]] if ends else text


def row_of_crate(crate: str, paragraphs: list[str]) -> str:
    """The row that says what a crate is for, by the head of its first module."""
    first, *others = paragraphs
    contracts = next((it.removeprefix(CONTRACTS) for it in others if it.startswith(CONTRACTS)), "none.")
    return f"| `{crate}` | {first.removesuffix('.')} | {contracts.removesuffix('.')} |"


def head_of_crate(crate: str) -> list[str]:
    """The head of the module that a crate begins with."""
    roots = (CRATES / crate / "src" / name for name in ("lib.rt", "main.rt"))
    return paragraphs_of(next(path for path in roots if path.is_file()))


def lowered(sentence: str) -> str:
    """A sentence as part of another: its first letter is small, if the word has no other capital."""
    word = re.match(r"[A-Za-z]+", sentence)
    return sentence[:1].lower() + sentence[1:] if word and word[0][1:].islower() or sentence[:2] == "A " else sentence


def row_of_modules(crate: str, heads: dict[str, list[str]]) -> str:
    """The row that says what a crate's modules of definitions hold, by their heads."""
    parts = (f"`{name}`: {lowered(first_sentence(paragraphs[0]))}" for name, paragraphs in heads.items())
    return f"| `{crate}` | {'; '.join(parts)} |"


def heads_of(crate: str) -> dict[str, list[str]]:
    """The heads of a crate's modules of definitions."""
    return {path.stem: paragraphs_of(path) for path in definitions_of(crate)}


def rows_of_crates(crates: list[str]) -> list[str]:
    """The lines of the table of crates."""
    rows = [row_of_crate(crate, head_of_crate(crate)) for crate in crates]
    return ["| crate | what it is for | its main contracts |", "|---|---|---|", *rows]


def rows_of_modules(crates: list[str]) -> list[str]:
    """The lines of the table of definitions."""
    rows = [row_of_modules(crate, heads) for crate, heads in ((it, heads_of(it)) for it in crates) if heads]
    return ["| crate | modules of `specs/` and what they hold |", "|---|---|", *rows]


def add_options(parser: argparse.ArgumentParser) -> None:
    """The options of this check."""
    parser.add_argument("crates", metavar="CRATE", nargs="*", help="look at these crates alone, and at no table")
    add_write(parser)


def check(given: argparse.Namespace) -> str:
    """All heads and both tables."""
    crates = list(lines_of(TOP / "crates.txt"))
    looked_at = given.crates or crates
    modules = [path for crate in looked_at for path in modules_of(crate)]
    wrong = list(faults_of(modules))
    if wrong:
        raise Failed("\n".join(["modules without a head", *wrong]))
    if not given.crates:
        OF_CRATES.settle(rows_of_crates(crates), given.write)
        OF_MODULES.settle(rows_of_modules(crates), given.write)
    return f"{len(modules)} modules of {len(looked_at)} crates begin with a sentence"
