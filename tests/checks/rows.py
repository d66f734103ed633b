"""Whether what papr_rows is given is what its rows say.

The rows are the files crates/papr_rows/data/*.toml. `tests/rows --write` writes them as the commands that the
program reads, and what it has to print; this check compares those files with the rows.
"""

import argparse
import re
from dataclasses import dataclass, field
from pathlib import Path
from typing import Iterator, Union

from checks.row_files import DATA, PIECE, ROWS, Copies, Plain, Row, Run, Text, rows
from checks.running import Failed
from crates import TOP

CASES = "cases.txt"
PART = re.compile(rb"[ -~]*\n|[ -~]+|[^ -~\n]+\n?")  # a line, a piece of one, or bytes that are no characters
CHARACTERS = re.compile(rb"[ -~]*\n?")
KEYS = ("read-piece", "read-fault", "write-piece", "write-fault")

HEAD = """\
# The rows of the .toml files beside, run by run, as papr_rows reads them. `tests/rows --write` writes this.
# A line's first word is a command:
#
#   row NAME             begins a row, of which nothing is said so far: its texts are empty
#   words, word WORD     begins the words of the program again, and adds one
#   read-piece N         a read gives at most N bytes; 4096 if nothing is said
#   read-fault N         read N fails, numbered from 1; 0 is none
#   write-piece N, write-fault N
#                        the same of writes
#   input, output        begins the input, or the expected output, again
#   < TEXT, > TEXT       puts TEXT and a line feed after the input, or after the output
#   <. TEXT, >. TEXT     TEXT alone
#   <b BYTE              a byte, by its number
#   <* TIMES, >* TIMES   copies of the pattern; {8+2} in it is 8 in the first and 2 more in each further one, and
#                        {0x8+2} the same in hexadecimal
#   pattern              begins the pattern again
#   * TEXT, *. TEXT      puts TEXT after it, with a line feed or alone
#   status N             the expected status; 0 if nothing is said
#   run                  runs the program over what is said
#   end                  ends the row
"""


def added(sign: str, line: str) -> str:
    """The command that puts a line, or a piece of one, after a text."""
    if not line.endswith("\n"):
        return f"{sign}. {line}"
    return sign if line == "\n" else f"{sign} {line[:-1]}"


def commands_of(piece: Union[Plain, Copies], sign: str) -> Iterator[str]:
    """The commands that put a piece after the text of this sign."""
    if isinstance(piece, Copies):
        yield "pattern"
        yield from (added("*", line) for line in piece.text.splitlines(keepends=True))
        yield f"{sign}* {piece.times}"
        return
    for part in PART.findall(piece.text):
        if CHARACTERS.fullmatch(part):
            yield added(sign, part.decode())
        else:
            yield from (f"{sign}b {byte}" for byte in part)


@dataclass
class Said:
    """What was said of the row at work so far."""

    words: list[str] = field(default_factory=list)
    numbers: dict[str, int] = field(default_factory=lambda: {**dict(zip(KEYS, (PIECE, 0) * 2)), "status": 0})
    texts: dict[str, Text] = field(default_factory=lambda: {"input": [], "output": []})

    def commands(self, run: Run) -> Iterator[str]:
        """The commands that say of a run what isn't said yet, and run it."""
        if run.words != self.words:
            yield from ["words"] if self.words else []
            yield from (f"word {word}" for word in run.words)
            self.words = run.words
        numbers = {**dict(zip(KEYS, run.source + run.sink)), "status": run.status}
        for key, number in numbers.items():
            if number != self.numbers[key]:
                yield f"{key} {number}"
        self.numbers = numbers
        yield from self.text_commands("input", "<", run.input)
        yield from self.text_commands("output", ">", run.output)
        yield "run"

    def text_commands(self, key: str, sign: str, text: Text) -> Iterator[str]:
        """The commands that make a text of what it was."""
        known = self.texts[key]
        if text[: len(known)] != known:
            yield key
            known = []
        for piece in text[len(known) :]:
            yield from commands_of(piece, sign)
        self.texts[key] = text


def commands_of_row(row: Row) -> list[str]:
    """The commands of a row."""
    said = Said()
    commands = [command for run in row.runs() for command in said.commands(run)]
    if any("\n" in line for line in [row.name, *commands]):
        raise Failed(f"{row.name}: no name and no word may have a line feed")
    return [f"row {row.name}", *commands, "end"]


def files() -> dict[Path, str]:
    """What papr_rows is given, and what it has to print."""
    found = rows()
    counts = {row.name: len(list(row.runs())) for row in found}
    printed = [f"{name}: {count}" for name, count in counts.items()]
    printed.append(f"{sum(counts.values())} passed, 0 failed")
    texts = ["".join(f"{line}\n" for line in commands_of_row(row)) for row in found]
    return {
        DATA / CASES: "\n".join([HEAD, *texts]),
        ROWS / "args": f"{CASES}\n",
        ROWS / "stdout": "".join(f"{line}\n" for line in printed),
    }


def add_options(_parser: argparse.ArgumentParser) -> None:
    """This check has no options."""


def check(_given: argparse.Namespace) -> str:
    """Each of the files."""
    for path, text in files().items():
        if not path.exists() or path.read_text(encoding="utf-8") != text:
            raise Failed(f"{path.relative_to(TOP)} isn't what the rows say: `tests/rows --write` writes it")
    return "what papr_rows is given is what the rows say"
