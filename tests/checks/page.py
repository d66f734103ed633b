"""A table in a page of the documents that follows from something else."""

import argparse
from dataclasses import dataclass
from itertools import zip_longest
from pathlib import Path
from typing import Sequence

from checks.running import Failed
from crates import TOP

# A comment of one line, by the ending of a page or a source.
COMMENTS = {
    ".md": "<!-- {} -->",
    ".5": '.\\" {}',
    ".py": "# {}",
    ".rs": "// {}",
    ".js": "// {}",
    ".h": "/* {} */",
    ".c": "/* {} */",
}


@dataclass(frozen=True)
class Table:
    """The lines between the two markers of a check in its page."""

    page: Path
    check: str
    part: str = ""  # which of the check's tables it is, where the page has several
    indent: int = 0  # columns that its markers are set in

    def marker(self, place: str) -> str:
        """The line at one end of the table: a comment, as the page's language has it."""
        part = f", {self.part}" if self.part else ""
        comment = COMMENTS[self.page.suffix].format(f"tests/check {self.check}{part}: {place}")
        return f"{' ' * self.indent}{comment}\n"

    @property
    def begin(self) -> str:
        """The line before the table."""
        return self.marker("begin")

    @property
    def end(self) -> str:
        """The line after it."""
        return self.marker("end")

    def parts(self) -> tuple[str, str, str]:
        """What is before the table, the table, and what is after it."""
        text = self.page.read_text(encoding="utf-8")
        before, begin, rest = text.partition(self.begin)
        table, end, after = rest.partition(self.end)
        if not begin or not end or self.begin in rest or self.end in before + after:
            raise Failed(f"{self.name} has not one each of {self.begin.strip()} and {self.end.strip()}")
        return before, table, after

    @property
    def name(self) -> str:
        """The page's name in the repository."""
        return str(self.page.relative_to(TOP))

    def compare(self, rows: Sequence[str]) -> None:
        """Whether the table has just these lines."""
        there = self.parts()[1].splitlines()
        for old, new in zip_longest(there, rows):
            if old != new:
                raise Failed(
                    f"the table in {self.name} is another one (tests/check {self.check} --write):\n"
                    f"  there    {'nothing' if old is None else old}\n"
                    f"  computed {'nothing' if new is None else new}"
                )

    def write(self, rows: Sequence[str]) -> None:
        """Puts these lines there."""
        before, _, after = self.parts()
        lines = "".join(f"{row}\n" for row in rows)
        self.page.write_text(before + self.begin + lines + self.end + after, encoding="utf-8")

    def settle(self, rows: Sequence[str], write: bool) -> None:
        """Writes the table, or compares it."""
        if write:
            self.write(rows)
        else:
            self.compare(rows)


def add_write(parser: argparse.ArgumentParser) -> None:
    """The option that writes the table."""
    parser.add_argument("--write", action="store_true", help="write the table, in place of comparing it")
