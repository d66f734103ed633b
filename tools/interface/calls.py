"""The table of the hypervisor calls, calls.toml, as it is written here."""

import re
import tomllib
from dataclasses import dataclass
from pathlib import Path

from common import Bad

TABLE = Path(__file__).with_name("calls.toml")
ENTRIES, WINDOW, WHOLE = "entries", "window", "table"
SEVERAL = re.compile(r"(\w+)\[([0-9]+)\]")
FLAG = re.compile(r"\{(\w+)\}")


@dataclass(frozen=True)
class Call:
    """A row of the table."""

    name: str
    number: int
    arguments: tuple[str, ...]
    works_on: str
    sentence: str
    functions: tuple[str, ...]

    @property
    def count(self) -> int:
        """How many arguments it takes from register 4 on."""
        return sum(int(found[2]) if (found := SEVERAL.fullmatch(it)) else 1 for it in self.arguments)

    @property
    def parameters(self) -> list[str]:
        """The names of its parameters in C, of several words one."""
        return [it.partition("[")[0] for it in self.arguments]

    @property
    def is_list(self) -> bool:
        """Whether it takes several words by one name."""
        return any(map(SEVERAL.fullmatch, self.arguments))

    def said(self, flag: str) -> str:
        """What it does, with its flags written so: `H_{}` makes H_EXACT."""
        return FLAG.sub(lambda it: flag.format(it[1]), self.sentence)


def call_of(row: dict[str, object]) -> Call:
    """A row, which has each key and no other."""
    fields = set(Call.__dataclass_fields__)
    if set(row) != fields or row["works_on"] not in (ENTRIES, WINDOW, WHOLE):
        raise Bad(f"{TABLE.name}: this is no row of it: {row}")
    arguments, functions = row["arguments"], row["functions"]
    if not isinstance(arguments, list) or not isinstance(functions, list) or not isinstance(row["number"], int):
        raise Bad(f"{TABLE.name}: this is no row of it: {row}")
    if row["works_on"] == ENTRIES and len(functions) != 2:
        raise Bad(f"{TABLE.name}: {row['name']} has two functions in C, one of them for a shared table")
    words = {key: str(row[key]) for key in ("name", "works_on", "sentence")}
    return Call(**words, number=row["number"], arguments=tuple(arguments), functions=tuple(functions))


def read_calls(text: str) -> list[Call]:
    """The rows of a table. No two have one name or number."""
    found = [call_of(row) for row in tomllib.loads(text)["call"]]
    if len({it.name for it in found}) < len(found) or len({it.number for it in found}) < len(found):
        raise Bad(f"{TABLE.name}: two rows have one name or number")
    return found


def calls() -> list[Call]:
    """The rows of this checkout."""
    return read_calls(TABLE.read_text(encoding="utf-8"))
