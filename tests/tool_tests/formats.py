"""What the tests of refusals share: the rules as docs/FORMATS.md has them."""

import re

from .support import DOCS

REFUSALS, SETS = "### Refusals", "## What `set` reads and writes"


def rule(reason: str, heading: str = REFUSALS) -> str:
    """The one rule of a reason, in the table below this heading."""
    formats = (DOCS / "FORMATS.md").read_text(encoding="utf-8")
    below = formats.split(f"\n{heading}\n")[1].split("\n#")[0]
    begin = f"| `{reason}` | "
    (found,) = (line for line in below.splitlines() if line.startswith(begin))
    return found.removeprefix(begin).removesuffix(" |")


def causes_of_entries() -> list[str]:
    """The causes for which an entry of the opening table is refused, as the list has them."""
    formats = (DOCS / "FORMATS.md").read_text(encoding="utf-8")
    below = formats.partition("one of these holds:\n\n")[2].partition("\n\n")[0]
    items = re.split(r"(?m)^- ", below)[1:]
    return [" ".join(item.split()).rstrip(";.") for item in items]


def codes() -> dict[str, str]:
    """The value of each return code, by its name."""
    formats = (DOCS / "FORMATS.md").read_text(encoding="utf-8")
    below = formats.split("\n### Codes\n")[1].split("\n#")[0]
    return dict(re.findall(r"(?m)^\| (H_[A-Z_0-9]+) \| (-?[0-9]+) \|", below))


def code_row(name: str) -> str:
    """When a return code comes."""
    formats = (DOCS / "FORMATS.md").read_text(encoding="utf-8")
    found = re.search(rf"(?m)^\| {name} \| [^|]* \| (.*) \|$", formats)
    return found[1] if found else ""
