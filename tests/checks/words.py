"""Words that no page and no message has, each with its better one.

Looks at the documents, the manual pages, the header for C, the completions and the tools.
"""

import argparse
import re
from dataclasses import dataclass
from pathlib import Path
from typing import Iterator

from checks.running import Failed
from crates import TOP

PAGES = ("*.md", "docs/*.md", "examples/*.md", "man/*", "include/*.h", "completions/*", "papr", "tools/**/*")


@dataclass(frozen=True)
class Banned:
    """Words, as a pattern, and what to say in their place."""

    words: str
    better: str


BANNED = [
    Banned(r"\b[RT]\d+(\.\d+)?\b", "what is demanded, in words"),
    Banned(r"(?i)\b(this|the|our) paper\b", "the reason itself"),
    Banned(r"(?i)\bin order to\b", "to"),
    Banned(r"(?i)\butili[sz]\w+", "use"),
    Banned(r"\be\.g\.", "for example"),
    Banned(r"\bi\.e\.", "that is"),
]


def pages() -> Iterator[Path]:
    """The files that a user reads, or whose messages a user reads."""
    for pattern in PAGES:
        for path in sorted(TOP.glob(pattern)):
            if path.is_file() and "__pycache__" not in path.parts:
                yield path


def faults(path: Path) -> Iterator[str]:
    """The banned words of a page, each with its line."""
    for number, line in enumerate(path.read_text(encoding="utf-8").splitlines(), 1):
        for banned in BANNED:
            found = re.search(banned.words, line)
            if found:
                place = f"{path.relative_to(TOP)}:{number}"
                yield f"{place}: `{found.group(0)}`; better: {banned.better}"


def add_options(_parser: argparse.ArgumentParser) -> None:
    """This check has no options."""


def check(_given: argparse.Namespace) -> str:
    """All pages by all entries of the list."""
    looked_at = list(pages())
    found = [fault for path in looked_at for fault in faults(path)]
    if found:
        raise Failed("\n".join(["banned words", *found]))
    return f"{len(looked_at)} pages and tools have none of {len(BANNED)} banned words"
