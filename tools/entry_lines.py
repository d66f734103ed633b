"""Lines that have an entry of the page table: those of a trace's opening table, and those of an image."""

import re
from dataclasses import dataclass
from typing import Iterable, Iterator, Optional

from decoding import Doublewords
from numerals import checked, read_number

B_OF_NEW = 0x0C00_0000_0000_0000  # where the newer layout has B, in doubleword 1
ENTRY = re.compile(r"(?:entry )?(old|new) (0x[0-9a-fA-F]{1,16}|[0-9]{1,20}) ([0-9a-fA-F]{32})")
IMAGE_HEAD = re.compile(r"image (old|new) order ([0-9]+) entries [0-9]+")


@dataclass(frozen=True)
class EntryLine:
    """An entry as a line has it."""

    layout: str
    index: int
    digits: str


def doublewords_of(layout: str, digits: str) -> Doublewords:
    """The doublewords of an entry's digits, as the older layout has them."""
    dword0, dword1 = int(digits[:16], 16), int(digits[16:], 16)
    return (dword0, dword1) if layout == "old" else (dword0 | (dword1 & B_OF_NEW) << 4, dword1 & ~B_OF_NEW)


def entry_of(words: list[str]) -> Optional[EntryLine]:
    """The entry that words name, if they do."""
    found = ENTRY.fullmatch(" ".join(words))
    return None if found is None else EntryLine(found[1], checked(read_number, found[2]), found[3])


def entries_of(lines: Iterable[str]) -> Iterator[tuple[int, EntryLine]]:
    """The entries of a trace's opening table, or of an image, each with the number of its line."""
    layout: list[str] = []
    for number, line in enumerate(lines, start=1):
        words = line.split()
        head = IMAGE_HEAD.fullmatch(line.strip())
        if head:
            layout = [head[1]]
        elif words == ["begin"]:
            return
        elif layout or words[:1] == ["entry"]:
            entry = entry_of(layout + words)
            if entry is not None:
                yield number, entry
