"""What an entry's two doublewords say: by the library for C, libpapr.so.0, and in words."""

from dataclasses import dataclass
from typing import Iterator, Optional

from common import Missing
from papr import Decoding, LibraryMissing, Right, decode, library_version, rights
from papr import Page as FoundPage

A_GROUP = 8  # entries
LEAST_ORDER = 18
REASONS = {
    Decoding.EMPTY: "V is clear: the entry is empty",
    Decoding.NO_SIZE: "no page size is encoded",
    Decoding.NO_SEGMENT: "B is above 1, or no page of that size lies where the tag says",
    Decoding.OTHER_GROUP: "no page whose group this is has this entry",
    Decoding.NO_INDEX: "the table has no such index",
}
WIMG = ((8, "W"), (4, "I"), (2, "M"), (1, "G"))
UNITS = ((30, "GB"), (20, "MB"), (10, "KB"))

Doublewords = tuple[int, int]


@dataclass(frozen=True)
class Page:
    """What an entry says, as the library answers it; where no index is known, without the page."""

    why: Decoding
    vsid: int
    page: Optional[int]  # the index of the base page in its segment
    real: int  # logical address of the real page
    base_shift: int
    actual_shift: int
    key: int
    protection: int
    wimg: int
    one_tb: bool
    no_execute: bool
    bolted: bool
    secondary: bool
    referenced: bool
    changed: bool
    rights: tuple[str, str]  # with a Ks or Kp of 0, and of 1

    @property
    def attributes(self) -> str:
        """The letters of W, I, M and G that are set."""
        return "".join(letter for bit, letter in WIMG if self.wimg & bit) or "none"

    def __str__(self) -> str:
        if self.why is not Decoding.PAGE:
            return REASONS[self.why]
        page = "" if self.page is None else f" page {self.page:#x}"
        size = size_of(self.actual_shift)
        size = size if self.base_shift == self.actual_shift else f"{size_of(self.base_shift)} in {size}"
        flags = (", N" if self.no_execute else "") + (", bolted" if self.bolted else "")
        return (
            f"VSID {self.vsid:#x}{page}, {size} at {self.real:#x}, {'/'.join(self.rights)}, "
            f"{self.attributes}, key {self.key}{flags}"
        )


def size_of(shift: int) -> str:
    """A size in words, by its binary logarithm."""
    found = next(((unit, name) for unit, name in UNITS if shift >= unit), (0, "bytes"))
    return f"{1 << shift - found[0]} {found[1]}"


class Decoder:
    """The library's functions."""

    def __init__(self) -> None:
        try:
            library_version()
        except LibraryMissing as error:
            raise Missing(f"{error}; make library makes it") from error
        self._found: dict[Doublewords, int] = {}  # an index at which the doublewords tell a page

    def rights(self, protection: int, key: bool) -> str:
        """What the protection allows with a Ks or Kp: r, w, both, or -."""
        allowed = rights(protection, key)
        return ("r" if Right.READ in allowed else "") + ("w" if Right.WRITE in allowed else "") or "-"

    def decode(self, words: Doublewords, entry: Optional[int], order: Optional[int]) -> Page:
        """What the doublewords say in the entry of a table of this order, as far as these are known."""
        is_placed = entry is not None and order is not None
        if entry is not None and order is not None:
            found = decode(order, entry, *words)
        else:
            found = decode(LEAST_ORDER, self._found.get(words, 0), *words)
            if found.why is Decoding.OTHER_GROUP:
                found = next((it for it in self.in_each_group(words) if it.why is Decoding.PAGE), found)
        return self._page(found, is_placed)

    def in_each_group(self, words: Doublewords) -> Iterator[FoundPage]:
        """What the doublewords say in each group of the smallest table."""
        for index in range(0, 1 << LEAST_ORDER - 4, A_GROUP):
            found = decode(LEAST_ORDER, index, *words)
            if found.why is Decoding.PAGE:
                self._found.setdefault(words, index)
            yield found

    def pages(self, words: Doublewords) -> tuple[int, int]:
        """The least and the greatest page that the doublewords may translate, whatever the index is."""
        pages = [it.page for it in self.in_each_group(words) if it.why is Decoding.PAGE]
        return (min(pages), max(pages)) if pages else (0, 0)

    def _page(self, found: FoundPage, is_placed: bool) -> Page:
        """The library's answer with the rights."""
        told = found._asdict()
        told["page"] = found.page if is_placed else None
        told["rights"] = (self.rights(found.protection, False), self.rights(found.protection, True))
        return Page(**told)

    def explained(self, words: Doublewords, entry: Optional[int], order: Optional[int]) -> list[str]:
        """All that the doublewords say, a line each."""
        page = self.decode(words, entry, order)
        told = [f"doublewords  {words[0]:#x} {words[1]:#x}"]
        if entry is not None:
            told.append(f"entry        {entry:#x}: group {entry // A_GROUP:#x}, slot {entry % A_GROUP}")
        if page.why is not Decoding.PAGE:
            return [*told, f"page         none: {REASONS[page.why]}"]
        group = "secondary" if page.secondary else "primary"
        segment = "1 TB (B 1)" if page.one_tb else "256 MB (B 0)"
        can = {"r": "read", "w": "write", "rw": "read and write", "-": "nothing"}
        first, second = (can[rights] for rights in page.rights)
        if page.page is None:
            least, greatest = self.pages(words)
            span = f"{least:#x}"
            if least != greatest:
                span += f" to {greatest:#x}; the index and the order tell which"
        else:
            span = f"{page.page:#x}, at {page.page << page.base_shift:#x} of the segment"
        sizes = size_of(page.base_shift)
        if page.base_shift != page.actual_shift:
            sizes += f", in an actual page of {size_of(page.actual_shift)}"
        return [
            *told,
            f"group        {group}",
            f"segment      VSID {page.vsid:#x}, of {segment}",
            f"page         {span}",
            f"size         {sizes}",
            f"real page    {page.real:#x}",
            f"protection   {page.protection}: {first} with a Ks or Kp of 0, {second} with 1",
            f"execute      {'no' if page.no_execute else 'yes'}",
            f"key          {page.key}",
            f"WIMG         {page.attributes}",
            f"R, C         {int(page.referenced)}, {int(page.changed)}",
            f"bolted       {'yes' if page.bolted else 'no'}",
        ]
