"""The calls on entries, which a table and a pass of a shared table have alike."""

from abc import ABC, abstractmethod
from collections.abc import Iterable
from typing import Any

from ._room import WORDS
from ._structs import U64
from .grants import Grants
from .records import Reply


class Calls(ABC):
    """The calls by their names and by their numbers."""

    grants: Grants

    @abstractmethod
    def _call(self, name: str, *arguments: Any) -> Reply:
        """Makes a call of this name."""

    @abstractmethod
    def _call_by_number(self, number: int, words: Any) -> Reply:
        """Makes a call with these eight words, over which its answer is put."""

    # tests/check call-table: begin

    def h_enter(self, flags: int, ptex: int, pteh: int, ptel: int) -> Reply:
        """H_ENTER: puts a translation into the first empty entry of ptex's group, or with EXACT into entry ptex.

        The word is the entry's index.
        """
        return self._call("h_enter", self.grants.c_list, flags, ptex, pteh, ptel)

    def h_remove(self, flags: int, ptex: int, avpn: int) -> Reply:
        """H_REMOVE: empties the entry. The words are its two doublewords from before."""
        return self._call("h_remove", flags, ptex, avpn)

    def h_protect(self, flags: int, ptex: int, avpn: int) -> Reply:
        """H_PROTECT: gives the entry the protection in flags. No word."""
        return self._call("h_protect", flags, ptex, avpn)

    def h_read(self, flags: int, ptex: int) -> Reply:
        """H_READ: the words are the entry's two doublewords, or with READ_4 those of four entries."""
        return self._call("h_read", flags, ptex)

    def h_clear_ref(self, flags: int, ptex: int) -> Reply:
        """H_CLEAR_REF: clears R. The word is doubleword 1 from before."""
        return self._call("h_clear_ref", flags, ptex)

    def h_clear_mod(self, flags: int, ptex: int) -> Reply:
        """H_CLEAR_MOD: clears C. The word is doubleword 1 from before."""
        return self._call("h_clear_mod", flags, ptex)

    def h_bulk_remove(self, pairs: Iterable[int]) -> Reply:
        """H_BULK_REMOVE: empties the entries of up to four pairs.

        The words are all eight, with a response instead of each request that was processed.
        """
        given = words_of(pairs)
        return self._call("h_bulk_remove", given, len(given))
    # tests/check call-table: end

    def hcall(self, number: int, *arguments: int) -> Reply:
        """A call by its number, with registers 4 to 11; those that are left out are 0."""
        if len(arguments) > WORDS:
            raise ValueError(f"a call has at most {WORDS} arguments, and not {len(arguments)}")
        return self._call_by_number(number, words_of([*arguments, *[0] * (WORDS - len(arguments))]))


def words_of(numbers: Iterable[int]) -> Any:
    """Numbers of 64 bits as an array of the library."""
    given = list(numbers)
    for number in given:
        if number >> 64:
            raise OverflowError(f"{number:#x} isn't a number of 64 bits without a sign")
    return (U64 * len(given))(*given)
