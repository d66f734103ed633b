"""Granted memory: a checked list of ranges of the guest's logical addresses."""

from collections.abc import Iterable, Iterator
from typing import Optional

from ._library import function
from ._structs import CGrant, CGrants
from .codes import GrantRefusal
from .errors import GrantRefused
from .records import Grant, Range, struct_of

POOL_BASE, POOL_ORDER = 0x10_0000_0000, 24


class Grants:
    """A list of grants, none of which overlaps another or the pool of page tables.

    >>> grants = Grants([Grant(0x0, 0x2000000000, 0x40000000)])
    >>> grants.machine_of(0x3000, 16)
    Range(machine=137438965760, is_io=False)
    """

    def __init__(
        self, grants: Iterable[Grant] = (), pool_base: int = POOL_BASE, pool_order: int = POOL_ORDER
    ) -> None:
        """Checks and sorts the grants; GrantRefused names the first that is refused.

        The hypervisor keeps page tables in the machine range of 2^pool_order bytes from pool_base.
        """
        given = [struct_of(CGrant, grant) for grant in grants]
        self.c_list = CGrants()
        array = (CGrant * len(given))(*given)
        made = function("papr_make_grants")(array, len(given), pool_base, pool_order, self.c_list)
        if made.refusal:
            raise GrantRefused(made.index, GrantRefusal(made.refusal))

    def __len__(self) -> int:
        """How many there are."""
        return int(self.c_list.count)

    def __getitem__(self, at: int) -> Grant:
        """A grant, by its place in the order of logical addresses."""
        if not 0 <= at < len(self):
            raise IndexError(f"there is no grant {at}")
        it = self.c_list.grants[at]
        return Grant(it.logical, it.machine, it.length, it.is_io)

    def __iter__(self) -> Iterator[Grant]:
        """The grants, in the order of logical addresses."""
        return (self[at] for at in range(len(self)))

    def machine_of(self, logical: int, length: int) -> Optional[Range]:
        """The machine range of so many bytes from a logical address, if one grant has all of them."""
        found = function("papr_machine_of")(self.c_list, logical, length)
        return Range(found.machine, found.is_io) if found.granted else None


def grants_of(given: "Grants | Iterable[Grant]") -> Grants:
    """A list of grants, made where it isn't one yet."""
    return given if isinstance(given, Grants) else Grants(given)
