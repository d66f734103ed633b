"""The functions of the three headers, in the shared objects libpapr.so.0 and libpapr_bytes.so.0."""

import ctypes
import os
from functools import cache
from pathlib import Path
from typing import Any, NamedTuple, Optional

from ._functions import BYTES_FUNCTIONS, FUNCTIONS, SHARED_FUNCTIONS, Types
from ._structs import SIZE, U8, U32, U64
from .errors import LibraryMissing

VERSION = (0, 1, 0)  # of the headers that this package was written for
CALLS, BYTES = "libpapr.so.0", "libpapr_bytes.so.0"
# Variables that name a file instead.
VARIABLES = {CALLS: "PAPR_SHARED_LIBRARY", BYTES: "PAPR_SHARED_BYTES_LIBRARY"}


class Home(NamedTuple):
    """A tree that has this package and the libraries too."""

    package: str  # where it has this package
    others: tuple[str, ...]  # what else it has, by which it is known
    libraries: str


CHECKOUT = Home("bindings/python/papr", ("VERSION", "tools/build"), "out/lib")
PREFIX = Home("share/papr/papr", ("bin/papr",), "lib")

WIDTHS = {U8: 8, U32: 32, U64: 64, SIZE: 8 * ctypes.sizeof(SIZE)}  # in bits


class Function:
    """A function of a library. Numbers that don't fit its parameters are refused; ctypes alone would cut them."""

    def __init__(self, found: Any, result: Any, parameters: Types) -> None:
        found.restype, found.argtypes = result, parameters
        self._found = found
        self._widths = [(at, WIDTHS[kind]) for at, kind in enumerate(parameters) if kind in WIDTHS]

    def __call__(self, *arguments: Any) -> Any:
        """Calls it."""
        for at, width in self._widths:
            if arguments[at] >> width:
                raise OverflowError(f"{arguments[at]:#x} isn't a number of {width} bits without a sign")
        return self._found(*arguments)


def place_of(name: str) -> str:
    """Where a library is: as its variable says, in the checkout of this file, below its prefix, or by its name."""
    named = os.environ.get(VARIABLES[name])
    if named:
        return named
    places = [folder / name for folder in map(libraries_of, (CHECKOUT, PREFIX)) if folder is not None]
    return next((str(place) for place in places if place.is_file()), name)


def libraries_of(home: Home) -> Optional[Path]:
    """The folder of the libraries, if this package is in such a tree; elsewhere anybody may have made a folder lib."""
    package = Path(__file__).resolve().parent
    if not package.match(home.package):
        return None
    top = package.parents[2]
    return top / home.libraries if all((top / other).is_file() for other in home.others) else None


def open_library(name: str, kind: type[ctypes.CDLL]) -> ctypes.CDLL:
    """A library."""
    try:
        return kind(place_of(name))
    except OSError as error:
        raise LibraryMissing(f"{name} can't be loaded: {error}") from error


def declared(library: ctypes.CDLL, name: str, types: tuple[Any, Types]) -> Function:
    """A function of a library, with its types."""
    try:
        return Function(library[name], *types)
    except AttributeError as error:
        raise LibraryMissing(f"this library is of another version: {error}") from error


@cache
def calls_library() -> ctypes.CDLL:
    """The library of the calls. Its calls keep Python's lock, since they take less time than to give it away."""
    library = open_library(CALLS, ctypes.PyDLL)
    number = declared(library, "papr_version", FUNCTIONS["papr_version"])()
    version = (number >> 16, number >> 8 & 0xFF, number & 0xFF)
    if version[:2] != VERSION[:2]:
        written = [".".join(map(str, it)) for it in (version, VERSION)]
        raise LibraryMissing(f"{CALLS} is of version {written[0]}, and this package of {written[1]}")
    return library


@cache
def shared_table_library() -> ctypes.CDLL:
    """The same library for shared tables: its calls give Python's lock away, so that threads call at once."""
    library = open_library(CALLS, ctypes.CDLL)
    calls_library()  # its version is looked at there
    if not hasattr(library, "papr_open"):
        raise LibraryMissing(f"{place_of(CALLS)} has no table that threads share: it lacks papr_open")
    return library


@cache
def bytes_library() -> ctypes.CDLL:
    """The library of the whole program. Its calls give Python's lock away, and may run side by side."""
    return open_library(BYTES, ctypes.CDLL)


@cache
def function(name: str) -> Function:
    """A function of one of the libraries."""
    if name in FUNCTIONS:
        return declared(calls_library(), name, FUNCTIONS[name])
    if name in SHARED_FUNCTIONS:
        return declared(shared_table_library(), name, SHARED_FUNCTIONS[name])
    return declared(bytes_library(), name, BYTES_FUNCTIONS[name])
