"""Numbers that are arguments of a tool, or words of a text that it reads."""

from argparse import ArgumentTypeError
from typing import Callable

from common import Bad
from papr.numbers import WORDS, number

MOST = 10**20  # what 20 digits can write


def read_number(word: str) -> int:
    """A number as a trace writes it: decimal, or hexadecimal after 0x, below 2^64."""
    value = number(word, MOST)
    if value is None:
        raise ArgumentTypeError(f"`{word}` is no number")
    if value >= WORDS:
        raise ArgumentTypeError(f"`{word}` is not below 2^64")
    return value


def checked(read: Callable[[str], int], word: str) -> int:
    """What such a reader makes of a word of a text."""
    try:
        return read(word)
    except ArgumentTypeError as error:
        raise Bad(str(error)) from error


def number_of(word: str) -> int:
    """The number that a word of a text is."""
    return checked(read_number, word)
