"""Numbers in traces and replies: ASCII digits, and below a bound."""

import re
from typing import Optional

WORDS = 2**64  # the end of words, stamps, counts and numbers of lines
ENTRIES = 2**18  # .. of the entries of the largest table that a trace has, of order 22
PROCESSORS = 64
ORDERS = range(18, 23)  # of a trace's tables

DECIMAL = re.compile("[0-9]{1,20}")
HEXADECIMAL = re.compile("0[xX][0-9a-fA-F]{1,16}")


def decimal(word: str, end: int = WORDS) -> Optional[int]:
    """A decimal number below the end, or nothing if the word is none."""
    value = int(word) if DECIMAL.fullmatch(word) else end
    return value if value < end else None


def hexadecimal(word: str, end: int = WORDS) -> Optional[int]:
    """A number after 0x below the end, or nothing if the word is none."""
    value = int(word, 16) if HEXADECIMAL.fullmatch(word) else end
    return value if value < end else None


def number(word: str, end: int = WORDS) -> Optional[int]:
    """A number as a trace writes it, in either way."""
    return hexadecimal(word, end) if word[:2] in ("0x", "0X") else decimal(word, end)
