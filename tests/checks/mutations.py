"""Traces and other texts that are changed by bytes, words, numbers, lines and DMA windows."""

import random
import re
from typing import Sequence

Lines = list[bytes]
Rows = tuple[Sequence[int], Sequence[int]]

MOST_LINES = 60
BEGIN = b"begin"
WORDS = [
    *(b"0x", b"0x0", b"0", b"1", b"63", b"64", b"-1", b"18", b"22", b"46", b"0xffffffffffffffff"),
    *(b"18446744073709551616", b"0x8000000000000000", b"H_ENTER", b"H_REMOVE", b"H_PROTECT", b"H_READ"),
    *(b"H_BULK_REMOVE", b"H_RESIZE_HPT_PREPARE", b"H_RESIZE_HPT_COMMIT", b"H_PUT_TCE", b"H_GET_TCE"),
    *(b"dmaread", b"dmawrite", b"hcall", b"load", b"store", b"fetch"),
    *(b"slbmte", b"slbclear", b"amr", b"iamr", b"dump", b"begin", b"order", b"limit", b"cpus", b"pool"),
    *(b"ram", b"io", b"entry", b"old", b"new", b"00000000000010010000000000003012", b"priv", b"user"),
    *(b"#", b"\r", b"\t", b"shared", b"window", b"7", b"8"),
]
# Numbers at the ends of what a text may have, and words that Python alone takes for numbers.
EDGES = [
    *(b"", b"0", b"00", b"-1", b"+1", b"1_0", b"0x", b"x", "\u00b2".encode(), b"63", b"64", b"17", b"23"),
    *(b"%d" % (2**power + more) for power in (14, 18, 32, 63, 64) for more in (-1, 0)),
    *(b"0x%x" % (2**power + more) for power in (18, 60, 63, 64) for more in (-1, 0)),
    *(b"9" * 20, b"9" * 26, b"7" * 5_000, b"f" * 17, b"f" * 4_000),
]
DIGITS = re.compile(rb"[0-9a-f]*[0-9][0-9a-f]*")
# Of DMA windows: in the first row what most lines have, in the second what is at an edge or past it.
LIOBNS: Rows = ([0x1, 0x1, 0x1, 0x2, 0x80000001], [0x0, 2**32 - 1, 2**32, 2**64 - 1])
BASES: Rows = ([0x0, 0x0, 0x1000, 0x100000], [2**60 - 0x1000, 2**60, 2**64 - 0x1000, 0x800, 0x1])
PAGES: Rows = ([1, 16], [16384, 16385, 0, 2**60])
TCES: Rows = ([0x0, 0x3001, 0x4003, 0x2], [0x3FFFFFFF002, 2**60 - 0xFFF, 2**64 - 1])


def behind_begin(lines: Lines, otherwise: int) -> int:
    """The place of the first run line; another one where no line is `begin`."""
    return lines.index(BEGIN) + 1 if BEGIN in lines else otherwise


def some_lines(draw: random.Random, lines: Lines) -> Lines:
    """A trace of not too many lines: the head up to `begin`, and a piece of the rest."""
    if len(lines) <= MOST_LINES:
        return list(lines)
    head = behind_begin(lines, 0)
    start = draw.randrange(head, len(lines))
    return lines[:head] + lines[start : start + MOST_LINES]


def change_bytes(draw: random.Random, given: bytes) -> bytes:
    """Some bytes put in, changed or taken out."""
    text = bytearray(given)
    for _ in range(draw.choice([1, 1, 2, 5])):
        place = draw.randrange(len(text) + 1)
        kind = draw.randrange(4)
        if kind == 0:
            text.insert(place, draw.randrange(256))
        elif kind == 1 and place < len(text):
            text[place] = draw.choice([draw.randrange(256), text[place] ^ (1 << draw.randrange(8))])
        elif kind == 2:
            del text[place : place + draw.choice([1, 1, 8])]
        else:
            del text[place:]
    return bytes(text)


def change_words(draw: random.Random, given: Lines) -> Lines:
    """Some words put in, changed or taken out."""
    lines = list(given)
    for _ in range(draw.choice([1, 2, 4])):
        place = draw.randrange(len(lines))
        words = lines[place].split(b" ")
        at = draw.randrange(len(words))
        kind = draw.randrange(4)
        if kind == 0:
            words[at] = draw.choice(WORDS)
        elif kind == 1:
            words[at] = b"0x%x" % draw.getrandbits(draw.choice([1, 4, 14, 32, 64]))
        elif kind == 2:
            words.insert(at, draw.choice(WORDS))
        else:
            del words[at]
        lines[place] = b" ".join(words)
    return lines


def change_lines(draw: random.Random, given: Lines, others: Sequence[Lines]) -> Lines:
    """Some lines put in, taken out, repeated or shuffled: mostly behind `begin`, where more may stand."""
    lines = list(given)
    for _ in range(draw.choice([1, 2, 8])):
        head = behind_begin(lines, 0) if BEGIN in lines and draw.random() < 0.9 else 0
        place = draw.randrange(head, len(lines) + 1)
        kind = draw.randrange(4)
        if kind == 0:
            other = draw.choice(others)
            lines.insert(place, draw.choice(other[len(other) // 4 :]))
        elif kind == 1 and place < len(lines):
            del lines[place]
        elif kind == 2 and place < len(lines):
            lines[place:place] = [lines[place]] * draw.choice([1, 3, 20, 300])
        elif kind == 3:
            tail = lines[place:]
            draw.shuffle(tail)
            lines[place:] = tail
    return lines


def drawn_number(draw: random.Random, rows: Rows) -> bytes:
    """A number as a trace may write it, mostly of the first row."""
    value = draw.choice(rows[draw.random() < 0.15])
    return draw.choice([b"0x%x", b"0x%x", b"0X%X", b"%d"]) % value


def window_line(draw: random.Random) -> bytes:
    """The configuration line of a DMA window."""
    return b" ".join([b"window", *(drawn_number(draw, rows) for rows in (LIOBNS, BASES, PAGES))])


def line_on_window(draw: random.Random) -> bytes:
    """A run line on such a window: a call by its name or its number, or a device's access."""
    verbs = [b"H_PUT_TCE", b"H_PUT_TCE", b"H_GET_TCE", b"hcall 0x20", b"hcall 28", b"dmaread", b"dmawrite"]
    verb = draw.choice(verbs)
    page = draw.choice(BASES[0]) + draw.choice([0x0, 0x0, 0x8, 0xFFF, 0x1000])
    words = [draw.choice([b"0", b"0", b"0", b"1"]), verb, drawn_number(draw, LIOBNS), b"0x%x" % page]
    if verb in (b"H_PUT_TCE", b"hcall 0x20"):
        words.append(drawn_number(draw, TCES))
    return b" ".join(words)


def with_windows(draw: random.Random, given: Lines) -> Lines:
    """Lines of windows, mostly where they may stand and up to one more than may, and run lines on them."""
    lines = list(given)
    for _ in range(draw.choice([1, 1, 2, 5])):
        begin = lines.index(BEGIN) if BEGIN in lines else len(lines)
        lines.insert(begin if draw.random() < 0.95 else draw.randrange(len(lines) + 1), window_line(draw))
    begin = behind_begin(lines, len(lines))
    for _ in range(draw.choice([1, 4, 16])):
        lines.insert(draw.randrange(begin, len(lines) + 1), line_on_window(draw))
    return lines


def mutated(draw: random.Random, traces: Sequence[Lines]) -> bytes:
    """One of the traces, changed once or a few times."""
    lines = some_lines(draw, draw.choice(traces))
    for _ in range(draw.choice([1, 1, 2, 3])):
        kind = draw.randrange(7)
        if kind < 2 and lines:
            lines = change_words(draw, lines)
        elif kind < 5:
            lines = change_lines(draw, lines, traces)
        elif kind == 5:
            lines = with_windows(draw, lines)
        else:
            lines = change_bytes(draw, b"\n".join(lines)).split(b"\n")
    return b"\n".join(lines)


def change_numbers(draw: random.Random, given: Lines) -> Lines:
    """A number of some lines replaced, also a part of a word."""
    lines = list(given)
    for _ in range(draw.choice([1, 1, 3])):
        place = draw.randrange(len(lines))
        found = list(DIGITS.finditer(lines[place]))
        if found:
            start, end = draw.choice(found).span()
            lines[place] = lines[place][:start] + draw.choice(EDGES) + lines[place][end:]
    return lines


def changed(draw: random.Random, given: Sequence[bytes]) -> bytes:
    """One of some texts of any kind, changed once or twice, or not at all."""
    lines = some_lines(draw, draw.choice(given).split(b"\n"))
    for _ in range(draw.choice([0, 1, 1, 2])):
        kind = draw.randrange(5)
        if kind < 2 and lines:
            lines = change_numbers(draw, lines)
        elif kind == 2 and lines:
            lines = change_words(draw, lines)
        elif kind == 3 and lines:
            lines = change_lines(draw, lines, [lines])
        else:
            lines = change_bytes(draw, b"\n".join(lines)).split(b"\n")
    return b"\n".join(lines)
