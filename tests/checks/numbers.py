"""Whether the limits that the documents and headers state are those of the sources.

A limit is a named constant, with the words in which the pages state it: `#` stands for its number. Wherever
a page has these words, the number has to be the constant's, and some page has to have them.
"""

import argparse
import re
from dataclasses import dataclass
from pathlib import Path
from typing import Iterator

from checks.running import Failed
from crates import CRATES, TOP

PAGES = ("README.md", "docs/*.md", "include/*.h", "man/*.[15]")
NUMBER = r"((?:2\^)?\d+(?:,\d+)*)"
VALUE = re.compile(r"(\d[\d_,]*)(?: ?(\^|<<) ?(\d+))?")
# Where a line ends, in a remark of a header with the star of the next one.
BREAK = re.compile(r"\s*\n(?: \*(?=\s))?\s*|\s{2,}")


@dataclass(frozen=True)
class Limit:
    """A constant of a file below crates/, how many times it is meant, and the words that state it."""

    file: str
    constant: str
    words: tuple[str, ...]
    times: int = 1


LIMITS = (
    Limit(
        "pool_range/src/range.rt",
        "GREATEST_ORDER",
        (
            *("order isn't from 18 to #", "orders isn't from 18 to #", "order is from 18 to #"),
            *("`order` is from 18 to #", "an order from 18 to #", "ORDER 18 to #"),
            "The order is not 18 to #",
            *("above the limit or above #", "No order above # is prepared", "order of the pool Ta 18 to #"),
            *("The order is 18 to #", "the libraries reach #"),
        ),
    ),
    Limit(
        "trace_read/specs/Configuration.antt",
        "greatest_trace_order",
        (
            *("tables of the orders 18 to #", "bytes | 18 | 18 to #", "the order to #", "bytes: 18 to #"),
            *("order of a table Ta 18 to #", "no table above order #"),
        ),
    ),
    Limit(
        "hpte_fields/src/table_size.rt",
        "GREATEST_ARCHITECTED_ORDER",
        (
            *("nor from 18 to #", "nor 18 to #", "shift isn't from 18 to #", "or the order is not 18 to #"),
            *("an order outside 18 to #", "name an order up to #"),
        ),
    ),
    Limit(
        "hpt_resize/src/pending.rt",
        "READY_A_CALL",
        (
            *("makes # entries ready", "makes # of its entries ready", "`into`, # entries at each call"),
            "made ready by one PREPARE Ta #",
        ),
    ),
    Limit(
        "frame_grants/src/grants.rt",
        "MOST_GRANTS",
        (
            *("There are # grants", "there are # grants already", "there are # already", "up to # grants"),
            *("a list of at most # in C's", "up to #: memory granted", "struct papr_grant grants[#]"),
            "# stands three times",
        ),
    ),
    Limit(
        "bus_window/src/window.rt",
        "MOST_PAGES",
        (
            *("no page or more than #", "`pages` is from 1 to #", "PAGES isn't 1 to #", "PAGES 1 to #"),
            "1 to # pages of 4,096",
        ),
    ),
    Limit(
        "trace_read/specs/Configuration.antt",
        "most_processors",
        ("processors | 1 | 1 to #", "Processors: 1 to #", "processors Ta #"),
    ),
    Limit(
        "lock_core/src/actor.rt",
        "MOST_ACTORS",
        (
            *("for 1 to # passes", "count of passes isn't from 1 to #", "actors is 0 or above #"),
            "no actors or more than #",
        ),
    ),
    Limit(
        "trace_line/specs/Lines.antt",
        "most_lines",
        ("# lines came before", "this is line # + 1", "bytes, # lines"),
    ),
    Limit("trace_line/specs/Lines.antt", "most_dumps", ("# dumps came before", "of which dump #")),
    Limit("trace_read/specs/Grammar.antt", "most_bytes", ("more than # bytes", "input Ta # bytes")),
    Limit(
        "slb_model/src/slb.rt",
        "SLOTS",
        (
            *("the # slots", "list of # slots", "all # slots", "struct papr_slot slots[#]"),
            "segments of a processor Ta #",
        ),
    ),
    Limit(
        "tlb_model/src/tlb.rt",
        "SETS",
        ("# sets of cached translations", "# sets of up to four", "Ta # sets"),
    ),
    Limit(
        "pool_range/src/range.rt",
        "ADDRESS_END",
        ("ends above #", "no end above #", "the end isn't above #", "addresses Ta below #"),
    ),
    Limit(
        "papr_edge/src/command.rt",
        "MOST_LINES",
        ("lines, at most #", "LINES lines (at most #", "LINES at most #"),
    ),
    Limit("reply_text/src/text.rt", "REPLY_ROOM", ("so # bytes a line are reserved",)),
    Limit(
        "hpte_fields/src/table_size.rt",
        "GROUP_SIZE",
        ("isn't 1 to # marks", "line of at most # receipts", "did to entries, in order: at most #"),
        times=2,
    ),
)


def number_of(text: str) -> int:
    """The number that a text or a source writes."""
    found = VALUE.fullmatch(text)
    if found is None:
        raise Failed(f"this is no number: {text}")
    first, sign, second = int(re.sub("[_,]", "", found[1])), found[2], int(found[3] or 0)
    if sign == "^":
        return int(first**second)
    return first << second


def value_of(limit: Limit) -> int:
    """The number of a limit, by its constant."""
    text = (CRATES / limit.file).read_text(encoding="utf-8")
    found = re.search(rf"(?m)^(?:pub )?(?:const )?{limit.constant}(?:: \w+)? = ([^;\n]+);?$", text)
    if found is None:
        raise Failed(f"crates/{limit.file} has no constant {limit.constant}")
    return number_of(found[1]) * limit.times


def numbers_in(words: str, text: str) -> list[str]:
    """The numbers that a text has in these words."""
    before, after = words.split("#")
    if before not in text or after not in text:
        return []
    number = NUMBER if before else rf"(?<![\w,^]){NUMBER}"
    return re.findall(re.escape(before) + number + re.escape(after), text)


def texts_of(root: Path) -> dict[str, str]:
    """The pages, each in one line."""
    paths = [path for pattern in PAGES for path in sorted(root.glob(pattern))]
    return {str(it.relative_to(root)): BREAK.sub(" ", it.read_text(encoding="utf-8")) for it in paths}


def faults_of(limit: Limit, texts: dict[str, str]) -> Iterator[str]:
    """Other numbers that pages state of a limit, and words that no page has."""
    value = value_of(limit)
    for words in limit.words:
        found = [(page, it) for page, text in texts.items() for it in numbers_in(words, text)]
        if not found:
            yield f"no page states `{words}`"
        for page, number in found:
            if number_of(number) != value:
                yield f"{page}: `{words.replace('#', number)}`, and {limit.constant} is {value:,}"


def add_options(_parser: argparse.ArgumentParser) -> None:
    """This check has no options."""


def check(_given: argparse.Namespace) -> str:
    """All limits in all pages."""
    texts = texts_of(TOP)
    wrong = [fault for limit in LIMITS for fault in faults_of(limit, texts)]
    if wrong:
        raise Failed("\n".join(["limits that aren't as the sources have them", *wrong]))
    ways = sum(len(it.words) for it in LIMITS)
    return f"{len(LIMITS)} limits, in {ways} ways of stating them, in {len(texts)} pages"
