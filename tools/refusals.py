"""Refused lines in words: the rule that a line breaks, the form that it should have, and a hint.

Rules and forms are those of FORMATS.md. Of a rule with several parts, the one that applies is shown.
"""

import re
from dataclasses import dataclass
from difflib import get_close_matches
from typing import Callable, Iterator, Optional

import grants
import inputs
from common import Bad, page
from grants import Grant
from papr.numbers import number
from traces import ORDERS, begins_with_digit

RULES, SETTINGS, RUN_LINES = "### Refusals", "### Configuration lines", "### Run lines"
RULES_OF_SETS, ENTRIES = "## What `set` reads and writes", "### Entries of the opening table"
SHOWN = 200  # characters of a line
A_MARK = "\xef\xbb\xbf"  # a byte-order mark, byte by byte
PARTITIONS, MOST_WINDOWS, MOST_PAGES, A_PAGE = 8, 4, 2**14, 2**12
VALID, CLEARED, LEFT_OUT_BY_NEW, ABSENT = 0x1, 0x60, 0xFFF0_0000_0000_0000, 0x4000_0000_0000_0000
B_OF_NEW = 0x0C00_0000_0000_0000


@dataclass(frozen=True)
class Refused:
    """A refused line of an input: its number, the reason, all lines, and the command that refused it."""

    number: int
    reason: str
    lines: list[str]
    command: str  # run, check or set

    @property
    def has_line(self) -> bool:
        """Whether the refused line is one of the input."""
        is_behind_all = self.number == len(self.lines) and not self.lines[-1]
        return 0 < self.number <= len(self.lines) and not is_behind_all

    @property
    def line(self) -> str:
        """The line."""
        return self.lines[self.number - 1] if self.has_line else ""

    @property
    def own_words(self) -> list[str]:
        """The line's words; in a set those behind the partition's number."""
        return own_words_of(self.line, self.command)

    def before(self) -> Iterator[tuple[int, list[str]]]:
        """The lines before, of a set those of the same partition, each with its number."""
        partition = self.line.split()[:1]
        for number, line in enumerate(self.lines[: max(0, self.number - 1)], 1):
            if self.command != "set" or line.split()[:1] == partition:
                yield number, own_words_of(line, self.command)


def own_words_of(line: str, command: str) -> list[str]:
    """A line's words, behind the partition's number in a set."""
    words = line.split()
    return words[1:] if command == "set" and words[:1] != ["shared"] else words


def number_in(words: list[str], place: int) -> Optional[int]:
    """The number at a place of a line, if there is one."""
    return number(words[place]) if place < len(words) else None


# ---- what FORMATS.md says


def rows_of(formats: str, heading: str) -> Iterator[list[str]]:
    """The rows of the tables below a heading, cell by cell, without their heads."""
    below = formats.partition(f"\n{heading}\n")[2]
    section = re.split(r"\n#+ ", below, maxsplit=1)[0].splitlines()
    for line, following in zip(section, [*section[1:], ""]):
        if line.startswith("|") and not line.startswith("|---") and not following.startswith("|---"):
            yield [cell.strip() for cell in line.strip("|").split("|")]


def rules_of(formats: str, refused: Refused) -> str:
    """The rule of the reason; of a set's line also what comes beside it."""
    rules = [rule for word, rule in rows_of(formats, RULES) if word == f"`{refused.reason}`"]
    if refused.command == "set":
        beside = [rule for word, rule in rows_of(formats, RULES_OF_SETS) if word == f"`{refused.reason}`"]
        alone = [rule for rule in beside if not rule.startswith("also ")]
        rules = alone or rules + beside
    if not rules:
        raise Bad(f"FORMATS.md has no reason `{refused.reason}`")
    return "; ".join(rules)


def parts_of(rule: str) -> list[str]:
    """The parts of a rule, of which one applies."""
    return [part.removeprefix("or ") for part in rule.split("; ")]


def rules_of_entries(formats: str) -> list[str]:
    """The seven causes for which an entry of the opening table is refused."""
    below = formats.partition(f"\n{ENTRIES}\n")[2].partition("one of these holds:")[2]
    items = re.findall(r"(?m)^- ((?:.|\n {2})*)$", below.partition("\n\n")[2].partition("\n\n")[0])
    return [" ".join(item.split()).rstrip(";.") for item in items]


def forms_of(formats: str) -> dict[str, str]:
    """The form of each line by its word; of configuration lines with what is accepted."""
    forms = {}
    for heading in (SETTINGS, RUN_LINES):
        for row in rows_of(formats, heading):
            accepted = f"; accepted: {row[3]}" if len(row) > 3 and row[3] else ""
            for form in re.findall(r"`[^`]*`(?: and [a-z ]*numbers?)?", row[0]):
                words = form.replace("`", "").split()
                word = words[1] if words[0] == "C" else words[0]
                forms[word] = " ".join(words) + accepted
    return forms


# ---- which part of a rule applies


def part_of_word(refused: Refused) -> Optional[int]:
    """A first word that begins no line, or a second one behind a processor's number."""
    return int(begins_with_digit(refused.own_words)) if refused.own_words else None


def part_of_place(refused: Refused) -> Optional[int]:
    """A line out of its order, behind `begin`, or given twice; or a run line before `begin`."""
    word = refused.own_words[0] if refused.own_words else ""
    earlier = [words[0] for _number, words in refused.before() if words]
    if begins_with_digit(refused.own_words) or word == "dump":
        return 3
    if "begin" in earlier:
        return 1
    return 2 if word in earlier and word in ("order", "limit", "cpus", "pool") else 0


def part_of_window(refused: Refused) -> Optional[int]:
    """The window's number, base, pages, end, or how many there are."""
    liobn, base, pages = (number_in(refused.own_words, place) for place in (1, 2, 3))
    if liobn is None or base is None or pages is None:
        return None
    windows = [number_in(words, 1) for _number, words in refused.before() if words[:1] == ["window"]]
    holds = (
        liobn >= 2**32 or liobn in windows,
        base % A_PAGE != 0,
        not 1 <= pages <= MOST_PAGES,
        base + pages * A_PAGE > grants.ADDRESS_END,
        len(windows) >= MOST_WINDOWS,
    )
    return holds.index(True) if True in holds else None


def part_of_lpar(refused: Refused) -> Optional[int]:
    """The first word names no partition, or the second one is a setting that a partition hasn't."""
    number = number_in(refused.line.split(), 0)
    return 0 if number is None or number >= PARTITIONS else 1


PARTS: dict[str, Callable[[Refused], Optional[int]]] = {
    "word": part_of_word,
    "place": part_of_place,
    "window": part_of_window,
    "lpar": part_of_lpar,
}


def grants_before(refused: Refused) -> Iterator[tuple[int, Grant]]:
    """The grants of the lines before, each with its line."""
    for line, words in refused.before():
        found = [number_in(words, place) for place in (1, 2, 3)]
        given = [value for value in found if value is not None]
        if words[:1] in (["ram"], ["io"]) and len(given) == len(found):
            yield line, Grant(words[0], *given)


def cause_of_parameter(refused: Refused, dword0: int, dword1: int) -> str:
    """What H_ENTER would answer H_PARAMETER for."""
    shift = grants.actual_shift(dword0, dword1)
    if dword0 >> 62 > 1:
        return "B is above 1"
    if shift is None:
        return "no page size is encoded"
    start = (dword1 & 0x0FFF_FFFF_FFFF_F000) >> shift << shift
    page_of_entry = start, start + 2**shift
    is_held = any(grants.inside(page_of_entry, grant.pages) for _number, grant in grants_before(refused))
    return "W, I, M and G don't suit the grant" if is_held else "no single grant holds the whole page"


def rule_of_entry(formats: str, refused: Refused) -> Optional[str]:
    """The cause for which an entry of the opening table is refused."""
    rules = rules_of_entries(formats)
    layout, index, digits = (refused.own_words + ["", "", "", ""])[1:4]
    order = next((number_in(words, 1) for _number, words in refused.before() if words[:1] == ["order"]), 18)
    value = number_in(["", index], 1)
    before = [words for _number, words in refused.before() if words[:1] == ["entry"]]
    if value is None or order is None or order not in ORDERS or len(rules) != 7:
        return None
    if layout not in ("old", "new"):
        return rules[0]
    if value >= 1 << order - 4 or before and value <= (number_in(before[-1], 2) or 0):
        return rules[1]
    if not re.fullmatch("[0-9a-fA-F]{32}", digits):
        return rules[2]
    dword0, dword1 = int(digits[:16], 16), int(digits[16:], 16)
    if not dword0 & VALID or dword0 & CLEARED:
        return rules[3]
    if layout == "new":
        if dword0 & LEFT_OUT_BY_NEW:
            return rules[4]
        dword0, dword1 = dword0 | (dword1 & B_OF_NEW) << 4, dword1 & ~B_OF_NEW
    if dword1 & ABSENT:
        return rules[5]
    return f"{rules[6].partition(':')[0]}: {cause_of_parameter(refused, dword0, dword1)}"


def rule_of(formats: str, refused: Refused) -> str:
    """The rule of the reason, or the part of it that applies."""
    rule = rules_of(formats, refused)
    if refused.reason == "entry":
        return rule_of_entry(formats, refused) or rule
    part = PARTS[refused.reason](refused) if refused.reason in PARTS and refused.has_line else None
    parts = parts_of(rule)
    return rule if part is None or part >= len(parts) else parts[part]


# ---- forms and hints


def is_binary(lines: list[str]) -> bool:
    """Whether an input's lines are those of no text."""
    return inputs.is_binary("\n".join(lines)[: inputs.FRONT].encode("latin-1"))


def form_of(formats: str, refused: Refused) -> Optional[str]:
    """The form that the line should have, if that tells more than the rule."""
    forms = forms_of(formats)
    if refused.command == "set":
        shared = forms.pop("pool").replace("pool", "shared")
        forms.pop("entry")
        forms.pop("window")
        if refused.line.split()[:1] == ["shared"]:
            return shared
    words = refused.own_words
    is_run_line = begins_with_digit(words)
    form = forms.get(words[is_run_line] if len(words) > is_run_line else "", beginnings(forms))
    return f"a partition's number, 0 to 7, and then {form}" if refused.command == "set" else form


def beginnings(forms: dict[str, str]) -> str:
    """The words that a line can begin with."""
    run_words = [word for word, form in forms.items() if form.startswith("C ")]
    others = [word for word in forms if word not in run_words]
    behind_number = f"with a processor's number and then {', '.join(run_words)}"
    return f"a line begins with {', '.join(others)}, or {behind_number}"


def order_of_lines(formats: str) -> str:
    """The order in which the lines of a trace come."""
    settings = [" and ".join(re.findall(r"`([a-z]+)", row[0])) for row in rows_of(formats, SETTINGS)]
    return f"{', then '.join(settings)}, then run lines"


def nearest_words(formats: str, refused: Refused) -> Optional[str]:
    """The words of a line that the refused one resembles."""
    forms, words = forms_of(formats), refused.own_words
    is_run_line = begins_with_digit(words)
    known = [word for word, form in forms.items() if form.startswith("C ") == is_run_line]
    given = words[is_run_line] if len(words) > is_run_line else ""
    close = get_close_matches(given, known, 1)
    if not close and given.upper() in known:
        close = [given.upper()]
    return f"did you mean {close[0]}?" if close else None


def hint_of_word(formats: str, refused: Refused) -> Optional[str]:
    """What the input may be meant to be."""
    words = refused.line.split()
    if refused.command != "set" and words == ["replies"]:
        return "a trace, a line `replies` and replies are an input of papr check"
    settings = [word for word, form in forms_of(formats).items() if not form.startswith("C ")]
    is_of_partition = len(words) > 1 and number(words[0]) is not None and words[1] in settings
    if refused.command != "set" and (words[:1] == ["shared"] or is_of_partition):
        return "this looks like a set of partitions, an input of papr set"
    return nearest_words(formats, refused)


def hint_of_ascii(_formats: str, refused: Refused) -> Optional[str]:
    """Which byte it is."""
    at = next((at for at, it in enumerate(refused.line) if it != "\t" and not " " <= it <= "~"), None)
    if at is None:
        return None
    if refused.line.startswith(A_MARK):
        return "the line begins with a byte-order mark, which has to be taken out"
    also = "; remarks are ASCII too" if refused.line.lstrip().startswith("#") else ""
    return f"byte {at + 1} of the line is {ord(refused.line[at]):#04x}{also}"


def hint_of_count(_formats: str, refused: Refused) -> Optional[str]:
    """That remarks have lines of their own."""
    has_mark = any(word.startswith("#") for word in refused.line.split())
    return "a remark has a line of its own; after other words `#` doesn't begin one" if has_mark else None


def hint_of_number(_formats: str, refused: Refused) -> Optional[str]:
    """Which word it is, where just one can be meant."""
    behind = refused.own_words[2 if begins_with_digit(refused.own_words) else 1 :]
    others = ("priv", "user", "old", "new")
    wrong = [word for word in behind if number_in([word], 0) is None and word not in others]
    return f"the word is `{wrong[0]}`" if wrong else None


def hint_of_overlap(_formats: str, refused: Refused) -> Optional[str]:
    """Which grant it meets."""
    given = [value for place in (1, 2, 3) if (value := number_in(refused.own_words, place)) is not None]
    if len(given) == 3:
        own = Grant(refused.own_words[0], *given)
        for line, grant in grants_before(refused):
            if grants.meets(own.pages, grant.pages) or grants.meets(own.frames, grant.frames):
                which = "logical" if grants.meets(own.pages, grant.pages) else "machine"
                return f"its {which} range meets that of line {line}, {grant}"
    return None


def hint_of_cpu(_formats: str, refused: Refused) -> Optional[str]:
    """How many processors there are."""
    given = next((words for _number, words in refused.before() if words[:1] == ["cpus"]), ["cpus", "1"])
    return f"processors are counted from 0, and there are as many as `{' '.join(given)}` says"


def hint_of_length(_formats: str, _refused: Refused) -> Optional[str]:
    """What takes longer traces."""
    return "papr cut runs a trace of any length in parts"


HINTS: dict[str, Callable[[str, Refused], Optional[str]]] = {
    "word": hint_of_word,
    "ascii": hint_of_ascii,
    "count": hint_of_count,
    "number": hint_of_number,
    "overlap": hint_of_overlap,
    "cpu": hint_of_cpu,
    "long": hint_of_length,
    "lines": hint_of_length,
}


def explained(refused: Refused) -> list[str]:
    """The refused line, the rule, the form and a hint, a line each."""
    if is_binary(refused.lines):
        return ["  hint: the input is not a text"]
    formats = page("FORMATS.md").read_text(encoding="utf-8")
    told = []
    if refused.has_line:
        shown = refused.line[:SHOWN].encode("unicode_escape").decode("ascii")
        told.append(f"  line: {shown}")
    told.append(f"  rule: {rule_of(formats, refused)}")
    hint = HINTS[refused.reason](formats, refused) if refused.reason in HINTS else None
    if refused.reason == "place":
        told.append(f"  order: {order_of_lines(formats)}")
    elif refused.has_line and refused.reason not in ("lines", "ascii") and (refused.reason != "word" or not hint):
        told.append(f"  form: {form_of(formats, refused)}")
    if hint:
        told.append(f"  hint: {hint}")
    return told
