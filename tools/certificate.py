"""Replies with receipts, made of an order of each entry's steps, of which papr says whether they are good."""

from collections import Counter, defaultdict
from dataclasses import dataclass, field
from typing import NamedTuple, Optional

from allowances import BIT_62, CLEAR_REF_IN_TWO_STEPS, ENTER_PAST_LOCKED
from call_steps import CLEARED, EXACT, MARK, Searched
from entry_states import CHANGES, ClearHeld, Hold, State, bits_of
from histories import Histories
from order import Made
from processors import LINES, SETS, Page
from timed import Call

DECIDED = ("at", "denied", "masked")


class Receipt(NamedTuple):
    """A receipt, with the state that it found."""

    place: int  # in its call
    entry: int
    stamp: int
    answer: str
    state: State
    made: Made

    @property
    def difference(self) -> Optional[str]:
        """The known difference by which the step has its answer, if it needs one."""
        return self.made.step.allowance(self.made.state)

    def __str__(self) -> str:
        return f"{self.entry:#x}.{self.stamp}.{bits_of(self.state)}.{self.answer}"


@dataclass
class Cache:
    """A processor's cache of translations: of each page the entry, and the stamp that it had."""

    sets: list[dict[Page, tuple[int, int]]] = field(default_factory=lambda: [{} for _ in range(SETS)])
    is_kept: bool = True  # no walk passed a translation that may have been current

    def takes(self, page: Page, receipts: list[Receipt]) -> bool:
        """Whether an access with these receipts is a hit; goes on by the access."""
        lines = self.sets[page.number % SETS]
        last = receipts[-1]
        before = lines.get(page)
        if before is not None and before[0] != last.entry:
            self.is_kept &= any(it.entry == before[0] and it.stamp > before[1] for it in receipts)
        if last.answer in DECIDED and lines.get(page) == (last.entry, last.stamp):
            return True
        lines.pop(page, None)
        if last.answer == "at":
            lines[page] = last.entry, last.stamp
            if len(lines) > LINES:
                del lines[next(iter(lines))]
        return False


@dataclass
class Certificate:
    """The trace and the replies that papr judges, and which known differences were taken out, how often and where."""

    trace: list[str]
    replies: list[str] = field(default_factory=list)
    differences: Counter[str] = field(default_factory=Counter)  # by name, in how many calls
    notes: list[str] = field(default_factory=list)  # remarks: each of these calls as it was
    fits_caches: bool = True  # each access whose translation was cached, and current, is a hit

    def write(self, by_cpu: list[list[Call]], histories: Histories) -> None:
        """Writes the replies, in the order of the trace."""
        receipts = receipts_of(histories)
        told: dict[int, str] = {}
        for calls in by_cpu:
            cache = Cache()
            for call in calls:
                told[call.line] = self.reply(call, receipts.get(call.line, []), histories, cache)
            self.fits_caches &= cache.is_kept
        self.replies = [told[line] for line in sorted(told)]

    def reply(self, call: Call, receipts: list[Receipt], histories: Histories, cache: Cache) -> str:
        """The reply to a call."""
        words, by = list(call.told), ""
        access = histories.accesses.get(call.line)
        if access is not None:
            receipts, by = by_way(access, receipts, cache)
        elif call.name.startswith("H_"):
            words, receipts = self.without_differences(call, receipts)
        shown = f" | {' '.join(map(str, receipts))}" if receipts else ""
        return f"{call.line} {call.cpu} {call.words[1]} {' '.join(words)}{by}{shown}"

    def without_differences(self, call: Call, receipts: list[Receipt]) -> tuple[list[str], list[Receipt]]:
        """The words and the receipts that papr would have given. A call with known differences is noted as it was."""
        words, names = list(call.told), {name for it in receipts if (name := it.difference)}
        if call.name in CLEARED and receipts and words[1:]:
            names, receipts, words[1] = cleared(call, receipts)
        if ENTER_PAST_LOCKED in names:
            receipts = receipts[-1:]
            self.make_exact(call, receipts[0].entry)
        for receipt in (it for it in receipts if it.difference):
            place, state = 1 + 2 * receipt.place, receipt.state or (0, 0, None)
            words[place : place + 2] = [f"{state[0]:#x}", f"{state[1]:#x}"]
        if names:
            self.differences.update(names)
            self.notes.append(f"# {', '.join(sorted(names))}: {call}")
        return words, receipts

    def make_exact(self, call: Call, entry: int) -> None:
        """Has an H_ENTER name the entry that it took, so that papr's passes no other."""
        first = 3 if call.words[1] == "hcall" else 2
        line = list(call.words)
        line[first : first + 2] = [f"{call.arguments[0] | EXACT:#x}", f"{entry:#x}"]
        self.trace[call.line - 1] = " ".join(line)

    @property
    def verdict(self) -> str:
        """That the replies are good, and which differences they have."""
        names = [f"{name} {self.differences[name]}" for name in sorted(self.differences)]
        return f"good except for {', '.join(names)}" if names else "good"


def cleared(call: Call, receipts: list[Receipt]) -> tuple[set[str], list[Receipt], str]:
    """The differences of a clearing, its one receipt, and the word that papr would have told."""
    names, word, last = set[str](), call.values[0], receipts[-1]
    if word & MARK:
        names.add(BIT_62)
        word &= ~MARK
    if isinstance(last.made.step.operation, ClearHeld) and last.state is not None and last.state[1] != word:
        names.add(CLEAR_REF_IN_TWO_STEPS)
        word = last.state[1]
    return names, [last], f"{word:#x}" if names else call.told[1]


def by_way(access: Searched, receipts: list[Receipt], cache: Cache) -> tuple[list[Receipt], str]:
    """The receipts of an access with the word that says whether it was a hit."""
    if cache.takes(access.page, receipts):
        return receipts[-1:], " hit"
    return receipts, " walk"


def receipts_of(histories: Histories) -> dict[int, list[Receipt]]:
    """The receipts of each line, in the order of its steps."""
    found: dict[int, list[Receipt]] = defaultdict(list)
    for entry, made in histories.found.items():
        stamp = 0
        for one in made:
            receipt = receipt_of(entry, stamp, one)
            found[one.step.call[0]].append(receipt)
            stamp += receipt.answer in CHANGES and not isinstance(one.step.operation, Hold)
    for receipts in found.values():
        receipts.sort(key=lambda it: it.place)
    return found


def receipt_of(entry: int, stamp: int, made: Made) -> Receipt:
    """The receipt of a step at a stamp."""
    answer: Optional[str] = str(made.step.operation.reply(made.state)[0][0])
    if made.step.allowance(made.state) == ENTER_PAST_LOCKED:
        answer = "taken"
    return Receipt(made.step.call[1], entry, stamp, str(answer), made.state, made)
