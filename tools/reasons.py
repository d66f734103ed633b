"""Why the lines of a trace were answered so: the code, each receipt, and the earlier line that made the entry so."""

import re
from dataclasses import dataclass, field
from typing import Iterator, Optional

from asking import accepted
from common import Bad, page
from decoding import Doublewords
from entry_lines import doublewords_of, entries_of
from known import Known
from refusals import Refused, cause_of_parameter, rows_of
from replies import COMMIT, Receipt, Reply, needed, replies_of
from traces import call_of
from wording import answer_of, mark_in, name_of_code, receipt_in_words

CODES = "### Codes"
TAG = ~0x7F & 2**64 - 1  # of doubleword 0, which a call compares
AVPN, ANDCOND = 0x8000_0000, 0x4000_0000
# How a change is said of the entry.
CHANGES = {"entered": "filled", "removed": "emptied", "protected": "changed the protection of"}
# The calls that name an entry by flags, index and word: their numbers.
TESTING = {0x04: "H_REMOVE", 0x18: "H_PROTECT", 0x10: "H_CLEAR_MOD", 0x14: "H_CLEAR_REF"}
ANOTHER = "it isn't the one that the call names: doubleword 0"
ENTER = {0x08: "H_ENTER"}
ENDINGS = {
    "at": "the access is allowed",
    "denied": "the entry's protection refuses the access",
    "masked": "an authority mask refuses the access",
    "nopage": "no entry translates the page",
    "nosegment": "the processor has no segment for the address",
    "nowindow": "there is no window of this number with this address",
    "refused": "its words are those of no segment",
    "ok": "done",
}


def meaning_of(call: str, code: str) -> str:
    """When a call answers this code, as FORMATS.md has it: of several cases that of the call."""
    formats = page("FORMATS.md").read_text(encoding="utf-8")
    found = next((row[2] for row in rows_of(formats, CODES) if row[1] == code), "")
    if found.startswith("see below"):
        return parameter_of(formats, call)
    cases = [case.partition(": ") for case in found.split("; ")]
    named = [words for name, colon, words in cases if colon and call.endswith(name)]
    general = [case for case in found.split("; ") if not re.match(r"[A-Z_]+: ", case)]
    return "; ".join(named or general)


def parameter_of(formats: str, call: str) -> str:
    """When a call answers H_PARAMETER: the sentences of FORMATS.md that are about it."""
    below = formats.partition("\nH_PARAMETER comes if")[2].partition("\n\n")[0]
    sentences = re.split(r"(?<=\.) ", " ".join(f"H_PARAMETER comes if{below}".split()))
    about = "The resize calls" if call.startswith("H_RESIZE") else call
    first = [] if about == "The resize calls" else sentences[:1]
    return " ".join(first + [it for it in sentences[1:] if it.startswith(f"{about} ")]).rstrip(".")


@dataclass
class Reasons:
    """A trace with its replies, followed from line to line."""

    lines: list[str]
    known: Known
    makers: dict[tuple[int, int], Receipt] = field(default_factory=dict)  # the last change, by table and entry
    opening: dict[int, tuple[int, Doublewords]] = field(default_factory=dict)  # the line, and what it opens with
    commits: list[int] = field(default_factory=list)

    @classmethod
    def of(cls, given: bytes) -> "Reasons":
        """Those of a trace."""
        lines = given.decode("ascii", "replace").split("\n")
        reasons = cls(lines, Known(lines))
        for at, entry in entries_of(lines):
            reasons.opening[entry.index] = at, doublewords_of(entry.layout, entry.digits)
        return reasons

    def take(self, reply: Reply) -> None:
        """Goes on by a reply."""
        for receipt in reply.of_table:
            if receipt.answer in CHANGES:
                self.makers[receipt.table, receipt.entry] = receipt
        if (reply.call, reply.ending) == (COMMIT, "0"):
            self.commits.append(reply.line)

    def said_of(self, reply: Reply) -> Iterator[str]:
        """A line, its answer, and its receipts."""
        yield f"line {reply.line}: {self.lines[reply.line - 1].strip()}"
        yield f"  answer: {self.answer_of(reply)}"
        for receipt in reply.receipts:
            if receipt.store != "table":
                yield f"  {answer_of(receipt)}"
                continue
            yield f"  {receipt_in_words(mark_in(receipt), self.better_answer(reply, receipt))}"
            yield f"    {self.maker_of(receipt)}"

    def answer_of(self, reply: Reply) -> str:
        """The code with its name, and what it means for this call."""
        name = name_of_code(reply.ending)
        if name is None:
            meaning = ENDINGS.get(reply.ending, "")
        else:
            meaning = self.cause_of_parameter(reply) if name == "H_PARAMETER" else ""
            meaning = meaning or meaning_of(reply.call, reply.ending)
        said = f"{reply.ending}, {name}" if name else reply.ending
        return f"{said}: {meaning}" if meaning else said

    def cause_of_parameter(self, reply: Reply) -> str:
        """For what an H_ENTER answered H_PARAMETER, or nothing of any other call."""
        call = call_of(self.lines[reply.line - 1].split(), ENTER, 4)
        order = self.known.order(reply.table)
        if call is None or order is None:
            return ""
        if call[1][1] >= 1 << order - 4:
            return f"index {call[1][1]:#x} isn't below the number of entries, {1 << order - 4:#x}"
        refused = Refused(reply.line, "parameter", self.lines, "run")
        return cause_of_parameter(refused, call[1][2], call[1][3])

    # ---- an entry

    def better_answer(self, reply: Reply, receipt: Receipt) -> Optional[str]:
        """Whether an entry that isn't found, or doesn't match, is empty; if not, what it has, and the call asks for."""
        if receipt.answer not in ("notfound", "nomatch"):
            return None
        words = self.words_before(receipt)
        if words is None or not words[0] & 1:
            return "it is empty"
        if receipt.answer == "nomatch":
            return None
        call = call_of(self.lines[reply.line - 1].split(), TESTING, 3)
        if call is None:  # the words of H_BULK_REMOVE are pairs
            return f"{ANOTHER} is {words[0]:#x}"
        flags, _index, word = call[1]
        if flags & AVPN and (words[0] ^ word) & TAG:
            return f"{ANOTHER} is {words[0]:#x}, and the call asks for {word:#x}"
        return f"{ANOTHER}, {words[0]:#x}, has a bit of {word:#x}"

    def words_before(self, receipt: Receipt) -> Optional[Doublewords]:
        """What the entry had before, or nothing where it was empty."""
        maker = self.makers.get((receipt.table, receipt.entry))
        if maker is not None and maker.answer == "removed":
            return None
        known = self.known.words(receipt)
        if known is not None:
            return known
        if maker is None and receipt.table == 0:
            return self.opening[receipt.entry][1] if receipt.entry in self.opening else None
        return self.words_in_image(receipt)

    def words_in_image(self, receipt: Receipt) -> Optional[Doublewords]:
        """The same by the table that the lines before leave."""
        before = "\n".join(self.lines[: receipt.line - 1]) + "\n"
        image = accepted(before.encode("ascii"), "image", "old").splitlines()
        found = (it for _line, it in entries_of(image) if it.index == receipt.entry)
        entry = next(found, None)
        return None if entry is None else doublewords_of(entry.layout, entry.digits)

    def maker_of(self, receipt: Receipt) -> str:
        """The earlier line that made the entry so."""
        maker, entry = self.makers.get((receipt.table, receipt.entry)), f"entry {receipt.entry:#x}"
        if maker is not None:
            return f"line {maker.line:,}, processor {maker.cpu}, {maker.call} {CHANGES[maker.answer]} {entry}"
        if receipt.table:
            return f"line {self.commits[receipt.table - 1]:,}, {COMMIT}, made this table; no line since changed {entry}"
        if receipt.entry in self.opening:
            return f"line {self.opening[receipt.entry][0]:,} opens the table with {entry}"
        return f"no line before filled {entry}"


def reasons_of(given: bytes, first: int, last: int) -> Iterator[str]:
    """What is said of the lines from the first to the last that have a reply."""
    text = needed(accepted(given, "run").splitlines(keepends=True), first, last)
    reasons, is_any = Reasons.of(given), False
    for reply, shown in replies_of(text):
        if reply.line >= first:
            is_any = True
            reasons.known.take(reply, [])
            yield from reasons.said_of(reply)
        reasons.known.take(reply, shown)
        reasons.take(reply)
    if not is_any:
        raise Bad(f"no line from {first} to {last} has a reply" if first < last else f"line {first} has no reply")
