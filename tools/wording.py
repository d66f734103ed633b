"""Codes and receipts in words."""

from typing import Optional

from common import Bad
from decoding import A_GROUP
from papr.codes import Code
from replies import CHANGED, REFERENCED, Mark, Receipt

CODES = {str(code.value): code.name for code in Code}
ANSWERS = {
    "entered": "it was entered",
    "taken": "it was taken already",
    "removed": "it was removed",
    "protected": "its protection was changed",
    "was": "R or C was cleared, if set",
    "read": "it was read",
    "notfound": "it is empty, or isn't the one that the call names",
    "nomatch": "it doesn't translate the page of the access",
    "denied": "it translates the page, and its protection refuses the access",
    "masked": "its protection allows the access, and an authority mask refuses it",
    "at": "the access was allowed, and recorded in R and C",
    "worn": "its stamp is at its last value",
}


def name_of_code(ending: str) -> Optional[str]:
    """The name of a return code, or nothing of what is none: how an access ended."""
    return CODES.get(ending)


def place_in_words(entry: int) -> str:
    """An entry of the page table, its group and its slot."""
    return f"entry {entry:#x}, group {entry // A_GROUP:#x}, slot {entry % A_GROUP}"


def state_in_words(mark: Mark) -> str:
    """The stamp, R and C before."""
    return f"before: stamp {mark.stamp}, R {mark.bits // REFERENCED}, C {mark.bits & CHANGED}"


def receipt_in_words(mark: Mark, answer: Optional[str] = None) -> str:
    """A receipt: its entry, its answer, which may be known better, and the state before."""
    if mark.answer not in ANSWERS:
        raise Bad(f"`{mark}` is no receipt, as 0x20.1.0.at")
    return f"{place_in_words(mark.entry)}: {answer or ANSWERS[mark.answer]}; {state_in_words(mark)}"


def mark_in(receipt: Receipt) -> Mark:
    """What a text shows of a receipt."""
    return Mark(receipt.entry, receipt.stamp, receipt.bits, receipt.answer)


def answer_of(receipt: Receipt) -> str:
    """A receipt of a text in words."""
    mark = mark_in(receipt)
    return receipt_in_words(mark) if receipt.store == "table" else f"{mark}: an entry of a DMA window"
