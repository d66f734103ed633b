"""What the package raises."""

from .codes import Code, GrantRefusal, SlotRefusal, Status, TransferRefusal
from .records import HeldUp, Receipt


class PaprError(Exception):
    """The base of all errors of this package."""


class LibraryMissing(PaprError, OSError):
    """A shared object isn't there, or is of another version."""


class GrantRefused(PaprError, ValueError):
    """A list of grants isn't one: which grant is refused first, and why."""

    def __init__(self, index: int, refusal: GrantRefusal) -> None:
        super().__init__(f"grant {index} is refused: {refusal.name}")
        self.index = index
        self.refusal = refusal


class SlotRefused(PaprError, ValueError):
    """The words of an slbmte describe no slot."""

    def __init__(self, refusal: SlotRefusal) -> None:
        super().__init__(f"slbmte is refused: {refusal.name}")
        self.refusal = refusal


class TransferRefused(PaprError, ValueError):
    """Entries aren't exported or imported: which is refused first, and why."""

    def __init__(self, index: int, refusal: TransferRefusal) -> None:
        place = "" if refusal is TransferRefusal.ARGUMENTS else f" of entry {index:#x}"
        super().__init__(f"the transfer{place} is refused: {refusal.name}")
        self.index = index
        self.refusal = refusal


class PassRefused(PaprError):
    """A table isn't opened or closed, or a pass isn't split or joined; all is as it was.

    H_NO_MEM: there is no memory. H_RESOURCE: a split finds no share left, or a close finds that passes are out.
    H_BUSY: the pass has a call to go on with. H_PARAMETER: the table is closed, or shared already.
    """

    def __init__(self, what: str, code: Code) -> None:
        super().__init__(f"{what}: {code.name}")
        self.code = code


class Busy(PaprError):
    """Another thread is at an entry: the pass keeps its call, and again() or walk_again() goes on with it."""

    def __init__(
        self, held_up: HeldUp, words: tuple[int, ...], receipts: tuple[Receipt, ...], stale: bool
    ) -> None:
        super().__init__(f"entry {held_up.entry:#x} is busy, after {held_up.done} operations: {held_up.hold.name}")
        self.held_up = held_up
        self.words = words  # so far
        self.receipts = receipts  # so far
        self.stale = stale  # what is made so far makes cached translations stale


class ProgramFailed(PaprError):
    """The program on bytes gave no replies: its status, and what it wrote."""

    def __init__(self, status: Status, text: str) -> None:
        super().__init__(text.strip() or status.name)
        self.status = status
        self.text = text


class BadReplies(PaprError, ValueError):
    """A text isn't replies of papr."""
