"""papr for Python: the hypervisor side of the hashed page table of a paravirtual Power guest, proved.

The package calls libpapr.so.0 and libpapr_bytes.so.0, which `make library` builds. In a checkout it finds them
in out/lib, below a prefix in lib, and else where the system's loader does; PAPR_SHARED_LIBRARY and
PAPR_SHARED_BYTES_LIBRARY name other files.

    >>> import papr
    >>> table = papr.Table(18, [papr.Grant(0x0, 0x2000000000, 0x40000000)])
    >>> print(table.h_enter(papr.Flag.EXACT, 0x27, 0x1001, 0x3012))
    0 0x27 | 0x27.0.0.entered

    >>> replies = papr.run(open("first.trace").read())
    >>> [reply.ending for reply in replies]
    ['0', '-6']
"""

from .codes import Answer, Cause, Code, Decoding, DeviceOutcome, Flag, GrantRefusal, Hcall, Hold, Layout
from .codes import Outcome, Right, SlotRefusal, Status, TransferRefusal, Want
from .errors import BadReplies, Busy, GrantRefused, LibraryMissing, PaprError, PassRefused, ProgramFailed
from .errors import SlotRefused, TransferRefused
from .grants import Grants
from .program import Summary, Verdict, call, check, drill, image, run, run_set
from .records import Access, DeviceAccess, Entry, Grant, HeldUp, Page, Range, Receipt, Rehash, Reply, Slot
from .records import Taken, Walk
from .replies import Replies
from .segments import Segments
from .shared import Pass, SharedTable
from .table import Table, decode, library_version, rights
from .windows import Window

__version__ = "0.1.0"

__all__ = [
    "Access",
    "Answer",
    "BadReplies",
    "Busy",
    "Cause",
    "Code",
    "Decoding",
    "DeviceAccess",
    "DeviceOutcome",
    "Entry",
    "Flag",
    "Grant",
    "GrantRefusal",
    "GrantRefused",
    "Grants",
    "Hcall",
    "HeldUp",
    "Hold",
    "Layout",
    "LibraryMissing",
    "Outcome",
    "Page",
    "PaprError",
    "Pass",
    "PassRefused",
    "ProgramFailed",
    "Range",
    "Receipt",
    "Rehash",
    "Replies",
    "Reply",
    "Right",
    "Segments",
    "SharedTable",
    "Slot",
    "SlotRefusal",
    "SlotRefused",
    "Status",
    "Summary",
    "Table",
    "Taken",
    "TransferRefusal",
    "TransferRefused",
    "Verdict",
    "Walk",
    "Want",
    "Window",
    "call",
    "check",
    "decode",
    "drill",
    "image",
    "library_version",
    "rights",
    "run",
    "run_set",
]
