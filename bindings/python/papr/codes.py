"""The numbers of the C interface by their names: return codes, answers of entries, outcomes, refusals, flags."""

from enum import IntEnum, IntFlag


class Code(IntEnum):
    """What a call answers in register 3, by the names of LoPAR and of Linux."""

    H_SUCCESS = 0
    H_BUSY = 1  # not all entries of the pending table are ready; of a pass: it has a call to go on with
    H_CLOSED = 2  # no table of the order is pending
    H_LONG_BUSY = 9900  # the next entries are ready: call again for the rest
    H_HARDWARE = -1  # the entry has changed 2^32 - 1 times, and can't change again
    H_FUNCTION = -2  # the number isn't one of a call on entries
    H_PARAMETER = -4
    H_PTEG_FULL = -6
    H_NOT_FOUND = -7
    H_NO_MEM = -9
    H_RESOURCE = -16  # the order is above the highest that is allowed; of a shared table: see PassRefused


class Hcall(IntEnum):
    """The numbers of the calls on entries, as register 3 has them."""

    # tests/check call-table: begin
    H_REMOVE = 0x04
    H_ENTER = 0x08
    H_READ = 0x0C
    H_CLEAR_MOD = 0x10
    H_CLEAR_REF = 0x14
    H_PROTECT = 0x18
    H_BULK_REMOVE = 0x124
    # tests/check call-table: end


class Flag(IntFlag):
    """The flags of the calls on entries that have a name here; H_PROTECT also takes PP0, key, N and PP."""

    EXACT = 0x80_0000_0000  # H_ENTER: the named entry, and no other
    READ_4 = 0x20_0000_0000  # H_READ: the aligned group of four entries
    AVPN = 0x8000_0000  # dword0 without its low 7 bits has to be avpn
    ANDCOND = 0x4000_0000  # H_REMOVE: no bit of avpn may be set in dword0


class Answer(IntEnum):
    """What an entry answered: the number in a receipt."""

    ENTERED = 0
    TAKEN = 1  # it was valid already
    REMOVED = 2
    PROTECTED = 3
    WAS = 4  # R or C was cleared
    READ = 5
    NOTFOUND = 6  # it is empty, or fails the test
    NOMATCH = 7  # it doesn't translate the page of the access
    DENIED = 8  # it translates the page, and its protection refuses the access
    AT = 9  # the access is allowed, and recorded in R and C
    WORN = 10  # its stamp is at its last value
    MASKED = 11  # its protection allows the access, and AMR or IAMR refuses it


class GrantRefusal(IntEnum):
    """Why a list of grants is refused."""

    GRANTED = 0
    GRANT_EMPTY = 1
    GRANT_UNALIGNED = 2  # an address or the length isn't a multiple of 4,096
    GRANT_PAST = 3  # it ends above 2^60
    GRANT_TOO_MANY = 4  # there are 64 already
    GRANT_OVERLAP = 5  # its logical or machine range overlaps another's
    GRANT_POOL = 6  # its machine range overlaps the pool of page tables
    POOL_ORDER = 7  # the pool's order isn't from 18 to 34
    POOL_UNALIGNED = 8  # its base isn't a multiple of 2^order
    POOL_PAST = 9  # it ends above 2^60


class Want(IntEnum):
    """What an access wants."""

    LOAD = 0
    STORE = 1
    FETCH = 2


class Outcome(IntEnum):
    """Where a walk or a probe ends."""

    AT = 0
    DENIED = 1  # the entry's protection refuses the access
    NO_PAGE = 2  # no entry translates the page
    PARAMETER = 3  # an argument is out of range; nothing changed
    AMR = 4  # AMR refuses it, for the entry's key
    IAMR = 5  # IAMR refuses it, for the entry's key


class Hold(IntEnum):
    """Why a call on a shared table is busy."""

    NOT_HELD_UP = 0  # the pass has nothing to go on with
    HELD = 1  # a call: another thread is at the entry
    CHANGING = 2  # a walk: another thread changes the entry


class Right(IntFlag):
    """What an entry lets a processor do, and need not record."""

    EXECUTE = 1
    WRITE = 2
    READ = 4


class Cause(IntFlag):
    """All that refuses an access."""

    PROTECTION = 1  # the page's protection bits, for this key
    NO_EXECUTE = 2  # a fetch, and the entry's N or G is set, or the segment's N
    AMR = 4
    IAMR = 8


class Decoding(IntEnum):
    """Whether two doublewords translate a page at an index, or the first reason why they don't."""

    PAGE = 0
    EMPTY = 1  # V is clear
    NO_SIZE = 2  # the doublewords encode no page size
    NO_SEGMENT = 3  # B is above 1, or no page of that base size lies where the tag says
    OTHER_GROUP = 4  # the page's group isn't that of this index
    NO_INDEX = 5  # the order or the index is out of range


class SlotRefusal(IntEnum):
    """What may be wrong with the words of an slbmte."""

    WRITTEN = 0
    SLOT = 1  # there is no slot of that number
    SEGMENT_SIZE = 2  # B is neither 0 (256 MB) nor 1 (1 TB)
    PAGE_SIZE = 3  # L and LP are no base page size of such a segment


class DeviceOutcome(IntEnum):
    """Where a device's access ends."""

    AT = 0
    DENIED = 1  # the page's entry doesn't permit the access, or none is set
    NO_WINDOW = 2  # the address lies outside the window
    UNGRANTED = 3  # no single grant of main storage holds the page
    PARAMETER = 4  # there is no such window


class Layout(IntEnum):
    """How an entry's 16 bytes are laid out: by two versions of the Power ISA."""

    OLD = 0  # version 2.07: B is in doubleword 0
    NEW = 1  # version 3.0: B is in doubleword 1


class TransferRefusal(IntEnum):
    """Why no entries are transferred."""

    TRANSFERRED = 0
    ARGUMENTS = 1  # order, count, layout, range, or too few bytes
    UNHELD = 2  # the layout has no such entry
    UNENTERED = 3  # H_ENTER would refuse it


class Status(IntEnum):
    """How a call of the whole program on bytes ended."""

    DONE = 0
    USAGE = 1  # the arguments are no command
    REFUSED = 2  # the input is refused
    READ_FAULT = 3  # never comes: an input in memory can be read
    WRITE_FAULT = 4  # there is not enough memory for the output
    NO_MEMORY = 5
    NOT_GOOD = 6  # check: the text is not that of a good run
    NO_ROOM = 7  # the buffer is too small
