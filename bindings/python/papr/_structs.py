"""The structs of papr.h, papr_shared.h and papr_bytes.h, for ctypes.

Written from them by `tests/check declarations --write`: change nothing here. Nothing else in Python declares them.
"""

import ctypes

U8, U32, U64 = ctypes.c_uint8, ctypes.c_uint32, ctypes.c_uint64
I64, SIZE, BOOL = ctypes.c_int64, ctypes.c_size_t, ctypes.c_bool


class CEntry(ctypes.Structure):
    """struct papr_entry"""

    _fields_ = [
        ("dword0", U64),
        ("dword1", U64),
        ("stamp", U32),
        ("valid", BOOL),
        ("referenced", BOOL),
        ("changed", BOOL),
        ("marked", BOOL),
    ]


class CReceipt(ctypes.Structure):
    """struct papr_receipt"""

    _fields_ = [("dword0", U64), ("dword1", U64), ("entry", U32), ("stamp", U32), ("bits", U8), ("answer", U8)]


class CReply(ctypes.Structure):
    """struct papr_reply"""

    _fields_ = [("rc", I64), ("words", U32), ("receipts", U32), ("stale", BOOL)]


class CGrant(ctypes.Structure):
    """struct papr_grant"""

    _fields_ = [("logical", U64), ("machine", U64), ("length", U64), ("is_io", BOOL)]


class CGrants(ctypes.Structure):
    """struct papr_grants"""

    _fields_ = [("grants", CGrant * 64), ("count", U32)]


class CMaking(ctypes.Structure):
    """struct papr_making"""

    _fields_ = [("index", SIZE), ("refusal", U32)]


class CRange(ctypes.Structure):
    """struct papr_range"""

    _fields_ = [("machine", U64), ("granted", BOOL), ("is_io", BOOL)]


class CAccess(ctypes.Structure):
    """struct papr_access"""

    _fields_ = [
        ("ea", U64),
        ("vsid", U64),
        ("amr", U64),
        ("iamr", U64),
        ("shift", U8),
        ("want", U8),
        ("one_tb", BOOL),
        ("key", BOOL),
        ("no_execute", BOOL),
    ]


class CWalk(ctypes.Structure):
    """struct papr_walk"""

    _fields_ = [
        ("logical", U64),
        ("dword0", U64),
        ("dword1", U64),
        ("entry", U32),
        ("outcome", U32),
        ("receipts", U32),
        ("base_shift", U8),
        ("actual_shift", U8),
        ("rights", U8),
        ("causes", U8),
    ]


class CPage(ctypes.Structure):
    """struct papr_page"""

    _fields_ = [
        ("vsid", U64),
        ("page", U64),
        ("real", U64),
        ("base_shift", U8),
        ("actual_shift", U8),
        ("key", U8),
        ("protection", U8),
        ("wimg", U8),
        ("one_tb", BOOL),
        ("no_execute", BOOL),
        ("bolted", BOOL),
        ("secondary", BOOL),
        ("referenced", BOOL),
        ("changed", BOOL),
        ("why", U32),
    ]


class CTaken(ctypes.Structure):
    """struct papr_taken"""

    _fields_ = [("rc", I64), ("count", U32), ("next", U32)]


class CRehash(ctypes.Structure):
    """struct papr_rehash"""

    _fields_ = [("rc", I64), ("first", U32), ("second", U32), ("target", U32), ("stale", BOOL)]


class CResize(ctypes.Structure):
    """struct papr_resize"""

    _fields_ = [("ready", U32), ("order", U8), ("pending", BOOL)]


class CSlot(ctypes.Structure):
    """struct papr_slot"""

    _fields_ = [
        ("esid", U64),
        ("vsid", U64),
        ("shift", U8),
        ("valid", BOOL),
        ("one_tb", BOOL),
        ("ks", BOOL),
        ("kp", BOOL),
        ("no_execute", BOOL),
    ]


class CSlb(ctypes.Structure):
    """struct papr_slb"""

    _fields_ = [("slots", CSlot * 32)]


class CDevice(ctypes.Structure):
    """struct papr_device"""

    _fields_ = [("address", U64), ("outcome", U32), ("receipts", U32)]


class CTransfer(ctypes.Structure):
    """struct papr_transfer"""

    _fields_ = [("index", SIZE), ("refusal", U32)]


class CPass(ctypes.Structure):
    """struct papr_pass"""

    _fields_ = [("at", ctypes.c_void_p), ("live", BOOL)]


class CBusy(ctypes.Structure):
    """struct papr_busy"""

    _fields_ = [("looked", U64), ("found", U64), ("entry", U32), ("done", U32), ("hold", U32)]


class CBytesEnd(ctypes.Structure):
    """struct papr_bytes_end"""

    _fields_ = [("status", U32), ("length", U64)]
