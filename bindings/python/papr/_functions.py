"""The functions of papr.h, papr_shared.h and papr_bytes.h, for ctypes.

Written from them by `tests/check declarations --write`: change nothing here. Nothing else in Python declares them.
"""

import ctypes
from typing import Any

from ._structs import (
    BOOL, CAccess, CBusy, CBytesEnd, CDevice, CEntry, CGrant, CGrants, CMaking, CPage, CPass, CRange, CReceipt, CRehash,
    CReply, CResize, CSlb, CSlot, CTaken, CTransfer, CWalk, I64, SIZE, U32, U64, U8,
)

P = ctypes.POINTER
Types = tuple[Any, ...]

# Each function's result, and its parameters.
FUNCTIONS: dict[str, tuple[Any, Types]] = {
    "papr_version": (U32, ()),
    "papr_make_grants": (CMaking, (P(CGrant), SIZE, U64, U8, P(CGrants))),
    "papr_machine_of": (CRange, (P(CGrants), U64, U64)),
    "papr_h_enter": (CReply, (P(CEntry), SIZE, U8, P(CGrants), U64, U64, U64, U64, P(U64), SIZE, P(CReceipt), SIZE)),
    "papr_h_remove": (CReply, (P(CEntry), SIZE, U8, U64, U64, U64, P(U64), SIZE, P(CReceipt), SIZE)),
    "papr_h_protect": (CReply, (P(CEntry), SIZE, U8, U64, U64, U64, P(U64), SIZE, P(CReceipt), SIZE)),
    "papr_h_read": (CReply, (P(CEntry), SIZE, U8, U64, U64, P(U64), SIZE, P(CReceipt), SIZE)),
    "papr_h_clear_ref": (CReply, (P(CEntry), SIZE, U8, U64, U64, P(U64), SIZE, P(CReceipt), SIZE)),
    "papr_h_clear_mod": (CReply, (P(CEntry), SIZE, U8, U64, U64, P(U64), SIZE, P(CReceipt), SIZE)),
    "papr_h_bulk_remove": (CReply, (P(CEntry), SIZE, U8, P(U64), SIZE, P(U64), SIZE, P(CReceipt), SIZE)),
    "papr_hcall": (CReply, (P(CEntry), SIZE, U8, P(CGrants), U64, P(U64), P(CReceipt), SIZE)),
    "papr_walk": (CWalk, (P(CEntry), SIZE, U8, P(CAccess), P(CReceipt), SIZE)),
    "papr_probe": (CWalk, (P(CEntry), SIZE, U8, P(CAccess))),
    "papr_decode": (CPage, (U8, U64, U64, U64)),
    "papr_rights": (U8, (U8, BOOL)),
    "papr_take_changed": (CTaken, (P(CEntry), SIZE, U8, U32, P(U32), SIZE)),
    "papr_rehash": (CRehash, (P(CEntry), SIZE, U8, P(CEntry), SIZE, U8)),
    "papr_resize_prepare": (I64, (P(CResize), U8, U64, U64, P(CEntry), SIZE)),
    "papr_resize_commit": (CRehash, (P(CResize), P(CEntry), SIZE, U8, P(CEntry), SIZE, U64, U64)),
    "papr_slb_mte": (U32, (P(CSlb), U64, U64)),
    "papr_slb_clear": (None, (P(CSlb),)),
    "papr_slb_find": (CSlot, (P(CSlb), U64)),
    "papr_put_tce": (CReply, (P(CEntry), SIZE, U64, P(CGrants), U64, U64, P(CReceipt), SIZE)),
    "papr_get_tce": (CReply, (P(CEntry), SIZE, U64, U64, P(U64), SIZE, P(CReceipt), SIZE)),
    "papr_device": (CDevice, (P(CEntry), SIZE, U64, P(CGrants), U64, BOOL, P(CReceipt), SIZE)),
    "papr_export": (CTransfer, (P(CEntry), SIZE, U8, U8, SIZE, SIZE, P(U8), SIZE)),
    "papr_import": (CTransfer, (P(CEntry), SIZE, U8, P(CGrants), U8, SIZE, SIZE, P(U8), SIZE)),
}
SHARED_FUNCTIONS: dict[str, tuple[Any, Types]] = {
    "papr_open": (I64, (P(CEntry), SIZE, U8, U32, P(CPass))),
    "papr_split": (I64, (P(CPass), P(CPass))),
    "papr_join": (I64, (P(CPass), P(CPass))),
    "papr_close": (I64, (P(CPass), P(CEntry), SIZE)),
    "papr_try_h_enter": (CReply, (P(CPass), P(CGrants), U64, U64, U64, U64, P(U64), SIZE, P(CReceipt), SIZE)),
    "papr_try_h_remove": (CReply, (P(CPass), U64, U64, U64, P(U64), SIZE, P(CReceipt), SIZE)),
    "papr_try_h_protect": (CReply, (P(CPass), U64, U64, U64, P(U64), SIZE, P(CReceipt), SIZE)),
    "papr_try_h_read": (CReply, (P(CPass), U64, U64, P(U64), SIZE, P(CReceipt), SIZE)),
    "papr_try_h_clear_ref": (CReply, (P(CPass), U64, U64, P(U64), SIZE, P(CReceipt), SIZE)),
    "papr_try_h_clear_mod": (CReply, (P(CPass), U64, U64, P(U64), SIZE, P(CReceipt), SIZE)),
    "papr_try_h_bulk_remove": (CReply, (P(CPass), P(U64), SIZE, P(U64), SIZE, P(CReceipt), SIZE)),
    "papr_try_hcall": (CReply, (P(CPass), P(CGrants), U64, P(U64), P(CReceipt), SIZE)),
    "papr_again": (CReply, (P(CPass), P(U64), SIZE, P(CReceipt), SIZE)),
    "papr_try_walk": (CWalk, (P(CPass), P(CAccess), P(CReceipt), SIZE)),
    "papr_walk_again": (CWalk, (P(CPass), P(CReceipt), SIZE)),
    "papr_held_up": (CBusy, (P(CPass),)),
    "papr_give_up": (None, (P(CPass),)),
}
BYTES_FUNCTIONS: dict[str, tuple[Any, Types]] = {
    "papr_bytes_call": (CBytesEnd, (P(U8), SIZE, P(U8), SIZE, P(U8), SIZE, P(U8), SIZE, P(U8), SIZE)),
}
