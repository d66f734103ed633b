//! The numbers of `papr.h`, with its names and the types of the fields that have them.

// ---- the version

/// The major number of the header's version.
pub const PAPR_VERSION_MAJOR: u32 = 0;
/// The minor number of the header's version.
pub const PAPR_VERSION_MINOR: u32 = 1;
/// The patch number of the header's version.
pub const PAPR_VERSION_PATCH: u32 = 0;
/// One number, which rises with each version.
pub const PAPR_VERSION: u32 =
    (PAPR_VERSION_MAJOR << 16) | (PAPR_VERSION_MINOR << 8) | PAPR_VERSION_PATCH;

// ---- What a call answers in register 3: `papr_reply.rc`.

/// It succeeded.
pub const PAPR_H_SUCCESS: i64 = 0;
/// Not all entries of the pending table are ready.
pub const PAPR_H_BUSY: i64 = 1;
/// No table of the order is pending.
pub const PAPR_H_CLOSED: i64 = 2;
/// The next entries are ready: call again for the rest.
pub const PAPR_H_LONG_BUSY: i64 = 9900;
/// The entry has changed 2^32 - 1 times, and can't change again.
pub const PAPR_H_HARDWARE: i64 = -1;
/// The number isn't one of a call on entries (papr_hcall).
pub const PAPR_H_FUNCTION: i64 = -2;
/// An argument is out of range.
pub const PAPR_H_PARAMETER: i64 = -4;
/// Each entry that was tried is valid.
pub const PAPR_H_PTEG_FULL: i64 = -6;
/// The entry is empty or fails the test.
pub const PAPR_H_NOT_FOUND: i64 = -7;
/// The memory that is lent isn't that of a table of the order.
pub const PAPR_H_NO_MEM: i64 = -9;
/// The order is above the highest that is allowed.
pub const PAPR_H_RESOURCE: i64 = -16;

// ---- What an entry answered: `papr_receipt.answer`.

/// It was entered.
pub const PAPR_ENTERED: u8 = 0;
/// It was valid already.
pub const PAPR_TAKEN: u8 = 1;
/// It was emptied.
pub const PAPR_REMOVED: u8 = 2;
/// Its protection was changed.
pub const PAPR_PROTECTED: u8 = 3;
/// R or C was cleared.
pub const PAPR_WAS: u8 = 4;
/// It was read.
pub const PAPR_READ: u8 = 5;
/// It is empty, or fails the test.
pub const PAPR_NOTFOUND: u8 = 6;
/// It doesn't translate the page of the access.
pub const PAPR_NOMATCH: u8 = 7;
/// It translates the page, and its protection refuses the access.
pub const PAPR_DENIED: u8 = 8;
/// The access is allowed, and recorded in R and C.
pub const PAPR_AT: u8 = 9;
/// Its stamp is at its last value.
pub const PAPR_WORN: u8 = 10;
/// Its protection allows the access, and AMR or IAMR refuses it.
pub const PAPR_MASKED: u8 = 11;

// ---- Why a list of grants is refused: `papr_making.refusal`.

/// It isn't refused.
pub const PAPR_GRANTED: u32 = 0;
/// Its length is 0.
pub const PAPR_GRANT_EMPTY: u32 = 1;
/// An address or the length isn't a multiple of 4,096.
pub const PAPR_GRANT_UNALIGNED: u32 = 2;
/// It ends above 2^60.
pub const PAPR_GRANT_PAST: u32 = 3;
/// There are 64 already.
pub const PAPR_GRANT_TOO_MANY: u32 = 4;
/// Its logical or machine range overlaps another's.
pub const PAPR_GRANT_OVERLAP: u32 = 5;
/// Its machine range overlaps the pool of page tables.
pub const PAPR_GRANT_POOL: u32 = 6;
/// The order of the pool isn't from 18 to 34.
pub const PAPR_POOL_ORDER: u32 = 7;
/// Its base isn't a multiple of 2^order.
pub const PAPR_POOL_UNALIGNED: u32 = 8;
/// The pool ends above 2^60.
pub const PAPR_POOL_PAST: u32 = 9;

// ---- Where a walk ends: `papr_walk.outcome`.

/// The access is allowed.
pub const PAPR_WALK_AT: u32 = 0;
/// The entry's protection refuses the access.
pub const PAPR_WALK_DENIED: u32 = 1;
/// No entry translates the page.
pub const PAPR_WALK_NO_PAGE: u32 = 2;
/// An argument is out of range, or a wrong order or count; nothing changed.
pub const PAPR_WALK_PARAMETER: u32 = 3;
/// AMR refuses it, for the entry's key.
pub const PAPR_WALK_AMR: u32 = 4;
/// IAMR refuses it, for the entry's key.
pub const PAPR_WALK_IAMR: u32 = 5;

// ---- What an entry lets a processor do, and need not record: bits of `papr_walk.rights`.

/// A fetch.
pub const PAPR_MAY_EXECUTE: u8 = 1;
/// A store.
pub const PAPR_MAY_WRITE: u8 = 2;
/// A load.
pub const PAPR_MAY_READ: u8 = 4;

// ---- All that refuses an access: bits of `papr_walk.causes`.

/// The page's protection bits, for this key.
pub const PAPR_CAUSE_PROTECTION: u8 = 1;
/// A fetch, and the entry's N or G is set, or the segment's N.
pub const PAPR_CAUSE_NO_EXECUTE: u8 = 2;
/// AMR, for the entry's key.
pub const PAPR_CAUSE_AMR: u8 = 4;
/// IAMR, for the entry's key.
pub const PAPR_CAUSE_IAMR: u8 = 8;

// ---- Whether two doublewords translate a page: `papr_page.why`.

/// They translate one.
pub const PAPR_PAGE: u32 = 0;
/// V is clear.
pub const PAPR_EMPTY: u32 = 1;
/// The doublewords encode no page size.
pub const PAPR_NO_SIZE: u32 = 2;
/// B is above 1, or no page of that base size lies where the tag says.
pub const PAPR_NO_SEGMENT: u32 = 3;
/// The page's group isn't that of this index.
pub const PAPR_OTHER_GROUP: u32 = 4;
/// The order or the index is out of range.
pub const PAPR_NO_INDEX: u32 = 5;

// ---- What may be wrong with the words of an slbmte.

/// Nothing: the slot is written.
pub const PAPR_SLB_WRITTEN: u32 = 0;
/// There is no slot of that number.
pub const PAPR_SLB_SLOT: u32 = 1;
/// B is neither 0 (256 MB) nor 1 (1 TB).
pub const PAPR_SLB_SEGMENT_SIZE: u32 = 2;
/// L and LP are no base page size of such a segment.
pub const PAPR_SLB_PAGE_SIZE: u32 = 3;

// ---- Where a device's access ends: `papr_device.outcome`.

/// It reaches a machine address.
pub const PAPR_DEVICE_AT: u32 = 0;
/// The page's entry doesn't permit the access, or none is set.
pub const PAPR_DEVICE_DENIED: u32 = 1;
/// The address lies outside the window.
pub const PAPR_DEVICE_NO_WINDOW: u32 = 2;
/// No single grant of main storage holds the page.
pub const PAPR_DEVICE_UNGRANTED: u32 = 3;
/// There is no such window.
pub const PAPR_DEVICE_PARAMETER: u32 = 4;

// ---- How an entry's 16 bytes are laid out.

/// Version 2.07: B is in doubleword 0.
pub const PAPR_LAYOUT_OLD: u8 = 0;
/// Version 3.0: B is in doubleword 1.
pub const PAPR_LAYOUT_NEW: u8 = 1;

// ---- Why no entries are transferred: `papr_transfer.refusal`.

/// They are transferred.
pub const PAPR_TRANSFERRED: u32 = 0;
/// Order, count, layout, range, or too few bytes.
pub const PAPR_TRANSFER_ARGUMENTS: u32 = 1;
/// The layout has no such entry.
pub const PAPR_TRANSFER_UNHELD: u32 = 2;
/// H_ENTER would refuse it.
pub const PAPR_TRANSFER_UNENTERED: u32 = 3;

// ---- flags

/// H_ENTER: the named entry, and no other.
pub const PAPR_EXACT: u64 = 0x8000000000;
/// H_READ: the aligned group of four entries.
pub const PAPR_READ_4: u64 = 0x2000000000;
/// dword0 without its low 7 bits has to be avpn.
pub const PAPR_AVPN: u64 = 0x80000000;
/// H_REMOVE: no bit of avpn may be set in dword0.
pub const PAPR_ANDCOND: u64 = 0x40000000;
