//! The structs of `papr.h`, with its names.

/// One entry, in 24 bytes. All zero is an empty entry.
#[repr(C)]
#[derive(Clone, Copy, Debug, Default, PartialEq, Eq)]
pub struct papr_entry {
    /// Doubleword 0.
    pub dword0: u64,
    /// Doubleword 1, with R and C clear.
    pub dword1: u64,
    /// How often calls entered, removed or protected it, or cleared R or C, set or not.
    pub stamp: u32,
    /// Whether it is valid.
    pub valid: bool,
    /// R.
    pub referenced: bool,
    /// C.
    pub changed: bool,
    /// It was changed since its mark was last taken.
    pub marked: bool,
}

/// How far entries were asked for their marks.
#[repr(C)]
#[derive(Clone, Copy, Debug, Default, PartialEq, Eq)]
pub struct papr_taken {
    /// `PAPR_H_SUCCESS` or `PAPR_H_PARAMETER`.
    pub rc: i64,
    /// How many indexes were written.
    pub count: u32,
    /// The index from which to go on: the count of entries, if none is left.
    pub next: u32,
}

/// One operation on one entry, with its doublewords from before.
#[repr(C)]
#[derive(Clone, Copy, Debug, Default, PartialEq, Eq)]
pub struct papr_receipt {
    /// Doubleword 0 before.
    pub dword0: u64,
    /// Doubleword 1 before, with R and C.
    pub dword1: u64,
    /// The index of the entry.
    pub entry: u32,
    /// The stamp before.
    pub stamp: u32,
    /// Before: R counts 2, C counts 1.
    pub bits: u8,
    /// `PAPR_ENTERED` and the following ones.
    pub answer: u8,
}

/// What a call answers.
#[repr(C)]
#[derive(Clone, Copy, Debug, Default, PartialEq, Eq)]
pub struct papr_reply {
    /// `PAPR_H_SUCCESS` and the following ones.
    pub rc: i64,
    /// How many words were filled.
    pub words: u32,
    /// How many receipts were filled.
    pub receipts: u32,
    /// Whether a cached translation may no longer be valid.
    pub stale: bool,
}

/// A range of the guest's logical addresses and the machine range that it maps to, in bytes.
#[repr(C)]
#[derive(Clone, Copy, Debug, Default, PartialEq, Eq)]
pub struct papr_grant {
    /// The first logical address.
    pub logical: u64,
    /// The machine address that it maps to.
    pub machine: u64,
    /// The length.
    pub length: u64,
    /// A device's registers, not main storage.
    pub is_io: bool,
}

/// A list of grants that `papr_make_grants` checked and sorted. All zero is the empty list.
#[repr(C)]
#[derive(Clone, Copy, Debug, PartialEq, Eq)]
pub struct papr_grants {
    /// The grants, by their logical addresses.
    pub grants: [papr_grant; 64],
    /// How many there are.
    pub count: u32,
}

impl Default for papr_grants {
    /// The empty list.
    fn default() -> Self {
        papr_grants {
            grants: [papr_grant::default(); 64],
            count: 0,
        }
    }
}

/// Which grant is refused, and why.
#[repr(C)]
#[derive(Clone, Copy, Debug, Default, PartialEq, Eq)]
pub struct papr_making {
    /// The first grant that is refused.
    pub index: usize,
    /// `PAPR_GRANTED` and the following ones.
    pub refusal: u32,
}

/// A machine range.
#[repr(C)]
#[derive(Clone, Copy, Debug, Default, PartialEq, Eq)]
pub struct papr_range {
    /// The machine address.
    pub machine: u64,
    /// Whether one grant has all of the range.
    pub granted: bool,
    /// A device's registers, not main storage.
    pub is_io: bool,
}

/// An access, in a segment that the caller has looked up.
#[repr(C)]
#[derive(Clone, Copy, Debug, Default, PartialEq, Eq)]
pub struct papr_access {
    /// The effective address.
    pub ea: u64,
    /// The segment's number.
    pub vsid: u64,
    /// The processor's mask for loads and stores.
    pub amr: u64,
    /// Its mask for instruction fetches.
    pub iamr: u64,
    /// The binary logarithm of its base page.
    pub shift: u8,
    /// 0 load, 1 store, 2 fetch.
    pub want: u8,
    /// A segment of 1 TB, not of 256 MB.
    pub one_tb: bool,
    /// Kp in problem state, else Ks.
    pub key: bool,
    /// The segment's N.
    pub no_execute: bool,
}

/// What a walk found: all that a TLB keeps of the translation, also if it refuses the access.
#[repr(C)]
#[derive(Clone, Copy, Debug, Default, PartialEq, Eq)]
pub struct papr_walk {
    /// The logical address at `PAPR_WALK_AT`, else 0.
    pub logical: u64,
    /// Doubleword 0 of the entry that translates the page.
    pub dword0: u64,
    /// Doubleword 1 as it is after the walk, with R and C.
    pub dword1: u64,
    /// The index of the entry.
    pub entry: u32,
    /// `PAPR_WALK_AT` and the following ones.
    pub outcome: u32,
    /// How many receipts were filled.
    pub receipts: u32,
    /// The binary logarithm of its base page size.
    pub base_shift: u8,
    /// The binary logarithm of the size of the real page.
    pub actual_shift: u8,
    /// `PAPR_MAY_EXECUTE` and the following ones, after the walk.
    pub rights: u8,
    /// `PAPR_CAUSE_PROTECTION` and the following ones.
    pub causes: u8,
}

/// What two doublewords say.
#[repr(C)]
#[derive(Clone, Copy, Debug, Default, PartialEq, Eq)]
pub struct papr_page {
    /// The number of the page's segment.
    pub vsid: u64,
    /// The index of the base page in its segment.
    pub page: u64,
    /// The logical address of the real page.
    pub real: u64,
    /// The binary logarithm of the base page size.
    pub base_shift: u8,
    /// The binary logarithm of the size of the real page.
    pub actual_shift: u8,
    /// 0 to 31.
    pub key: u8,
    /// PP0, which counts 4, and PP.
    pub protection: u8,
    /// W 8, I 4, M 2, G 1.
    pub wimg: u8,
    /// The page's segment is one of 1 TB.
    pub one_tb: bool,
    /// N or G is set, so fetches are refused.
    pub no_execute: bool,
    /// The entry is bolted.
    pub bolted: bool,
    /// H: it is in its page's secondary group.
    pub secondary: bool,
    /// R of doubleword 1.
    pub referenced: bool,
    /// C of doubleword 1.
    pub changed: bool,
    /// `PAPR_PAGE` and the following ones.
    pub why: u32,
}

/// How a rehash or a commit ended.
#[repr(C)]
#[derive(Clone, Copy, Debug, Default, PartialEq, Eq)]
pub struct papr_rehash {
    /// `PAPR_H_SUCCESS`, `PAPR_H_PTEG_FULL` or `PAPR_H_PARAMETER`; of a commit also others.
    pub rc: i64,
    /// At `PAPR_H_PTEG_FULL` the lower of the two old indices that collide.
    pub first: u32,
    /// The higher one.
    pub second: u32,
    /// Their index in the new table.
    pub target: u32,
    /// At `PAPR_H_SUCCESS`: no cached translation is one of the new table.
    pub stale: bool,
}

/// What is pending between two resize calls. All zero is nothing.
#[repr(C)]
#[derive(Clone, Copy, Debug, Default, PartialEq, Eq)]
pub struct papr_resize {
    /// How many entries of the pending table are ready.
    pub ready: u32,
    /// It has 2^order bytes.
    pub order: u8,
    /// Whether a table is pending.
    pub pending: bool,
}

/// One slot of a segment lookaside buffer. All zero is an invalid slot.
#[repr(C)]
#[derive(Clone, Copy, Debug, Default, PartialEq, Eq)]
pub struct papr_slot {
    /// The upper 36 bits of its addresses.
    pub esid: u64,
    /// The segment's number.
    pub vsid: u64,
    /// The binary logarithm of its base page.
    pub shift: u8,
    /// Whether it has a segment.
    pub valid: bool,
    /// A segment of 1 TB, not of 256 MB.
    pub one_tb: bool,
    /// The key of an access in privileged state.
    pub ks: bool,
    /// The key of an access in problem state.
    pub kp: bool,
    /// The segment's N.
    pub no_execute: bool,
}

/// The segment lookaside buffer of a processor.
#[repr(C)]
#[derive(Clone, Copy, Debug, Default, PartialEq, Eq)]
pub struct papr_slb {
    /// The slots, by the numbers that slbmte has.
    pub slots: [papr_slot; 32],
}

/// Where a device's access ends.
#[repr(C)]
#[derive(Clone, Copy, Debug, Default, PartialEq, Eq)]
pub struct papr_device {
    /// The machine address; at `PAPR_DEVICE_UNGRANTED` the logical one, else 0.
    pub address: u64,
    /// `PAPR_DEVICE_AT` and the following ones.
    pub outcome: u32,
    /// How many receipts were filled.
    pub receipts: u32,
}

/// Which entry is refused, and why.
#[repr(C)]
#[derive(Clone, Copy, Debug, Default, PartialEq, Eq)]
pub struct papr_transfer {
    /// The first entry that is refused, else 0.
    pub index: usize,
    /// `PAPR_TRANSFERRED` and the following ones.
    pub refusal: u32,
}
