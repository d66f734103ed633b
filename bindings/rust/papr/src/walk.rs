//! The walk of a page's groups, and the probe.

use crate::answers::{ReceiptRoom, Receipts};
use papr_sys::{papr_access, papr_walk};

/// What an access wants.
#[derive(Clone, Copy, Debug, PartialEq, Eq, Hash)]
pub enum Want {
    /// A load.
    Load = 0,
    /// A store.
    Store = 1,
    /// The fetch of an instruction.
    Fetch = 2,
}

/// An access, in a segment that the caller has looked up.
#[derive(Clone, Copy, Debug, PartialEq, Eq)]
pub struct Access {
    /// The effective address.
    pub ea: u64,
    /// The segment's number: 50 bits, or 38 in a segment of 1 TB.
    pub vsid: u64,
    /// What it wants.
    pub want: Want,
    /// The binary logarithm of the segment's base page: 12, 16, 24, or in one of 1 TB also 34.
    pub shift: u8,
    /// The segment is one of 1 TB, not of 256 MB.
    pub one_tb: bool,
    /// Kp in problem state, else Ks.
    pub key: bool,
    /// The segment's N.
    pub no_execute: bool,
    /// The processor's mask for loads and stores; 0 refuses nothing.
    pub amr: u64,
    /// Its mask for the fetches of instructions; 0 refuses nothing.
    pub iamr: u64,
}

impl Access {
    /// An access in a segment of 256 MB with pages of 4 KB, where neither key nor mask is set.
    pub fn new(ea: u64, vsid: u64, want: Want) -> Access {
        Access {
            ea,
            vsid,
            want,
            shift: 12,
            one_tb: false,
            key: false,
            no_execute: false,
            amr: 0,
            iamr: 0,
        }
    }

    /// What the library takes for it.
    pub(crate) fn raw(&self) -> papr_access {
        papr_access {
            ea: self.ea,
            vsid: self.vsid,
            amr: self.amr,
            iamr: self.iamr,
            shift: self.shift,
            want: self.want as u8,
            one_tb: self.one_tb,
            key: self.key,
            no_execute: self.no_execute,
        }
    }
}

/// Where a walk ends.
#[derive(Clone, Copy, Debug, PartialEq, Eq, Hash)]
pub enum Outcome {
    /// The access is allowed.
    At {
        /// The logical address.
        logical: u64,
    },
    /// The entry's protection refuses the access.
    Denied,
    /// No entry translates the page.
    NoPage,
    /// A field of the access is out of range; nothing changed.
    Parameter,
    /// AMR refuses it, for the entry's key.
    Amr,
    /// IAMR refuses it, for the entry's key.
    Iamr,
}

/// What an entry lets a processor do, and need not record in R or C.
#[derive(Clone, Copy, Debug, Default, PartialEq, Eq, Hash)]
pub struct Rights(u8);

impl Rights {
    pub(crate) fn from_bits(bits: u8) -> Rights {
        Rights(bits)
    }

    /// To read.
    pub fn read(self) -> bool {
        self.0 & papr_sys::PAPR_MAY_READ != 0
    }

    /// To write, which is a right only with C set.
    pub fn write(self) -> bool {
        self.0 & papr_sys::PAPR_MAY_WRITE != 0
    }

    /// To fetch instructions.
    pub fn execute(self) -> bool {
        self.0 & papr_sys::PAPR_MAY_EXECUTE != 0
    }
}

/// All that refuses an access.
#[derive(Clone, Copy, Debug, Default, PartialEq, Eq, Hash)]
pub struct Causes(u8);

impl Causes {
    /// Nothing does.
    pub fn is_empty(self) -> bool {
        self.0 == 0
    }

    /// The page's protection bits, for this key.
    pub fn protection(self) -> bool {
        self.0 & papr_sys::PAPR_CAUSE_PROTECTION != 0
    }

    /// A fetch, and the entry's N or G is set, or the segment's N.
    pub fn no_execute(self) -> bool {
        self.0 & papr_sys::PAPR_CAUSE_NO_EXECUTE != 0
    }

    /// AMR, for the entry's key.
    pub fn amr(self) -> bool {
        self.0 & papr_sys::PAPR_CAUSE_AMR != 0
    }

    /// IAMR, for the entry's key.
    pub fn iamr(self) -> bool {
        self.0 & papr_sys::PAPR_CAUSE_IAMR != 0
    }
}

/// All that a TLB keeps of a translation, also if it refuses the access.
#[derive(Clone, Copy, Debug, PartialEq, Eq)]
pub struct Translation {
    /// The index of the entry.
    pub entry: u32,
    /// Its doubleword 0.
    pub dword0: u64,
    /// Its doubleword 1 with R and C, after a walk as it left them.
    pub dword1: u64,
    /// The binary logarithm of the base page size.
    pub base_shift: u8,
    /// The binary logarithm of the size of the real page.
    pub actual_shift: u8,
    /// What the entry lets this processor do.
    pub rights: Rights,
    /// All that refuses this access.
    pub causes: Causes,
}

/// What a walk or a probe found.
#[derive(Clone, Copy, Debug, PartialEq, Eq)]
pub struct Walk {
    raw: papr_walk,
    receipts: ReceiptRoom,
}

impl Walk {
    /// The answer of the library, with the receipts that it filled.
    pub(crate) fn new(raw: papr_walk, receipts: ReceiptRoom) -> Walk {
        Walk {
            raw,
            receipts: receipts.with(raw.receipts),
        }
    }

    /// Where it ends.
    pub fn outcome(&self) -> Outcome {
        match self.raw.outcome {
            papr_sys::PAPR_WALK_AT => Outcome::At {
                logical: self.raw.logical,
            },
            papr_sys::PAPR_WALK_DENIED => Outcome::Denied,
            papr_sys::PAPR_WALK_NO_PAGE => Outcome::NoPage,
            papr_sys::PAPR_WALK_AMR => Outcome::Amr,
            papr_sys::PAPR_WALK_IAMR => Outcome::Iamr,
            _ => Outcome::Parameter,
        }
    }

    /// The translation of the page, if an entry translates it.
    pub fn translation(&self) -> Option<Translation> {
        match self.outcome() {
            Outcome::NoPage | Outcome::Parameter => None,
            _ => Some(Translation {
                entry: self.raw.entry,
                dword0: self.raw.dword0,
                dword1: self.raw.dword1,
                base_shift: self.raw.base_shift,
                actual_shift: self.raw.actual_shift,
                rights: Rights::from_bits(self.raw.rights),
                causes: Causes(self.raw.causes),
            }),
        }
    }

    /// What the walk did to entries, in order; a probe has no receipt.
    pub fn receipts(&self) -> Receipts<'_> {
        self.receipts.receipts()
    }
}
