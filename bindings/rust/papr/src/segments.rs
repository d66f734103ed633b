//! Segments: the segment lookaside buffer of a processor.

use crate::walk::{Access, Want};
use core::fmt;
use papr_sys::papr_slb;

/// What may be wrong with the words of an slbmte.
#[derive(Clone, Copy, Debug, PartialEq, Eq, Hash)]
pub enum SlotRefusal {
    /// There is no slot of that number.
    Slot,
    /// B is neither 0 (256 MB) nor 1 (1 TB).
    SegmentSize,
    /// L and LP are no base page size of such a segment.
    PageSize,
}

impl fmt::Display for SlotRefusal {
    fn fmt(&self, f: &mut fmt::Formatter<'_>) -> fmt::Result {
        f.write_str(match self {
            SlotRefusal::Slot => "there is no slot of that number",
            SlotRefusal::SegmentSize => "B is neither 0 nor 1",
            SlotRefusal::PageSize => "L and LP are no base page size of such a segment",
        })
    }
}

impl core::error::Error for SlotRefusal {}

/// The refusals by the numbers of the library, from 1 on.
const REFUSALS: [SlotRefusal; 3] = [
    SlotRefusal::Slot,
    SlotRefusal::SegmentSize,
    SlotRefusal::PageSize,
];

/// A valid slot.
#[derive(Clone, Copy, Debug, PartialEq, Eq)]
pub struct Slot {
    /// The upper 36 bits of its addresses; of a segment of 1 TB 24 of them count.
    pub esid: u64,
    /// The segment's number.
    pub vsid: u64,
    /// The binary logarithm of its base page.
    pub shift: u8,
    /// It is one of 1 TB, not of 256 MB.
    pub one_tb: bool,
    /// The key of an access in privileged state.
    pub ks: bool,
    /// The key of an access in problem state.
    pub kp: bool,
    /// Its N.
    pub no_execute: bool,
}

impl Slot {
    /// An access to an address in this segment, where no mask is set.
    pub fn access(&self, ea: u64, want: Want, problem_state: bool) -> Access {
        Access {
            shift: self.shift,
            one_tb: self.one_tb,
            key: if problem_state { self.kp } else { self.ks },
            no_execute: self.no_execute,
            ..Access::new(ea, self.vsid, want)
        }
    }
}

/// A segment lookaside buffer of 32 slots.
#[derive(Clone, Debug, Default, PartialEq, Eq)]
pub struct Segments {
    slb: papr_slb,
}

impl Segments {
    /// All slots are invalid.
    pub fn new() -> Segments {
        Segments::default()
    }

    /// slbmte: writes the slot that rb names, or makes it invalid if V in rb is clear. If it is
    /// refused, nothing changes.
    pub fn slbmte(&mut self, rb: u64, rs: u64) -> Result<(), SlotRefusal> {
        // SAFETY: the buffer is ours, all zero or as calls left it.
        let refusal = unsafe { papr_sys::papr_slb_mte(&mut self.slb, rb, rs) };
        (refusal as usize)
            .checked_sub(1)
            .map_or(Ok(()), |at| Err(REFUSALS[at]))
    }

    /// Makes all slots invalid.
    pub fn clear(&mut self) {
        // SAFETY: the buffer is ours.
        unsafe { papr_sys::papr_slb_clear(&mut self.slb) }
    }

    /// The lowest valid slot of a segment in which an address lies.
    pub fn find(&self, ea: u64) -> Option<Slot> {
        // SAFETY: the buffer is ours, all zero or as calls left it.
        let it = unsafe { papr_sys::papr_slb_find(&self.slb, ea) };
        it.valid.then_some(Slot {
            esid: it.esid,
            vsid: it.vsid,
            shift: it.shift,
            one_tb: it.one_tb,
            ks: it.ks,
            kp: it.kp,
            no_execute: it.no_execute,
        })
    }
}
