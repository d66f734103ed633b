//! Calls that are busy.

use crate::reply::Reply;
use crate::shared::Pass;
use crate::walk::Walk;
use core::fmt;
use papr_sys::papr_busy;

/// Why a call or a walk is busy.
#[derive(Clone, Copy, Debug, PartialEq, Eq, Hash)]
pub enum Hold {
    /// A call: another thread is at the entry.
    Held,
    /// A walk: another thread changes the entry.
    Changing,
}

/// Another thread is at an entry. The pass keeps the call, and [`Pass::again`] goes on with it, or
/// [`Pass::walk_again`] with a walk. Until it has ended, the pass refuses other calls with
/// [`Error::Parameter`](crate::Error::Parameter).
#[derive(Clone, Copy, Debug, PartialEq, Eq)]
pub struct Busy {
    /// Why it is busy.
    pub hold: Hold,
    /// The entry of the next operation.
    pub entry: u32,
    /// How many operations are made; [`Pass::so_far`] has their receipts.
    pub done: u32,
    /// The entry's control word, as the try noted it.
    pub looked: u64,
    /// The entry's control word, as the last step of the try found it.
    pub found: u64,
}

impl Busy {
    /// What the library says of a pass, if it is busy.
    pub(super) fn of(it: papr_busy) -> Option<Busy> {
        let hold = match it.hold {
            papr_sys::PAPR_NOT_HELD_UP => return None,
            papr_sys::PAPR_HELD => Hold::Held,
            _ => Hold::Changing,
        };
        Some(Busy {
            hold,
            entry: it.entry,
            done: it.done,
            looked: it.looked,
            found: it.found,
        })
    }
}

impl fmt::Display for Busy {
    fn fmt(&self, f: &mut fmt::Formatter<'_>) -> fmt::Result {
        write!(
            f,
            "entry {:#x} is busy, after {} operations: {:?}",
            self.entry, self.done, self.hold
        )
    }
}

impl core::error::Error for Busy {}

mod sealed {
    pub trait Sealed {}
    impl Sealed for crate::Reply {}
    impl Sealed for crate::Walk {}
}

/// What a call or a walk of a pass ends with.
pub trait Ended: sealed::Sealed + Sized {
    /// Goes on with the call or the walk that was busy.
    fn again(pass: &mut Pass) -> Result<Self, Busy>;
}

impl Ended for Reply {
    fn again(pass: &mut Pass) -> Result<Reply, Busy> {
        pass.again()
    }
}

impl Ended for Walk {
    fn again(pass: &mut Pass) -> Result<Walk, Busy> {
        pass.walk_again()
    }
}
