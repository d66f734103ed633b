//! The structs and the numbers of `papr_shared.h`, with its names.

use core::ffi::c_void;

/// The right of a thread to work on a table. All zero is a closed pass.
#[repr(C)]
#[derive(Debug)]
pub struct papr_pass {
    /// What the library keeps for it.
    pub at: *mut c_void,
    /// Whether it is open.
    pub live: bool,
}

/// Why the call of a pass is busy.
#[repr(C)]
#[derive(Clone, Copy, Debug, Default, PartialEq, Eq)]
pub struct papr_busy {
    /// The control word that the try noted.
    pub looked: u64,
    /// The one that its last step found.
    pub found: u64,
    /// The entry of the next operation.
    pub entry: u32,
    /// How many operations of the call are made.
    pub done: u32,
    /// `PAPR_NOT_HELD_UP` and the following ones.
    pub hold: u32,
}

/// An outcome of a walk: `papr_walk_again` goes on with it.
pub const PAPR_WALK_BUSY: u32 = 6;

/// The pass has nothing to go on with, or is closed.
pub const PAPR_NOT_HELD_UP: u32 = 0;
/// Another thread holds the lock of the entry.
pub const PAPR_HELD: u32 = 1;
/// Another thread changes the entry's control word (a walk).
pub const PAPR_CHANGING: u32 = 2;
