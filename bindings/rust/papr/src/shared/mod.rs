//! A table for several threads at once.

mod busy;
mod common;
mod errors;
mod pass;
#[cfg(feature = "std")]
mod patience;
mod room;
mod seats;

pub use busy::{Busy, Ended, Hold};
pub use errors::{JoinError, JoinRefused, OpenError, OpenRefused, SplitError, StillShared};
pub use pass::Pass;
#[cfg(feature = "std")]
pub use patience::give_way;

use crate::grants::Grants;
use crate::table::Table;
use alloc::boxed::Box;
use common::{Common, Shared};
use core::ops::RangeInclusive;
use room::Room;
use seats::Seat;

/// How many passes may be out: the library has 64 shares, and the table keeps one.
const PASSES: RangeInclusive<u32> = 1..=63;

/// A table that several threads use at once, each by a [`Pass`] of its own, with no lock around the calls.
///
/// It owns the table until [`SharedTable::close`] gives it back as the threads left it. A pass that is
/// dropped gives its share back, and a call that it had to go on with is given up: what the call has
/// made stays made. If the shared table itself is dropped, its memory is freed as soon as no pass is
/// left.
///
/// ```
/// use papr::{flags, Grant, Grants, Pass, SharedTable, Table};
/// use std::thread;
///
/// let ram = Grant { logical: 0, machine: 0x20_0000_0000, length: 0x4000_0000, is_io: false };
/// let mut shared = SharedTable::open(Table::new(18, Grants::new(&[ram])?)?, 2)?;
/// let (mut first, mut second) = (shared.split()?, shared.split()?);
/// thread::scope(|scope| {
///     let enter = |pass: &mut Pass, pteh| {
///         let call = |it: &mut Pass| it.h_enter(0, 0x20, pteh, 0x3012);
///         pass.finish_with(call, |_tries| thread::yield_now()).code()
///     };
///     scope.spawn(move || assert_eq!(enter(&mut first, 0x1001), 0));
///     scope.spawn(move || assert_eq!(enter(&mut second, 0x2001), 0));
/// });
/// let table = shared.close()?;
/// assert!(table.entries()[0x20].valid && table.entries()[0x21].valid);
/// # Ok::<(), Box<dyn std::error::Error>>(())
/// ```
#[derive(Debug)]
pub struct SharedTable {
    root: Pass,
}

// SAFETY: by a shared reference nothing is done with the pass, and the rest is Sync.
unsafe impl Sync for SharedTable {}

impl SharedTable {
    /// Opens a table for so many passes at once, 1 to 63.
    // A box would make the refusal small, but it needs memory.
    #[allow(clippy::result_large_err)]
    pub fn open(table: Table, passes: u32) -> Result<SharedTable, OpenRefused> {
        match opened(&table, passes) {
            Ok((seat, room)) => {
                let root = Pass::new(seat, Common::new(room, table));
                Ok(SharedTable { root })
            }
            Err(why) => Err(OpenRefused { table, why }),
        }
    }

    /// It has 2^order bytes.
    pub fn order(&self) -> u8 {
        self.root.shared().table.order()
    }

    /// The memory that is granted to its guest.
    pub fn grants(&self) -> &Grants {
        self.root.shared().table.grants()
    }

    /// A new pass.
    pub fn split(&mut self) -> Result<Pass, SplitError> {
        self.root.gather();
        self.root.split()
    }

    /// Takes a pass back, which dropping it does too, unless it has a call to go on with.
    pub fn join(&mut self, pass: Pass) -> Result<(), JoinRefused> {
        if !self.root.is_of_one_table(&pass) {
            let why = JoinError::OtherTable;
            return Err(JoinRefused { pass, why });
        }
        if pass.busy().is_some() {
            let why = JoinError::Busy;
            return Err(JoinRefused { pass, why });
        }
        drop(pass);
        self.root.gather();
        Ok(())
    }

    /// Gives the table back as the threads left it, if no pass is out.
    pub fn close(mut self) -> Result<Table, StillShared> {
        if self.root.is_alone() {
            self.root.gather();
            if let Some(table) = self.root.close() {
                return Ok(table);
            }
        }
        Err(StillShared { shared: self })
    }
}

/// A pass with all shares of a new table of the library, which has these entries, and memory for what
/// passes have in common.
fn opened(table: &Table, passes: u32) -> Result<(Box<Seat>, Room<Shared>), OpenError> {
    if !PASSES.contains(&passes) {
        return Err(OpenError::Passes);
    }
    let (seat, room, shares) = (Seat::closed()?, Room::new()?, passes + 1);
    let (entries, order) = (table.entries(), table.order());
    // SAFETY: the entries are the table's, and as many; the pass is ours, and closed.
    let code =
        unsafe { papr_sys::papr_open(entries.as_ptr(), entries.len(), order, shares, seat.raw()) };
    match code {
        papr_sys::PAPR_H_SUCCESS => Ok((seat, room)),
        _ => Err(OpenError::NoMemory),
    }
}
