//! What the passes of one table have in common.

use super::room::Room;
use super::seats::{Seat, Seats};
use crate::table::Table;
use alloc::boxed::Box;
use core::fmt;
use core::mem;
use core::ops::Deref;
use core::ptr::NonNull;
use core::sync::atomic::{fence, AtomicU32, Ordering};

/// What the passes of one table have in common. The entries of `table` are those from before it was opened.
pub(super) struct Shared {
    pub(super) table: Table,
    pub(super) returned: Seats,
    /// How many [`Common`] are to it. Each pass has a share of the library, so they are 64 at most.
    holders: AtomicU32,
}

impl fmt::Debug for Shared {
    /// The entries are many, and aren't shown.
    fn fmt(&self, f: &mut fmt::Formatter<'_>) -> fmt::Result {
        let mut shown = f.debug_struct("Shared");
        shown
            .field("order", &self.table.order())
            .finish_non_exhaustive()
    }
}

impl Shared {
    /// Closes a table of which this pass has all shares, and gives the table that was opened.
    pub(super) fn close(&mut self, seat: &Seat) -> Option<Table> {
        let entries = self.table.entries_mut();
        // SAFETY: the entries are the table's, and as many; the pass is ours.
        let code = unsafe { papr_sys::papr_close(seat.raw(), entries.as_mut_ptr(), entries.len()) };
        (code == papr_sys::PAPR_H_SUCCESS).then(|| mem::replace(&mut self.table, Table::nothing()))
    }
}

impl Drop for Shared {
    /// Nobody has a pass any more: frees the table of the library, if it isn't closed.
    fn drop(&mut self) {
        let mut seats = self.returned.take();
        if let Some(mut first) = seats.next() {
            for other in seats {
                first.join(&other);
            }
            let closed = self.close(&first);
            debug_assert!(closed.is_some(), "all shares are there");
        }
    }
}

/// What is in common, which ends with the last one of these. It is an `Arc` for which memory is found
/// before: that of the standard library ends the process where there is none.
pub(super) struct Common {
    place: NonNull<Shared>,
}

// SAFETY: by one of these a thread has only a shared reference, unless no other is left; and what is
// shared is Send and Sync.
unsafe impl Send for Common {}
// SAFETY: as above.
unsafe impl Sync for Common {}

impl Common {
    /// The first one, of a table that is opened.
    pub(super) fn new(room: Room<Shared>, table: Table) -> Common {
        let (returned, holders) = (Seats::default(), AtomicU32::new(1));
        let shared = Shared {
            table,
            returned,
            holders,
        };
        Common {
            place: NonNull::from(Box::leak(room.filled(shared))),
        }
    }

    /// Whether two are of one table.
    pub(super) fn is_that_of(&self, other: &Common) -> bool {
        self.place == other.place
    }

    /// What is in common, if no other one of these is left.
    pub(super) fn alone(&mut self) -> Option<&mut Shared> {
        // What others did comes before: they release it when they are dropped.
        match self.holders.load(Ordering::Acquire) {
            // SAFETY: this is the only one, and while it is borrowed no other is made of it.
            1 => Some(unsafe { self.place.as_mut() }),
            _ => None,
        }
    }
}

impl Deref for Common {
    type Target = Shared;

    fn deref(&self) -> &Shared {
        // SAFETY: the memory is freed after the last one of these.
        unsafe { self.place.as_ref() }
    }
}

impl fmt::Debug for Common {
    fn fmt(&self, f: &mut fmt::Formatter<'_>) -> fmt::Result {
        Shared::fmt(self, f)
    }
}

impl Clone for Common {
    fn clone(&self) -> Common {
        self.holders.fetch_add(1, Ordering::Relaxed);
        Common { place: self.place }
    }
}

impl Drop for Common {
    fn drop(&mut self) {
        if self.holders.fetch_sub(1, Ordering::Release) == 1 {
            fence(Ordering::Acquire);
            // SAFETY: it came from a box, and nobody else is left; all that others did comes before.
            drop(unsafe { Box::from_raw(self.place.as_ptr()) });
        }
    }
}
