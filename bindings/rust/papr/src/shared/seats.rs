//! Passes of the library, and those that were dropped.

use super::room::Room;
use crate::errors::NoMemory;
use crate::reply::Reply;
use alloc::boxed::Box;
use core::cell::UnsafeCell;
use core::ptr;
use core::sync::atomic::{AtomicPtr, Ordering};
use papr_sys::papr_pass;

/// A pass of the library in cache lines of its own, since a call writes it.
#[repr(align(128))]
#[derive(Debug)]
pub(super) struct Seat {
    raw: UnsafeCell<papr_pass>,
    next: *mut Seat,
    /// What the last call that was busy had made.
    pub(super) so_far: Option<Reply>,
}

impl Seat {
    /// A pass that is closed.
    pub(super) fn closed() -> Result<Box<Seat>, NoMemory> {
        let closed = papr_pass {
            at: ptr::null_mut(),
            live: false,
        };
        Ok(Room::new()?.filled(Seat {
            raw: UnsafeCell::new(closed),
            next: ptr::null_mut(),
            so_far: None,
        }))
    }

    /// What the library takes for it.
    pub(super) fn raw(&self) -> *mut papr_pass {
        self.raw.get()
    }

    /// Whether it isn't closed.
    pub(super) fn is_open(&self) -> bool {
        // SAFETY: no call has the pass now, since a seat is of one thread at a time.
        unsafe { (*self.raw.get()).live }
    }

    /// Takes the shares of another one of the same table; neither has a call to go on with.
    pub(super) fn join(&mut self, other: &Seat) {
        // SAFETY: the passes are two, and ours.
        let code = unsafe { papr_sys::papr_join(self.raw(), other.raw()) };
        debug_assert_eq!(code, papr_sys::PAPR_H_SUCCESS);
    }
}

/// Seats that any thread puts here, and that one takes out: all at once.
#[derive(Debug, Default)]
pub(super) struct Seats {
    last: AtomicPtr<Seat>,
}

impl Seats {
    /// Puts a seat here.
    pub(super) fn put(&self, seat: Box<Seat>) {
        let mine = Box::into_raw(seat);
        let mut last = self.last.load(Ordering::Relaxed);
        loop {
            // SAFETY: nobody else has this seat before it is the last one.
            unsafe { (*mine).next = last };
            let exchanged =
                self.last
                    .compare_exchange_weak(last, mine, Ordering::Release, Ordering::Relaxed);
            match exchanged {
                Ok(_) => return,
                Err(other) => last = other,
            }
        }
    }

    /// Takes all seats out.
    pub(super) fn take(&self) -> Taken {
        Taken {
            next: self.last.swap(ptr::null_mut(), Ordering::Acquire),
        }
    }
}

/// The seats that were taken out.
pub(super) struct Taken {
    next: *mut Seat,
}

impl Iterator for Taken {
    type Item = Box<Seat>;

    fn next(&mut self) -> Option<Box<Seat>> {
        if self.next.is_null() {
            return None;
        }
        // SAFETY: the seat came here from a Box, and we alone took it out.
        let seat = unsafe { Box::from_raw(self.next) };
        self.next = seat.next;
        Some(seat)
    }
}

impl Drop for Taken {
    /// Frees the seats that are left.
    fn drop(&mut self) {
        self.for_each(drop);
    }
}
