//! Memory for one value.

use crate::errors::NoMemory;
use alloc::alloc::{alloc, Layout};
use alloc::boxed::Box;
use core::mem::{size_of, MaybeUninit};

/// Memory for one value. A box takes it, which can't fail any more.
pub(super) struct Room<T>(Box<MaybeUninit<T>>);

impl<T> Room<T> {
    /// Memory for a value.
    pub(super) fn new() -> Result<Room<T>, NoMemory> {
        const { assert!(size_of::<T>() != 0) };
        // SAFETY: the size isn't 0.
        let place = unsafe { alloc(Layout::new::<T>()) }.cast::<MaybeUninit<T>>();
        if place.is_null() {
            return Err(NoMemory);
        }
        // SAFETY: the memory is that of a box of such a value, and nobody else has it.
        Ok(Room(unsafe { Box::from_raw(place) }))
    }

    /// A box with a value in this memory.
    pub(super) fn filled(mut self, value: T) -> Box<T> {
        self.0.write(value);
        // SAFETY: the value was written now.
        unsafe { self.0.assume_init() }
    }
}
