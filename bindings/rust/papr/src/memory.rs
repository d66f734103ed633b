//! Memory that may be refused: want of it is an answer, and doesn't end the process.

use crate::entry::Entry;
use crate::errors::NoMemory;
use alloc::alloc::{alloc_zeroed, Layout};
use alloc::vec::Vec;

/// Types of which all zero is a value.
///
/// # Safety
///
/// All zero is a value of the type.
pub(crate) unsafe trait Zero: Copy {}

// SAFETY: it is a number.
unsafe impl Zero for u8 {}
// SAFETY: it is a number.
unsafe impl Zero for u32 {}
// SAFETY: it has numbers and bools only; all zero is an empty entry.
unsafe impl Zero for Entry {}

/// So many values of zero. Memory of the system is taken as it is touched, so that a large table of
/// which little is used is a small one.
pub(crate) fn zeroed<T: Zero>(count: usize) -> Result<Vec<T>, NoMemory> {
    let memory = Layout::array::<T>(count).map_err(|_| NoMemory)?;
    if memory.size() == 0 {
        return Ok(Vec::new());
    }
    // SAFETY: the size isn't 0, the memory has room for so many values, and all zero is a value.
    unsafe {
        let values = alloc_zeroed(memory).cast::<T>();
        match values.is_null() {
            true => Err(NoMemory),
            false => Ok(Vec::from_raw_parts(values, count, count)),
        }
    }
}

/// The same values in memory of their own.
pub(crate) fn copied<T: Copy>(values: &[T]) -> Result<Vec<T>, NoMemory> {
    let mut copy = Vec::new();
    copy.try_reserve_exact(values.len()).map_err(|_| NoMemory)?;
    copy.extend_from_slice(values);
    Ok(copy)
}
