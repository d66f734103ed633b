//! DMA windows: the calls on translation control entries, and a device's access.

use crate::answers::{ReceiptRoom, Receipts};
use crate::entry::Entry;
use crate::errors::{NoMemory, WindowError};
use crate::grants::Grants;
use crate::memory::{copied, zeroed};
use crate::reply::{Reply, WORDS};
use alloc::vec::Vec;
use papr_sys::papr_device;

const PAGE: u64 = 4_096;
const PAGES: usize = 16_384;
const END: u64 = 1 << 60;

/// Where a device's access ends.
#[derive(Clone, Copy, Debug, PartialEq, Eq, Hash)]
pub enum DeviceOutcome {
    /// It reaches a machine address.
    At {
        /// The machine address.
        machine: u64,
    },
    /// The page's entry doesn't permit the access, or none is set.
    Denied,
    /// The address lies outside the window.
    NoWindow,
    /// No single grant of main storage holds the page.
    Ungranted {
        /// The logical address.
        logical: u64,
    },
}

/// Where a device's access ends, and the receipt of the page's entry.
#[derive(Clone, Copy, Debug, PartialEq, Eq)]
pub struct DeviceAccess {
    raw: papr_device,
    receipts: ReceiptRoom,
}

impl DeviceAccess {
    /// Where it ends.
    pub fn outcome(&self) -> DeviceOutcome {
        match self.raw.outcome {
            papr_sys::PAPR_DEVICE_AT => DeviceOutcome::At {
                machine: self.raw.address,
            },
            papr_sys::PAPR_DEVICE_UNGRANTED => DeviceOutcome::Ungranted {
                logical: self.raw.address,
            },
            papr_sys::PAPR_DEVICE_DENIED => DeviceOutcome::Denied,
            _ => DeviceOutcome::NoWindow,
        }
    }

    /// What the page's entry answered: one receipt, or none outside the window.
    pub fn receipts(&self) -> Receipts<'_> {
        self.receipts.receipts()
    }
}

/// A DMA window: an entry for each of its pages of 4,096 bytes.
#[derive(Debug)]
pub struct Window {
    base: u64,
    entries: Vec<Entry>,
    grants: Grants,
}

impl Window {
    /// A window of so many pages from the bus address `base` on, in which nothing is set.
    pub fn new(base: u64, pages: usize, grants: Grants) -> Result<Window, WindowError> {
        let is_window = (1..=PAGES).contains(&pages)
            && base % PAGE == 0
            && base <= END
            && pages as u64 * PAGE <= END - base;
        if !is_window {
            return Err(WindowError::Range { base, pages });
        }
        Ok(Window {
            base,
            entries: zeroed(pages)?,
            grants,
        })
    }

    /// Another window with the same entries.
    pub fn try_clone(&self) -> Result<Window, NoMemory> {
        Ok(Window {
            base: self.base,
            entries: copied(&self.entries)?,
            grants: self.grants.clone(),
        })
    }

    /// H_PUT_TCE: sets the entry of the page with this bus address, or empties it. No word.
    pub fn put_tce(&mut self, ioba: u64, tce: u64) -> Reply {
        let mut receipts = ReceiptRoom::default();
        let (places, room) = receipts.lent();
        // SAFETY: entries, grants and places are ours, of the given lengths, and none is another's.
        let raw = unsafe {
            papr_sys::papr_put_tce(
                self.entries.as_mut_ptr(),
                self.entries.len(),
                self.base,
                self.grants.raw(),
                ioba,
                tce,
                places,
                room,
            )
        };
        Reply::new(raw, [0; WORDS], receipts)
    }

    /// H_GET_TCE: the word is the page's entry, or 0 if none is set.
    pub fn get_tce(&mut self, ioba: u64) -> Reply {
        let (mut words, mut receipts) = ([0; WORDS], ReceiptRoom::default());
        let (places, room) = receipts.lent();
        // SAFETY: entries, words and places are ours, of the given lengths, and none is another's.
        let raw = unsafe {
            papr_sys::papr_get_tce(
                self.entries.as_mut_ptr(),
                self.entries.len(),
                self.base,
                ioba,
                words.as_mut_ptr(),
                WORDS,
                places,
                room,
            )
        };
        Reply::new(raw, words, receipts)
    }

    /// A device's read at a bus address.
    pub fn read(&mut self, ioba: u64) -> DeviceAccess {
        self.access(ioba, false)
    }

    /// A device's write at a bus address.
    pub fn write(&mut self, ioba: u64) -> DeviceAccess {
        self.access(ioba, true)
    }

    fn access(&mut self, ioba: u64, write: bool) -> DeviceAccess {
        let mut receipts = ReceiptRoom::default();
        let (places, room) = receipts.lent();
        // SAFETY: entries, grants and places are ours, of the given lengths, and none is another's.
        let raw = unsafe {
            papr_sys::papr_device(
                self.entries.as_mut_ptr(),
                self.entries.len(),
                self.base,
                self.grants.raw(),
                ioba,
                write,
                places,
                room,
            )
        };
        DeviceAccess {
            raw,
            receipts: receipts.with(raw.receipts),
        }
    }
}
