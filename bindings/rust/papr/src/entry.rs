//! Entries, and what their doublewords say.

use crate::walk::Rights;
use alloc::vec::Vec;
use papr_sys::{papr_entry, papr_page};

/// One entry of a table. Doubleword 1 has R and C clear; they are `referenced` and `changed`.
pub type Entry = papr_entry;

/// Which entries were changed since their marks were last taken.
#[derive(Debug, PartialEq, Eq)]
pub struct Taken {
    /// Their indexes, in ascending order.
    pub indexes: Vec<u32>,
    /// The index from which to go on: the number of entries, if none is left.
    pub next: u32,
}

/// Why two doublewords translate no page at an index: the first of these that holds.
#[derive(Clone, Copy, Debug, PartialEq, Eq, Hash)]
pub enum NoPage {
    /// V is clear.
    Empty,
    /// The doublewords encode no page size.
    NoSize,
    /// B is above 1, or no page of that base size lies where the tag says.
    NoSegment,
    /// The page's group isn't that of this index.
    OtherGroup,
    /// The order or the index is out of range.
    NoIndex,
}

/// The reasons by the numbers of the library, from 1 on.
const REASONS: [NoPage; 5] = [
    NoPage::Empty,
    NoPage::NoSize,
    NoPage::NoSegment,
    NoPage::OtherGroup,
    NoPage::NoIndex,
];

/// What two doublewords say.
#[derive(Clone, Copy, Debug, PartialEq, Eq)]
pub struct Page {
    /// The number of the page's segment.
    pub vsid: u64,
    /// The index of the base page in its segment.
    pub page: u64,
    /// The logical address of the real page.
    pub real: u64,
    /// The binary logarithm of the base page size.
    pub base_shift: u8,
    /// The binary logarithm of the size of the real page.
    pub actual_shift: u8,
    /// The storage key, 0 to 31.
    pub key: u8,
    /// PP0, which counts 4, and PP.
    pub protection: u8,
    /// W counts 8, I 4, M 2, G 1.
    pub wimg: u8,
    /// The segment is one of 1 TB, not of 256 MB.
    pub one_tb: bool,
    /// N or G is set, so fetches are refused.
    pub no_execute: bool,
    /// The entry is bolted.
    pub bolted: bool,
    /// The entry is in its page's secondary group.
    pub secondary: bool,
    /// R.
    pub referenced: bool,
    /// C.
    pub changed: bool,
}

impl From<papr_page> for Page {
    fn from(it: papr_page) -> Page {
        Page {
            vsid: it.vsid,
            page: it.page,
            real: it.real,
            base_shift: it.base_shift,
            actual_shift: it.actual_shift,
            key: it.key,
            protection: it.protection,
            wimg: it.wimg,
            one_tb: it.one_tb,
            no_execute: it.no_execute,
            bolted: it.bolted,
            secondary: it.secondary,
            referenced: it.referenced,
            changed: it.changed,
        }
    }
}

/// The page that two doublewords translate at the index ptex of a table of 2^order bytes; the
/// doublewords are as H_READ, a receipt and a walk have them.
pub fn decode(order: u8, ptex: u64, dword0: u64, dword1: u64) -> Result<Page, NoPage> {
    // SAFETY: the function takes numbers only.
    let found = unsafe { papr_sys::papr_decode(order, ptex, dword0, dword1) };
    match (found.why as usize).checked_sub(1) {
        None => Ok(Page::from(found)),
        Some(at) => Err(REASONS[at]),
    }
}

/// What protection bits allow an access with this key: to read, and to write.
pub fn protection_rights(protection: u8, key: bool) -> Rights {
    // SAFETY: the function takes numbers only.
    Rights::from_bits(unsafe { papr_sys::papr_rights(protection, key) })
}
