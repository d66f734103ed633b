//! The hashed page table: the calls on its entries, the walk, the rehash and the resize calls.

use crate::answers::{ReceiptRoom, RECEIPTS};
use crate::entry::{decode, Entry, NoPage, Page, Taken};
use crate::errors::{Error, NoMemory, TableError, TakeError};
use crate::grants::Grants;
use crate::memory::{copied, zeroed};
use crate::reply::{Reply, WORDS};
use crate::resize::{Collision, CommitRefused, Prepared};
use crate::transfer::{result_of, Layout, TransferRefusal, TransferRefused};
use crate::walk::{Access, Walk};
use alloc::vec::Vec;
use core::mem;
use core::ops::{Range, RangeInclusive};
use papr_sys::{papr_grants, papr_receipt, papr_reply, papr_resize};

/// The orders that a table may have.
const ORDERS: RangeInclusive<u8> = 18..=34;
/// The size of an entry in a guest's table and in an export, in bytes.
const AN_ENTRY: usize = 16;
const R: u64 = 0x100;
const C: u64 = 0x80;

/// A table of 2^order bytes with its entries, and the memory that is granted to its guest.
#[derive(Debug)]
pub struct Table {
    order: u8,
    entries: Vec<Entry>,
    grants: Grants,
    pending: papr_resize,
    pending_entries: Vec<Entry>,
}

/// What a call borrows: entries, grants, and places for words and receipts.
struct Lent {
    entries: *mut Entry,
    count: usize,
    order: u8,
    grants: *const papr_grants,
    words: *mut u64,
    receipts: *mut papr_receipt,
}

/// The empty entries of a table of this order, which a table may have.
fn empty_entries(order: u8) -> Result<Vec<Entry>, NoMemory> {
    zeroed(1 << (u32::from(order) - AN_ENTRY.ilog2()))
}

impl Table {
    /// An empty table.
    pub fn new(order: u8, grants: Grants) -> Result<Table, TableError> {
        if !ORDERS.contains(&order) {
            return Err(TableError::Order(order));
        }
        Ok(Table {
            order,
            entries: empty_entries(order)?,
            grants,
            pending: papr_resize::default(),
            pending_entries: Vec::new(),
        })
    }

    /// Another table with the same entries, also of a pending table.
    pub fn try_clone(&self) -> Result<Table, NoMemory> {
        Ok(Table {
            order: self.order,
            entries: copied(&self.entries)?,
            grants: self.grants.clone(),
            pending: self.pending,
            pending_entries: copied(&self.pending_entries)?,
        })
    }

    /// It has 2^order bytes.
    pub fn order(&self) -> u8 {
        self.order
    }

    /// Its entries.
    pub fn entries(&self) -> &[Entry] {
        &self.entries
    }

    /// Its entries, for the library to change.
    #[cfg(feature = "shared")]
    pub(crate) fn entries_mut(&mut self) -> &mut [Entry] {
        &mut self.entries
    }

    /// What is left where a table was taken out: it has no entries.
    #[cfg(feature = "shared")]
    pub(crate) fn nothing() -> Table {
        Table {
            order: 0,
            entries: Vec::new(),
            grants: Grants::default(),
            pending: papr_resize::default(),
            pending_entries: Vec::new(),
        }
    }

    /// The memory that is granted to its guest.
    pub fn grants(&self) -> &Grants {
        &self.grants
    }

    /// The page that an entry translates.
    pub fn page(&self, index: usize) -> Result<Page, NoPage> {
        let entry = self.entries.get(index).ok_or(NoPage::NoIndex)?;
        let bits = if entry.referenced { R } else { 0 } | if entry.changed { C } else { 0 };
        decode(self.order, index as u64, entry.dword0, entry.dword1 | bits)
    }

    /// Makes a call with what it borrows.
    fn call(&mut self, made: impl FnOnce(Lent) -> papr_reply) -> Reply {
        self.call_with([0; WORDS], made)
    }

    /// Makes a call that finds these words in their places.
    fn call_with(
        &mut self,
        mut words: [u64; WORDS],
        made: impl FnOnce(Lent) -> papr_reply,
    ) -> Reply {
        let mut receipts = ReceiptRoom::default();
        let raw = made(Lent {
            entries: self.entries.as_mut_ptr(),
            count: self.entries.len(),
            order: self.order,
            grants: self.grants.raw(),
            words: words.as_mut_ptr(),
            receipts: receipts.lent().0,
        });
        Reply::new(raw, words, receipts)
    }

    // tests/check call-table: begin

    /// H_ENTER: puts a translation into the first empty entry of ptex's group, or with
    /// [`flags::EXACT`](crate::flags::EXACT) into entry ptex. The word is the entry's index.
    pub fn h_enter(&mut self, flags: u64, ptex: u64, pteh: u64, ptel: u64) -> Reply {
        // SAFETY: all that is lent is ours, of the given lengths, and nothing overlaps.
        self.call(|it| unsafe {
            papr_sys::papr_h_enter(
                it.entries,
                it.count,
                it.order,
                it.grants,
                flags,
                ptex,
                pteh,
                ptel,
                it.words,
                WORDS,
                it.receipts,
                RECEIPTS,
            )
        })
    }

    /// H_REMOVE: empties the entry. The words are its two doublewords from before.
    pub fn h_remove(&mut self, flags: u64, ptex: u64, avpn: u64) -> Reply {
        // SAFETY: all that is lent is ours, of the given lengths, and nothing overlaps.
        self.call(|it| unsafe {
            papr_sys::papr_h_remove(
                it.entries,
                it.count,
                it.order,
                flags,
                ptex,
                avpn,
                it.words,
                WORDS,
                it.receipts,
                RECEIPTS,
            )
        })
    }

    /// H_PROTECT: gives the entry the protection in flags. No word.
    pub fn h_protect(&mut self, flags: u64, ptex: u64, avpn: u64) -> Reply {
        // SAFETY: all that is lent is ours, of the given lengths, and nothing overlaps.
        self.call(|it| unsafe {
            papr_sys::papr_h_protect(
                it.entries,
                it.count,
                it.order,
                flags,
                ptex,
                avpn,
                it.words,
                WORDS,
                it.receipts,
                RECEIPTS,
            )
        })
    }

    /// H_READ: the words are the entry's two doublewords, or with
    /// [`flags::READ_4`](crate::flags::READ_4) those of four entries.
    pub fn h_read(&mut self, flags: u64, ptex: u64) -> Reply {
        // SAFETY: all that is lent is ours, of the given lengths, and nothing overlaps.
        self.call(|it| unsafe {
            papr_sys::papr_h_read(
                it.entries,
                it.count,
                it.order,
                flags,
                ptex,
                it.words,
                WORDS,
                it.receipts,
                RECEIPTS,
            )
        })
    }

    /// H_CLEAR_REF: clears R. The word is doubleword 1 from before.
    pub fn h_clear_ref(&mut self, flags: u64, ptex: u64) -> Reply {
        // SAFETY: all that is lent is ours, of the given lengths, and nothing overlaps.
        self.call(|it| unsafe {
            papr_sys::papr_h_clear_ref(
                it.entries,
                it.count,
                it.order,
                flags,
                ptex,
                it.words,
                WORDS,
                it.receipts,
                RECEIPTS,
            )
        })
    }

    /// H_CLEAR_MOD: clears C. The word is doubleword 1 from before.
    pub fn h_clear_mod(&mut self, flags: u64, ptex: u64) -> Reply {
        // SAFETY: all that is lent is ours, of the given lengths, and nothing overlaps.
        self.call(|it| unsafe {
            papr_sys::papr_h_clear_mod(
                it.entries,
                it.count,
                it.order,
                flags,
                ptex,
                it.words,
                WORDS,
                it.receipts,
                RECEIPTS,
            )
        })
    }

    /// H_BULK_REMOVE: empties the entries of up to four pairs. The words are all eight, with a
    /// response instead of each request that was processed.
    pub fn h_bulk_remove(&mut self, pairs: &[u64; WORDS]) -> Reply {
        // SAFETY: all that is lent is ours, of the given lengths, and nothing overlaps.
        self.call(|it| unsafe {
            papr_sys::papr_h_bulk_remove(
                it.entries,
                it.count,
                it.order,
                pairs.as_ptr(),
                WORDS,
                it.words,
                WORDS,
                it.receipts,
                RECEIPTS,
            )
        })
    }
    // tests/check call-table: end

    /// A call by its number, with registers 4 to 11: one of those above.
    pub fn hcall(&mut self, number: u64, args: [u64; WORDS]) -> Reply {
        // SAFETY: all that is lent is ours, of the given lengths, and nothing overlaps.
        self.call_with(args, |it| unsafe {
            papr_sys::papr_hcall(
                it.entries,
                it.count,
                it.order,
                it.grants,
                number,
                it.words,
                it.receipts,
                RECEIPTS,
            )
        })
    }

    /// Walks the page's primary and then its secondary group, up to the first entry that
    /// translates the page. An access that is allowed sets its R, and a store also its C.
    pub fn walk(&mut self, access: &Access) -> Walk {
        let mut receipts = ReceiptRoom::default();
        let (places, room) = receipts.lent();
        let (entries, count) = (self.entries.as_mut_ptr(), self.entries.len());
        // SAFETY: entries and places are ours, of the given lengths, and nothing overlaps.
        let raw =
            unsafe { papr_sys::papr_walk(entries, count, self.order, &access.raw(), places, room) };
        Walk::new(raw, receipts)
    }

    /// What [`Table::walk`] would find, in the entries as they are: it changes none.
    pub fn probe(&self, access: &Access) -> Walk {
        let (entries, count) = (self.entries.as_ptr(), self.entries.len());
        // SAFETY: the entries are ours, and as many.
        let raw = unsafe { papr_sys::papr_probe(entries, count, self.order, &access.raw()) };
        Walk::new(raw, ReceiptRoom::default())
    }

    /// Carries the bolted entries to another table, whose old content is lost; if two would meet,
    /// it is empty then.
    pub fn rehash_into(&self, into: &mut Table) -> Result<(), Collision> {
        // SAFETY: both tables' entries are theirs, as many, and nothing overlaps.
        let ended = unsafe {
            papr_sys::papr_rehash(
                self.entries.as_ptr(),
                self.entries.len(),
                self.order,
                into.entries.as_mut_ptr(),
                into.entries.len(),
                into.order,
            )
        };
        match ended.rc {
            papr_sys::PAPR_H_SUCCESS => Ok(()),
            _ => Err(Collision::from(ended)),
        }
    }

    /// H_RESIZE_HPT_PREPARE with the entries of the pending table, of which there are none if none is
    /// pending: its code.
    fn prepare(&mut self, flags: u64, shift: u64, limit: u8) -> i64 {
        let into = &mut self.pending_entries;
        let (places, count) = (into.as_mut_ptr(), into.len());
        // SAFETY: the lent entries are ours, as many, and the call keeps no pointer to them.
        let code = unsafe {
            papr_sys::papr_resize_prepare(&mut self.pending, limit, flags, shift, places, count)
        };
        if !self.pending.pending {
            self.pending_entries = Vec::new();
        }
        code
    }

    /// H_RESIZE_HPT_PREPARE: makes 16,384 more entries of a pending table of 2^shift bytes ready;
    /// `limit` is the highest shift that is allowed. Shift 0 drops what is pending.
    ///
    /// Memory is taken when a table begins to be pending, and never for a call that is refused. At
    /// [`Error::NoMem`] there is none for 2^shift bytes, and nothing is pending any more.
    pub fn h_resize_hpt_prepare(
        &mut self,
        flags: u64,
        shift: u64,
        limit: u8,
    ) -> Result<Prepared, Error> {
        let mut code = self.prepare(flags, shift, limit);
        if code == papr_sys::PAPR_H_NO_MEM {
            // Nothing else is wrong: the shift is that of a table, and no such table is pending.
            self.pending_entries = empty_entries(shift as u8).unwrap_or_default();
            code = self.prepare(flags, shift, limit);
        }
        match code {
            papr_sys::PAPR_H_LONG_BUSY => Ok(Prepared::LongBusy),
            _ => Error::of_code(code).map_or(Ok(Prepared::Ready), Err),
        }
    }

    /// H_RESIZE_HPT_COMMIT: the pending table of 2^shift bytes becomes the current one, with the
    /// bolted entries. No cached translation is valid any more then.
    pub fn h_resize_hpt_commit(&mut self, flags: u64, shift: u64) -> Result<(), CommitRefused> {
        let mut into = mem::take(&mut self.pending_entries);
        // SAFETY: both tables' entries are ours, as many, and nothing overlaps.
        let ended = unsafe {
            papr_sys::papr_resize_commit(
                &mut self.pending,
                self.entries.as_ptr(),
                self.entries.len(),
                self.order,
                into.as_mut_ptr(),
                into.len(),
                flags,
                shift,
            )
        };
        match Error::of_code(ended.rc) {
            None => {
                self.order = shift as u8;
                self.entries = into;
                Ok(())
            }
            Some(Error::PtegFull) => Err(CommitRefused::Collision(Collision::from(ended))),
            Some(error) => {
                self.pending_entries = into;
                Err(CommitRefused::Error(error))
            }
        }
    }

    /// The entries from `first` on that were changed since their marks were last taken, `room` of
    /// them at most. Takes the marks of those that it tells.
    pub fn take_changed(&mut self, first: u32, room: usize) -> Result<Taken, TakeError> {
        let mut indexes = zeroed(room.min(self.entries.len()))?;
        // SAFETY: the entries and the indexes are ours, each as many, and nothing overlaps.
        let taken = unsafe {
            papr_sys::papr_take_changed(
                self.entries.as_mut_ptr(),
                self.entries.len(),
                self.order,
                first,
                indexes.as_mut_ptr(),
                indexes.len(),
            )
        };
        if taken.rc != papr_sys::PAPR_H_SUCCESS {
            return Err(TakeError::First(first));
        }
        indexes.truncate(taken.count as usize);
        let next = taken.next;
        Ok(Taken { indexes, next })
    }

    /// The entries of a range as 16 bytes each, R and C in them.
    pub fn export_entries(
        &self,
        layout: Layout,
        range: Range<usize>,
    ) -> Result<Vec<u8>, TransferRefused> {
        let index = range.start;
        let refusal = TransferRefusal::NoMemory;
        let mut out = zeroed(AN_ENTRY * range.len().min(self.entries.len()))
            .map_err(|NoMemory| TransferRefused { index, refusal })?;
        // SAFETY: the entries are ours, the bytes too, each as many, and nothing overlaps.
        let ended = unsafe {
            papr_sys::papr_export(
                self.entries.as_ptr(),
                self.entries.len(),
                self.order,
                layout as u8,
                range.start,
                range.len(),
                out.as_mut_ptr(),
                out.len(),
            )
        };
        result_of(ended).map(|()| out)
    }

    /// Reads entries of 16 bytes each into the table from `first` on: all, or none if one is
    /// refused. No cached translation of the old entries is valid any more then.
    pub fn import_entries(
        &mut self,
        layout: Layout,
        first: usize,
        bytes: &[u8],
    ) -> Result<(), TransferRefused> {
        // SAFETY: the entries are ours, and the bytes another's memory, each as many.
        let ended = unsafe {
            papr_sys::papr_import(
                self.entries.as_mut_ptr(),
                self.entries.len(),
                self.order,
                self.grants.raw(),
                layout as u8,
                first,
                bytes.len().div_ceil(AN_ENTRY),
                bytes.as_ptr(),
                bytes.len(),
            )
        };
        result_of(ended)
    }
}
