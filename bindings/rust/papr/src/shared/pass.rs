//! The right of one thread to work on a table.

use super::busy::{Busy, Ended};
use super::common::{Common, Shared};
use super::errors::SplitError;
use super::seats::Seat;
use crate::answers::{ReceiptRoom, RECEIPTS};
use crate::reply::{Reply, WORDS};
use crate::table::Table;
use crate::walk::{Access, Walk};
use alloc::boxed::Box;
use core::mem::ManuallyDrop;
use papr_sys::{papr_grants, papr_pass, papr_receipt, papr_reply, papr_walk};

/// The right of one thread at a time to work on a [`SharedTable`](crate::SharedTable): its calls and
/// walks are those of [`Table`].
///
/// No call waits. If another thread is at an entry, a call is [`Busy`]: the pass keeps it with what it
/// has made, and goes on with it by [`Pass::again`]. So no operation is made twice, and the answer in
/// the end is that of the whole call.
///
/// A pass may move to another thread. Dropping it gives its share back to the table, and gives up the
/// call that it has to go on with, as [`Pass::give_up`] does.
#[derive(Debug)]
pub struct Pass {
    // The library's pass in it is neither Send nor Sync by itself.
    seat: ManuallyDrop<Box<Seat>>,
    shared: Common,
}

// SAFETY: a pass of the library may move from thread to thread, if something orders its calls; what
// moves this does.
unsafe impl Send for Pass {}

/// What a call borrows.
struct Lent {
    pass: *mut papr_pass,
    grants: *const papr_grants,
    words: *mut u64,
    receipts: *mut papr_receipt,
}

/// What belongs to a table.
impl Pass {
    /// A pass of the library as one of this table.
    pub(super) fn new(seat: Box<Seat>, shared: Common) -> Pass {
        Pass {
            seat: ManuallyDrop::new(seat),
            shared,
        }
    }

    /// What it has in common with other passes.
    pub(super) fn shared(&self) -> &Shared {
        &self.shared
    }

    /// Whether two passes are of one table.
    pub(super) fn is_of_one_table(&self, other: &Pass) -> bool {
        self.shared.is_that_of(&other.shared)
    }

    /// Whether no other pass is there.
    pub(super) fn is_alone(&mut self) -> bool {
        self.shared.alone().is_some()
    }

    /// A new pass, with one of the shares of this one.
    pub(super) fn split(&mut self) -> Result<Pass, SplitError> {
        let other = Seat::closed()?;
        // SAFETY: both passes are ours, and the other one is closed.
        match unsafe { papr_sys::papr_split(self.seat.raw(), other.raw()) } {
            papr_sys::PAPR_H_SUCCESS => Ok(Pass::new(other, self.shared.clone())),
            papr_sys::PAPR_H_NO_MEM => Err(SplitError::NoMemory),
            _ => Err(SplitError::NoShare),
        }
    }

    /// Takes back the passes that were dropped.
    pub(super) fn gather(&mut self) {
        for other in self.shared.returned.take() {
            self.seat.join(&other);
        }
    }

    /// Closes the table, if this pass is alone and has all shares.
    pub(super) fn close(&mut self) -> Option<Table> {
        self.shared.alone()?.close(&self.seat)
    }
}

/// The calls.
impl Pass {
    /// Makes a call with what it borrows.
    fn call(&mut self, made: impl FnOnce(Lent) -> papr_reply) -> Result<Reply, Busy> {
        self.call_with([0; WORDS], made)
    }

    /// Makes a call that finds these words in their places.
    fn call_with(
        &mut self,
        mut words: [u64; WORDS],
        made: impl FnOnce(Lent) -> papr_reply,
    ) -> Result<Reply, Busy> {
        let mut receipts = ReceiptRoom::default();
        let raw = made(Lent {
            pass: self.seat.raw(),
            grants: self.shared.table.grants().raw(),
            words: words.as_mut_ptr(),
            receipts: receipts.lent().0,
        });
        let reply = Reply::new(raw, words, receipts);
        match self.busy_if(raw.rc == papr_sys::PAPR_H_BUSY) {
            Some(busy) => {
                self.seat.so_far = Some(reply);
                Err(busy)
            }
            None => Ok(reply),
        }
    }

    // tests/check call-table: begin

    /// H_ENTER: puts a translation into the first empty entry of ptex's group, or with
    /// [`flags::EXACT`](crate::flags::EXACT) into entry ptex. The word is the entry's index.
    pub fn h_enter(&mut self, flags: u64, ptex: u64, pteh: u64, ptel: u64) -> Result<Reply, Busy> {
        // SAFETY: all that is lent is ours, of the given lengths, and nothing overlaps.
        self.call(|it| unsafe {
            papr_sys::papr_try_h_enter(
                it.pass,
                it.grants,
                flags,
                ptex,
                pteh,
                ptel,
                it.words,
                WORDS,
                it.receipts,
                RECEIPTS,
            )
        })
    }

    /// H_REMOVE: empties the entry. The words are its two doublewords from before.
    pub fn h_remove(&mut self, flags: u64, ptex: u64, avpn: u64) -> Result<Reply, Busy> {
        // SAFETY: all that is lent is ours, of the given lengths, and nothing overlaps.
        self.call(|it| unsafe {
            papr_sys::papr_try_h_remove(
                it.pass,
                flags,
                ptex,
                avpn,
                it.words,
                WORDS,
                it.receipts,
                RECEIPTS,
            )
        })
    }

    /// H_PROTECT: gives the entry the protection in flags. No word.
    pub fn h_protect(&mut self, flags: u64, ptex: u64, avpn: u64) -> Result<Reply, Busy> {
        // SAFETY: all that is lent is ours, of the given lengths, and nothing overlaps.
        self.call(|it| unsafe {
            papr_sys::papr_try_h_protect(
                it.pass,
                flags,
                ptex,
                avpn,
                it.words,
                WORDS,
                it.receipts,
                RECEIPTS,
            )
        })
    }

    /// H_READ: the words are the entry's two doublewords, or with
    /// [`flags::READ_4`](crate::flags::READ_4) those of four entries.
    pub fn h_read(&mut self, flags: u64, ptex: u64) -> Result<Reply, Busy> {
        // SAFETY: all that is lent is ours, of the given lengths, and nothing overlaps.
        self.call(|it| unsafe {
            papr_sys::papr_try_h_read(it.pass, flags, ptex, it.words, WORDS, it.receipts, RECEIPTS)
        })
    }

    /// H_CLEAR_REF: clears R. The word is doubleword 1 from before.
    pub fn h_clear_ref(&mut self, flags: u64, ptex: u64) -> Result<Reply, Busy> {
        // SAFETY: all that is lent is ours, of the given lengths, and nothing overlaps.
        self.call(|it| unsafe {
            papr_sys::papr_try_h_clear_ref(
                it.pass,
                flags,
                ptex,
                it.words,
                WORDS,
                it.receipts,
                RECEIPTS,
            )
        })
    }

    /// H_CLEAR_MOD: clears C. The word is doubleword 1 from before.
    pub fn h_clear_mod(&mut self, flags: u64, ptex: u64) -> Result<Reply, Busy> {
        // SAFETY: all that is lent is ours, of the given lengths, and nothing overlaps.
        self.call(|it| unsafe {
            papr_sys::papr_try_h_clear_mod(
                it.pass,
                flags,
                ptex,
                it.words,
                WORDS,
                it.receipts,
                RECEIPTS,
            )
        })
    }

    /// H_BULK_REMOVE: empties the entries of up to four pairs. The words are all eight, with a
    /// response instead of each request that was processed.
    pub fn h_bulk_remove(&mut self, pairs: &[u64; WORDS]) -> Result<Reply, Busy> {
        // SAFETY: all that is lent is ours, of the given lengths, and nothing overlaps.
        self.call(|it| unsafe {
            papr_sys::papr_try_h_bulk_remove(
                it.pass,
                pairs.as_ptr(),
                WORDS,
                it.words,
                WORDS,
                it.receipts,
                RECEIPTS,
            )
        })
    }
    // tests/check call-table: end

    /// A call by its number, with registers 4 to 11: one of those above.
    pub fn hcall(&mut self, number: u64, args: [u64; WORDS]) -> Result<Reply, Busy> {
        // SAFETY: all that is lent is ours, of the given lengths, and nothing overlaps.
        self.call_with(args, |it| unsafe {
            papr_sys::papr_try_hcall(it.pass, it.grants, number, it.words, it.receipts, RECEIPTS)
        })
    }

    /// Goes on with the call that was busy, at the same entry. The answer is that of the whole call, with
    /// the words and receipts of earlier tries; [`Error::Parameter`](crate::Error::Parameter) says that
    /// there is no such call.
    pub fn again(&mut self) -> Result<Reply, Busy> {
        // SAFETY: all that is lent is ours, of the given lengths, and nothing overlaps.
        self.call(|it| unsafe {
            papr_sys::papr_again(it.pass, it.words, WORDS, it.receipts, RECEIPTS)
        })
    }
}

/// The walk.
impl Pass {
    /// What a walk found, or why it is busy.
    fn walked(&mut self, raw: papr_walk, receipts: ReceiptRoom) -> Result<Walk, Busy> {
        match self.busy_if(raw.outcome == papr_sys::PAPR_WALK_BUSY) {
            Some(busy) => {
                let so_far = papr_reply {
                    rc: papr_sys::PAPR_H_BUSY,
                    receipts: raw.receipts,
                    ..papr_reply::default()
                };
                self.seat.so_far = Some(Reply::new(so_far, [0; WORDS], receipts));
                Err(busy)
            }
            None => Ok(Walk::new(raw, receipts)),
        }
    }

    /// Walks the page's primary and then its secondary group, up to the first entry that
    /// translates the page. An access that is allowed sets its R, and a store also its C.
    pub fn walk(&mut self, access: &Access) -> Result<Walk, Busy> {
        let mut receipts = ReceiptRoom::default();
        let (places, room) = receipts.lent();
        // SAFETY: the pass and the places are ours, as many, and nothing overlaps.
        let raw = unsafe { papr_sys::papr_try_walk(self.seat.raw(), &access.raw(), places, room) };
        self.walked(raw, receipts)
    }

    /// Goes on with the walk that was busy, at the same entry;
    /// [`Outcome::Parameter`](crate::Outcome::Parameter) says that there is no such walk.
    pub fn walk_again(&mut self) -> Result<Walk, Busy> {
        let mut receipts = ReceiptRoom::default();
        let (places, room) = receipts.lent();
        // SAFETY: the pass and the places are ours, as many, and nothing overlaps.
        let raw = unsafe { papr_sys::papr_walk_again(self.seat.raw(), places, room) };
        self.walked(raw, receipts)
    }
}

/// What is done about a call that is busy.
impl Pass {
    /// Why its call or its walk is busy, if it has one to go on with.
    pub fn busy(&self) -> Option<Busy> {
        // SAFETY: the pass is ours, and in no other call.
        Busy::of(unsafe { papr_sys::papr_held_up(self.seat.raw()) })
    }

    /// Why the call that was made now is busy, if it is.
    fn busy_if(&self, is_busy: bool) -> Option<Busy> {
        is_busy.then(|| self.busy()).flatten()
    }

    /// The words and receipts that the call or the walk has so far, if there is one to go on with.
    pub fn so_far(&self) -> Option<&Reply> {
        self.busy().and(self.seat.so_far.as_ref())
    }

    /// Gives up the call or the walk that is busy. What it has made stays made, and is the answer. It is
    /// for a processor that is reset.
    pub fn give_up(&mut self) -> Option<Reply> {
        let made = self.so_far().copied();
        // SAFETY: the pass is ours, and in no other call.
        unsafe { papr_sys::papr_give_up(self.seat.raw()) };
        made
    }

    /// Makes a call or a walk, and goes on with it until it has ended, however long that takes. After
    /// each try that was busy it calls `give_way` with the number of tries so far.
    pub fn finish_with<Answer: Ended>(
        &mut self,
        call: impl FnOnce(&mut Pass) -> Result<Answer, Busy>,
        mut give_way: impl FnMut(u64),
    ) -> Answer {
        let mut tried = call(self);
        let mut tries = 0;
        loop {
            match tried {
                Ok(answer) => return answer,
                Err(_busy) => tries += 1,
            }
            give_way(tries);
            tried = Answer::again(self);
        }
    }

    /// [`Pass::finish_with`] the waits of [`give_way`](crate::give_way).
    ///
    /// ```
    /// use papr::{Pass, SharedTable, Table};
    ///
    /// let mut shared = SharedTable::open(Table::new(18, Default::default())?, 1)?;
    /// let mut pass = shared.split()?;
    /// let reply = pass.finish(|it| it.h_read(0, 0x20));
    /// assert_eq!(reply.result(), Ok(&[0, 0][..]));
    /// # Ok::<(), Box<dyn std::error::Error>>(())
    /// ```
    #[cfg(feature = "std")]
    pub fn finish<Answer: Ended>(
        &mut self,
        call: impl FnOnce(&mut Pass) -> Result<Answer, Busy>,
    ) -> Answer {
        self.finish_with(call, super::give_way)
    }
}

impl Drop for Pass {
    fn drop(&mut self) {
        self.give_up();
        // SAFETY: nothing uses the seat of a pass that is dropped.
        let seat = unsafe { ManuallyDrop::take(&mut self.seat) };
        if seat.is_open() {
            self.shared.returned.put(seat);
        }
    }
}
