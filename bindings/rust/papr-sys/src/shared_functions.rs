//! The functions of `papr_shared.h`: calls and walks of several threads at once on one table.
//! Written from it by `tests/check declarations --write`, with its comments: change nothing here.
//!
//! The caller also ensures that a pass is all zero or as the calls left it, is never copied, and is in one
//! call at a time, that no thread ends inside a call, and that `papr_join` takes passes of one table.

use crate::shared::{papr_busy, papr_pass};
use crate::structs::{papr_access, papr_entry, papr_grants, papr_receipt, papr_reply, papr_walk};

extern "C" {
    /// Opens a table with these entries, for 1 to 64 passes, and makes `pass`, which must be
    /// closed, a pass with all shares. `PAPR_H_PARAMETER`: the pass isn't closed, the order or the
    /// count of entries or passes is out of range; `PAPR_H_NO_MEM`. The pass is then as it was.
    pub fn papr_open(
        entries: *const papr_entry,
        count: usize,
        order: u8,
        passes: u32,
        pass: *mut papr_pass,
    ) -> i64;

    /// Makes `other`, which must be closed, a new pass of the same table, with one of the shares of
    /// `pass`. `PAPR_H_PARAMETER`: `pass` is closed, or `other` isn't; `PAPR_H_RESOURCE`: `pass`
    /// has only one share; `PAPR_H_NO_MEM`. Both are then as they were.
    pub fn papr_split(pass: *mut papr_pass, other: *mut papr_pass) -> i64;

    /// Takes `other` into `pass`: its shares and what it has made; `other` is closed then.
    /// `PAPR_H_PARAMETER`: one of them is closed; `PAPR_H_BUSY`: one of them has a call to go on
    /// with. Both are then as they were.
    pub fn papr_join(pass: *mut papr_pass, other: *mut papr_pass) -> i64;

    /// Writes the entries back, frees the table, and closes the pass, which must have all shares.
    /// `PAPR_H_PARAMETER`: the pass is closed, or the count isn't that of the table;
    /// `PAPR_H_RESOURCE`: other passes have shares; `PAPR_H_BUSY`: it has a call to go on with.
    /// Nothing changes then. An entry that is another one than before is marked.
    pub fn papr_close(pass: *mut papr_pass, entries: *mut papr_entry, count: usize) -> i64;

    /// H_ENTER: puts a translation into the first empty entry of ptex's group of eight, or with
    /// `PAPR_EXACT` into entry ptex. The word is the entry's index. `PAPR_H_PARAMETER`: the index
    /// is past the table, the doublewords can't be stored, or no single grant has the page with
    /// these storage control bits. `PAPR_H_PTEG_FULL`: each entry tried is valid. Or
    /// `PAPR_H_HARDWARE`.
    ///
    /// If a call is busy, the words and receipts so far are filled in, and of H_BULK_REMOVE the
    /// eight words with the responses so far.
    pub fn papr_try_h_enter(
        pass: *mut papr_pass,
        grants: *const papr_grants,
        flags: u64,
        ptex: u64,
        pteh: u64,
        ptel: u64,
        words: *mut u64,
        words_room: usize,
        receipts: *mut papr_receipt,
        receipts_room: usize,
    ) -> papr_reply;

    /// H_REMOVE: empties the entry. The words are its two doublewords from before.
    /// `PAPR_H_PARAMETER`: the index is past the table. `PAPR_H_NOT_FOUND`: the entry is empty or
    /// fails the test. Or `PAPR_H_HARDWARE`.
    ///
    /// If a call is busy, the words and receipts so far are filled in, and of H_BULK_REMOVE the
    /// eight words with the responses so far.
    pub fn papr_try_h_remove(
        pass: *mut papr_pass,
        flags: u64,
        ptex: u64,
        avpn: u64,
        words: *mut u64,
        words_room: usize,
        receipts: *mut papr_receipt,
        receipts_room: usize,
    ) -> papr_reply;

    /// H_PROTECT: gives the entry the protection in flags. No word. Errors as for `papr_h_remove`.
    ///
    /// If a call is busy, the words and receipts so far are filled in, and of H_BULK_REMOVE the
    /// eight words with the responses so far.
    pub fn papr_try_h_protect(
        pass: *mut papr_pass,
        flags: u64,
        ptex: u64,
        avpn: u64,
        words: *mut u64,
        words_room: usize,
        receipts: *mut papr_receipt,
        receipts_room: usize,
    ) -> papr_reply;

    /// H_READ: the words are the entry's two doublewords, or with `PAPR_READ_4` those of four
    /// entries; an empty entry reads as zeros. `PAPR_H_PARAMETER`: the index is past the table.
    ///
    /// If a call is busy, the words and receipts so far are filled in, and of H_BULK_REMOVE the
    /// eight words with the responses so far.
    pub fn papr_try_h_read(
        pass: *mut papr_pass,
        flags: u64,
        ptex: u64,
        words: *mut u64,
        words_room: usize,
        receipts: *mut papr_receipt,
        receipts_room: usize,
    ) -> papr_reply;

    /// H_CLEAR_REF clears R, H_CLEAR_MOD clears C. The word is doubleword 1 from before. Errors as
    /// for `papr_h_remove`.
    ///
    /// If a call is busy, the words and receipts so far are filled in, and of H_BULK_REMOVE the
    /// eight words with the responses so far.
    pub fn papr_try_h_clear_ref(
        pass: *mut papr_pass,
        flags: u64,
        ptex: u64,
        words: *mut u64,
        words_room: usize,
        receipts: *mut papr_receipt,
        receipts_room: usize,
    ) -> papr_reply;

    /// H_CLEAR_REF clears R, H_CLEAR_MOD clears C. The word is doubleword 1 from before. Errors as
    /// for `papr_h_remove`.
    ///
    /// If a call is busy, the words and receipts so far are filled in, and of H_BULK_REMOVE the
    /// eight words with the responses so far.
    pub fn papr_try_h_clear_mod(
        pass: *mut papr_pass,
        flags: u64,
        ptex: u64,
        words: *mut u64,
        words_room: usize,
        receipts: *mut papr_receipt,
        receipts_room: usize,
    ) -> papr_reply;

    /// H_BULK_REMOVE: four pairs of words, so pairs_count is 8; with another count the answer is
    /// `PAPR_H_PARAMETER`, and there are no words. The words are all eight, with a response instead
    /// of each request that was processed. `PAPR_H_PARAMETER` at an ill-formed pair and
    /// `PAPR_H_HARDWARE` at an entry that can't change again; the entries of the pairs before it
    /// stay removed.
    ///
    /// If a call is busy, the words and receipts so far are filled in, and of H_BULK_REMOVE the
    /// eight words with the responses so far.
    pub fn papr_try_h_bulk_remove(
        pass: *mut papr_pass,
        pairs: *const u64,
        pairs_count: usize,
        words: *mut u64,
        words_room: usize,
        receipts: *mut papr_receipt,
        receipts_room: usize,
    ) -> papr_reply;

    /// A call by its number, as `papr_hcall`. If it is busy, `papr_again` takes `args` as its
    /// `words`.
    pub fn papr_try_hcall(
        pass: *mut papr_pass,
        grants: *const papr_grants,
        number: u64,
        args: *mut u64,
        receipts: *mut papr_receipt,
        receipts_room: usize,
    ) -> papr_reply;

    /// Goes on with the call of this pass that was busy. The words and receipts of the whole call,
    /// those of earlier tries too, are filled in from the first element on. `PAPR_H_PARAMETER`:
    /// there is no such call.
    pub fn papr_again(
        pass: *mut papr_pass,
        words: *mut u64,
        words_room: usize,
        receipts: *mut papr_receipt,
        receipts_room: usize,
    ) -> papr_reply;

    /// Walks the page's primary and then its secondary group, up to the first entry that translates
    /// the page. An access that is allowed sets its R, and a store also its C.
    pub fn papr_try_walk(
        pass: *mut papr_pass,
        access: *const papr_access,
        receipts: *mut papr_receipt,
        receipts_room: usize,
    ) -> papr_walk;

    /// Goes on with the walk of this pass that was busy.
    pub fn papr_walk_again(
        pass: *mut papr_pass,
        receipts: *mut papr_receipt,
        receipts_room: usize,
    ) -> papr_walk;

    /// Why the call of this pass is busy.
    pub fn papr_held_up(pass: *mut papr_pass) -> papr_busy;

    /// Gives up the call that is busy. What it has made stays made. For a processor that is reset.
    pub fn papr_give_up(pass: *mut papr_pass);
}
