//! The functions of `papr.h`, with its names and parameters.
//! Written from it by `tests/check declarations --write`, with its comments: change nothing here.
//!
//! The caller ensures what the header asks for: each pointer is aligned and to initialised memory of
//! the given length, no memory that a call may change overlaps that of another parameter, and entries
//! and lists are all zero or as calls left them.

use crate::structs::{
    papr_access, papr_device, papr_entry, papr_grant, papr_grants, papr_making, papr_page,
    papr_range, papr_receipt, papr_rehash, papr_reply, papr_resize, papr_slb, papr_slot,
    papr_taken, papr_transfer, papr_walk,
};

extern "C" {
    /// The version of the library: major, minor and patch in 16, 8 and 8 bits. It is `PAPR_VERSION`
    /// if header and library belong together.
    pub fn papr_version() -> u32;

    /// Makes the list of `given_count` grants, which may be in any order. No grant may overlap the
    /// machine range of 2^pool_order bytes from pool_base, where the hypervisor keeps page tables.
    /// If a grant is refused, the list is unchanged.
    pub fn papr_make_grants(
        given: *const papr_grant,
        given_count: usize,
        pool_base: u64,
        pool_order: u8,
        list: *mut papr_grants,
    ) -> papr_making;

    /// The machine range of `length` bytes from a logical address. It is granted if the length
    /// isn't 0 and one grant of the list has all of them.
    pub fn papr_machine_of(list: *const papr_grants, logical: u64, length: u64) -> papr_range;

    /// H_ENTER: puts a translation into the first empty entry of ptex's group of eight, or with
    /// `PAPR_EXACT` into entry ptex. The word is the entry's index. `PAPR_H_PARAMETER`: the index
    /// is past the table, the doublewords can't be stored, or no single grant has the page with
    /// these storage control bits. `PAPR_H_PTEG_FULL`: each entry tried is valid. Or
    /// `PAPR_H_HARDWARE`.
    pub fn papr_h_enter(
        entries: *mut papr_entry,
        count: usize,
        order: u8,
        grants: *const papr_grants,
        flags: u64,
        ptex: u64,
        pteh: u64,
        ptel: u64,
        words: *mut u64,
        words_room: usize,
        receipts: *mut papr_receipt,
        receipts_room: usize,
    ) -> papr_reply;

    /// H_REMOVE: empties the entry. The words are its two doublewords from before.
    /// `PAPR_H_PARAMETER`: the index is past the table. `PAPR_H_NOT_FOUND`: the entry is empty or
    /// fails the test. Or `PAPR_H_HARDWARE`.
    pub fn papr_h_remove(
        entries: *mut papr_entry,
        count: usize,
        order: u8,
        flags: u64,
        ptex: u64,
        avpn: u64,
        words: *mut u64,
        words_room: usize,
        receipts: *mut papr_receipt,
        receipts_room: usize,
    ) -> papr_reply;

    /// H_PROTECT: gives the entry the protection in flags. No word. Errors as for `papr_h_remove`.
    pub fn papr_h_protect(
        entries: *mut papr_entry,
        count: usize,
        order: u8,
        flags: u64,
        ptex: u64,
        avpn: u64,
        words: *mut u64,
        words_room: usize,
        receipts: *mut papr_receipt,
        receipts_room: usize,
    ) -> papr_reply;

    /// H_READ: the words are the entry's two doublewords, or with `PAPR_READ_4` those of four
    /// entries; an empty entry reads as zeros. `PAPR_H_PARAMETER`: the index is past the table.
    pub fn papr_h_read(
        entries: *mut papr_entry,
        count: usize,
        order: u8,
        flags: u64,
        ptex: u64,
        words: *mut u64,
        words_room: usize,
        receipts: *mut papr_receipt,
        receipts_room: usize,
    ) -> papr_reply;

    /// H_CLEAR_REF clears R, H_CLEAR_MOD clears C. The word is doubleword 1 from before. Errors as
    /// for `papr_h_remove`.
    pub fn papr_h_clear_ref(
        entries: *mut papr_entry,
        count: usize,
        order: u8,
        flags: u64,
        ptex: u64,
        words: *mut u64,
        words_room: usize,
        receipts: *mut papr_receipt,
        receipts_room: usize,
    ) -> papr_reply;

    /// H_CLEAR_REF clears R, H_CLEAR_MOD clears C. The word is doubleword 1 from before. Errors as
    /// for `papr_h_remove`.
    pub fn papr_h_clear_mod(
        entries: *mut papr_entry,
        count: usize,
        order: u8,
        flags: u64,
        ptex: u64,
        words: *mut u64,
        words_room: usize,
        receipts: *mut papr_receipt,
        receipts_room: usize,
    ) -> papr_reply;

    /// H_BULK_REMOVE: four pairs of words, so pairs_count is 8; with another count the answer is
    /// `PAPR_H_PARAMETER`, and there are no words. The words are all eight, with a response instead
    /// of each request that was processed. `PAPR_H_PARAMETER` at an ill-formed pair and
    /// `PAPR_H_HARDWARE` at an entry that can't change again; the entries of the pairs before it
    /// stay removed.
    pub fn papr_h_bulk_remove(
        entries: *mut papr_entry,
        count: usize,
        order: u8,
        pairs: *const u64,
        pairs_count: usize,
        words: *mut u64,
        words_room: usize,
        receipts: *mut papr_receipt,
        receipts_room: usize,
    ) -> papr_reply;

    /// A call by its number, as register 3 has it: one of those above. `args` are registers 4 to
    /// 11; the words that the call gives are written over them, from `args[0]` on, and the others
    /// are unchanged. For another number `PAPR_H_FUNCTION`, whatever the table is, and nothing
    /// changes.
    pub fn papr_hcall(
        entries: *mut papr_entry,
        count: usize,
        order: u8,
        grants: *const papr_grants,
        number: u64,
        args: *mut u64,
        receipts: *mut papr_receipt,
        receipts_room: usize,
    ) -> papr_reply;

    /// Walks the page's primary and then its secondary group, up to the first entry that translates
    /// the page. An access that is allowed sets its R, and a store also its C.
    pub fn papr_walk(
        entries: *mut papr_entry,
        count: usize,
        order: u8,
        access: *const papr_access,
        receipts: *mut papr_receipt,
        receipts_room: usize,
    ) -> papr_walk;

    /// What `papr_walk` would find, in the entries as they are: it changes none, for a debugger or
    /// a fast path. `dword1` and `rights` are those without the access, and there are no receipts.
    pub fn papr_probe(
        entries: *const papr_entry,
        count: usize,
        order: u8,
        access: *const papr_access,
    ) -> papr_walk;

    /// Decodes the two doublewords of an entry, as H_READ, a receipt and a walk have them, at the
    /// index ptex of a table of 2^order bytes.
    pub fn papr_decode(order: u8, ptex: u64, dword0: u64, dword1: u64) -> papr_page;

    /// What protection bits allow an access with this key: `PAPR_MAY_READ` and `PAPR_MAY_WRITE`.
    /// Reserved bits allow nothing.
    pub fn papr_rights(protection: u8, key: bool) -> u8;

    /// Says which entries were changed since their marks were last taken: writes the indexes of
    /// marked entries, in ascending order from the index `first` on, until `indexes_room` elements
    /// are filled or the table ends, and takes these marks. Nothing else of the entries changes.
    /// `PAPR_H_PARAMETER`: the entries aren't a table of the order, or `first` is above their
    /// count; nothing changes.
    pub fn papr_take_changed(
        entries: *mut papr_entry,
        count: usize,
        order: u8,
        first: u32,
        indexes: *mut u32,
        indexes_room: usize,
    ) -> papr_taken;

    /// Carries the bolted entries of one table to another, as H_RESIZE_HPT_COMMIT does: each that
    /// translates a page goes to that page's group there, at its old slot and at stamp 0. The old
    /// content of `into` is lost; at `PAPR_H_PTEG_FULL` it is empty. In `into` each entry is marked
    /// that is valid then or had another state than an empty one, and at `PAPR_H_PTEG_FULL` each.
    /// `PAPR_H_PARAMETER`: an order isn't from 18 to 34, or a count isn't that of its order;
    /// nothing changes.
    pub fn papr_rehash(
        entries: *const papr_entry,
        count: usize,
        order: u8,
        into: *mut papr_entry,
        into_count: usize,
        into_order: u8,
    ) -> papr_rehash;

    /// H_RESIZE_HPT_PREPARE with these flags and this shift; `limit` is the highest shift that is
    /// allowed. Makes a table of 2^shift bytes ready in `into`, 16,384 entries at each call, which
    /// are empty then. `PAPR_H_SUCCESS` if all are ready, else `PAPR_H_LONG_BUSY`.
    /// `PAPR_H_PARAMETER`: there is a flag, or the shift isn't 0 nor from 18 to 46;
    /// `PAPR_H_RESOURCE`: it is above the limit or above 34; nothing changes then. Shift 0 drops
    /// what is pending; a shift other than that of the pending table drops it and begins a new one.
    /// `PAPR_H_NO_MEM`: `into_count` isn't 2^(shift - 4); nothing is pending then. The memory is
    /// lent for this call only: lend the same at each call up to the commit.
    pub fn papr_resize_prepare(
        resize: *mut papr_resize,
        limit: u8,
        flags: u64,
        shift: u64,
        into: *mut papr_entry,
        into_count: usize,
    ) -> i64;

    /// H_RESIZE_HPT_COMMIT with these flags and this shift: carries the bolted entries of the
    /// current table to the pending one, as `papr_rehash` does. At `PAPR_H_SUCCESS` `into` is the
    /// current table from then on, and no cached translation is valid any more. At
    /// `PAPR_H_PTEG_FULL` the current table stays. After both nothing is pending.
    /// `PAPR_H_PARAMETER`: there is a flag, the shift isn't from 18 to 46, the current table's
    /// order isn't from 18 to 34, or its count isn't 2^(order - 4). Then `PAPR_H_CLOSED`: no table
    /// of that shift is pending; `PAPR_H_BUSY`: it isn't ready. Then `PAPR_H_PARAMETER`:
    /// `into_count` isn't 2^(shift - 4). At these nothing changes.
    pub fn papr_resize_commit(
        resize: *mut papr_resize,
        entries: *const papr_entry,
        count: usize,
        order: u8,
        into: *mut papr_entry,
        into_count: usize,
        flags: u64,
        shift: u64,
    ) -> papr_rehash;

    /// slbmte: writes the slot that rb names, with the segment that both words describe, or with no
    /// segment if V in rb is clear. Gives `PAPR_SLB_WRITTEN` or a following one; if it refuses,
    /// nothing changes.
    pub fn papr_slb_mte(slb: *mut papr_slb, rb: u64, rs: u64) -> u32;

    /// Makes all 32 slots invalid.
    pub fn papr_slb_clear(slb: *mut papr_slb);

    /// The slot of the segment in which an effective address lies: the lowest valid slot that has
    /// it. If none has it, `valid` is false.
    pub fn papr_slb_find(slb: *const papr_slb, ea: u64) -> papr_slot;

    /// H_PUT_TCE: sets the translation control entry of the page that has the bus address `ioba`,
    /// over any that is there. A `tce` that permits neither a read (1) nor a write (2) empties the
    /// entry. No word. Up to two receipts. `PAPR_H_PARAMETER`: there is no such window or page, or
    /// the `tce` permits something and no single grant of main storage holds its page.
    /// `PAPR_H_HARDWARE`: the entry can't change again; the one that was there may be gone.
    pub fn papr_put_tce(
        entries: *mut papr_entry,
        pages: usize,
        base: u64,
        grants: *const papr_grants,
        ioba: u64,
        tce: u64,
        receipts: *mut papr_receipt,
        receipts_room: usize,
    ) -> papr_reply;

    /// H_GET_TCE: the word is the page's translation control entry, or 0 if none is set.
    /// `PAPR_H_PARAMETER`: there is no such window or page.
    pub fn papr_get_tce(
        entries: *mut papr_entry,
        pages: usize,
        base: u64,
        ioba: u64,
        words: *mut u64,
        words_room: usize,
        receipts: *mut papr_receipt,
        receipts_room: usize,
    ) -> papr_reply;

    /// A device's read or write at a bus address, by the page's entry, which is unchanged.
    pub fn papr_device(
        entries: *mut papr_entry,
        pages: usize,
        base: u64,
        grants: *const papr_grants,
        ioba: u64,
        write: bool,
        receipts: *mut papr_receipt,
        receipts_room: usize,
    ) -> papr_device;

    /// Writes `number` entries of a table, from `first` on, into the first 16 * number bytes of
    /// `out`, without their stamps. If one is refused, nothing is written.
    pub fn papr_export(
        entries: *const papr_entry,
        count: usize,
        order: u8,
        layout: u8,
        first: usize,
        number: usize,
        out: *mut u8,
        out_size: usize,
    ) -> papr_transfer;

    /// Reads `number` entries from bytes into a table, from `first` on. Each is what H_ENTER stores
    /// of its two doublewords, at stamp 0, or empty if V is clear. The old entries are lost, and no
    /// cached translation of them is valid any more. If one is refused, nothing changes: all are
    /// tried before the first is put.
    pub fn papr_import(
        entries: *mut papr_entry,
        count: usize,
        order: u8,
        grants: *const papr_grants,
        layout: u8,
        first: usize,
        number: usize,
        bytes: *const u8,
        bytes_size: usize,
    ) -> papr_transfer;
}
