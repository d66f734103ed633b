/*
 * papr for C: the hypervisor side of the hashed page table of a paravirtual Power guest, over a
 * table in the caller's memory. The calls are those of LoPAR (page frame table access), the table and
 * its walk those of the Power ISA, versions 2.07 and 3.0, Book III (hashed page table translation).
 * Each function's contract is proved; docs/LIBRARY.md says what it states and what the caller has to
 * ensure.
 *
 * The caller owns the table and lends it for the duration of one call. Nothing is allocated, no
 * pointer is kept, and no call waits. In all calls
 *
 *   entries   is an array of `count` entries, the whole table. A guest's table of 2^order bytes has
 *             entries of 16 bytes, so `count` is 2^(order - 4). `order` is from 18 to 34: 256 KB to
 *             16 GB.
 *   ptex      is the index of an entry in the table.
 *   words     is an array of `words_room` elements for the words that a call returns in register 4
 *             and the following ones: at most 8.
 *   receipts  is an array of `receipts_room` elements for what the call did to entries, in order: at
 *             most 16. An array is filled from its first element on, as far as it goes. The answer
 *             says how many elements were filled; the others are unchanged.
 *
 * With a count or a room of 0 a pointer may be NULL.
 *
 * If the order isn't from 18 to 34, or the count isn't that of the order, the answer is
 * PAPR_H_PARAMETER, and nothing changes.
 *
 * The functions can't check these conditions, so the caller has to ensure them: one call at a time on
 * a table; no parameter's memory overlaps that of another; entries and lists of grants are all zero or
 * as the calls left them; bools are 0 or 1; and each pointer to const is to initialised memory. Pointers
 * are aligned as C aligns their types: entries, words and receipts to 8 bytes, as malloc aligns them. If
 * memory overlaps, what a call writes by one parameter may replace what it has, or writes, by another.
 *
 * A call needs at most 2 KB of stack on x86-64, and papr_make_grants 12 KB.
 */
#ifndef PAPR_H
#define PAPR_H

#include <stdbool.h>
#include <stddef.h>
#include <stdint.h>

#ifdef __cplusplus
extern "C" {
#endif

/* ---- the version */

#define PAPR_VERSION_MAJOR 0
#define PAPR_VERSION_MINOR 1
#define PAPR_VERSION_PATCH 0

/* One number, which rises with each version. */
#define PAPR_VERSION ((PAPR_VERSION_MAJOR << 16) | (PAPR_VERSION_MINOR << 8) | PAPR_VERSION_PATCH)

/* The version of the library: major, minor and patch in 16, 8 and 8 bits. It is PAPR_VERSION if header
 * and library belong together. */
uint32_t papr_version(void);

/* ---- the table */

/* One entry, in 24 bytes. All zero is an empty entry, so calloc makes an empty table. The calls write
 * entries. If the caller writes one itself, R and C (0x180) of dword1 are clear, and in an entry that
 * isn't valid both doublewords and both bits are 0. A call that changes anything else of an entry marks
 * it; papr_take_changed says which are marked. */
struct papr_entry {
    uint64_t dword0;
    uint64_t dword1;    /* with R and C clear */
    uint32_t stamp;     /* how often calls entered, removed or protected it, or cleared R or C, set or not */
    bool valid;
    bool referenced;    /* R */
    bool changed;       /* C */
    bool marked;        /* the entry was changed since its mark was last taken */
};

/* ---- what a call answers */

/* Return codes, as register 3 has them. */
enum papr_rc {
    PAPR_H_SUCCESS = 0,
    PAPR_H_BUSY = 1,            /* not all entries of the pending table are ready */
    PAPR_H_CLOSED = 2,          /* no table of the order is pending */
    PAPR_H_LONG_BUSY = 9900,    /* the next entries are ready: call again for the rest */
    PAPR_H_HARDWARE = -1,       /* the entry has changed 2^32 - 1 times, and can't change again */
    PAPR_H_FUNCTION = -2,       /* the number isn't one of a call on entries (papr_hcall) */
    PAPR_H_PARAMETER = -4,
    PAPR_H_PTEG_FULL = -6,
    PAPR_H_NOT_FOUND = -7,
    PAPR_H_NO_MEM = -9,         /* the memory that is lent isn't that of a table of the order */
    PAPR_H_RESOURCE = -16       /* the order is above the highest that is allowed */
};

/* What an entry answered: the number in a receipt. */
enum papr_answer {
    PAPR_ENTERED = 0,
    PAPR_TAKEN = 1,             /* it was valid already */
    PAPR_REMOVED = 2,
    PAPR_PROTECTED = 3,
    PAPR_WAS = 4,               /* R or C was cleared */
    PAPR_READ = 5,
    PAPR_NOTFOUND = 6,          /* it is empty, or fails the test */
    PAPR_NOMATCH = 7,           /* it doesn't translate the page of the access */
    PAPR_DENIED = 8,            /* it translates the page, and its protection refuses the access */
    PAPR_AT = 9,                /* the access is allowed, and recorded in R and C */
    PAPR_WORN = 10,             /* its stamp is at its last value */
    PAPR_MASKED = 11            /* its protection allows the access, and AMR or IAMR refuses it */
};

/* One operation on one entry. The doublewords are those from before it, so that an emulator can drop
 * the translations that it has cached of the entry. */
struct papr_receipt {
    uint64_t dword0;
    uint64_t dword1;            /* with R and C */
    uint32_t entry;
    uint32_t stamp;             /* before */
    uint8_t bits;               /* before: R counts 2, C counts 1 */
    uint8_t answer;             /* an enum papr_answer */
};

struct papr_reply {
    int64_t rc;                 /* an enum papr_rc */
    uint32_t words;             /* places filled */
    uint32_t receipts;          /* places filled */
    bool stale;                 /* a cached translation may no longer be valid: an entry was removed or
                                 * protected, or its R or C was cleared, whether or not its receipt was
                                 * written. Flush before the guest goes on. */
};

/* ---- granted memory */

/* A range of the guest's logical addresses and the machine range that it maps to, in bytes. */
struct papr_grant {
    uint64_t logical;
    uint64_t machine;
    uint64_t length;
    bool is_io;                 /* a device's registers, not main storage */
};

/* A list of grants that papr_make_grants checked and sorted. All zero is the empty list. A list whose
 * count is above 64 grants nothing. */
struct papr_grants {
    struct papr_grant grants[64];
    uint32_t count;
};

/* Why papr_make_grants refuses a list. */
enum papr_refusal {
    PAPR_GRANTED = 0,
    PAPR_GRANT_EMPTY = 1,
    PAPR_GRANT_UNALIGNED = 2,   /* an address or the length isn't a multiple of 4,096 */
    PAPR_GRANT_PAST = 3,        /* it ends above 2^60 */
    PAPR_GRANT_TOO_MANY = 4,    /* there are 64 already */
    PAPR_GRANT_OVERLAP = 5,     /* its logical or machine range overlaps another's */
    PAPR_GRANT_POOL = 6,        /* its machine range overlaps the pool of page tables */
    PAPR_POOL_ORDER = 7,        /* pool_order isn't from 18 to 34 */
    PAPR_POOL_UNALIGNED = 8,    /* pool_base isn't a multiple of 2^pool_order */
    PAPR_POOL_PAST = 9          /* the range ends above 2^60 */
};

struct papr_making {
    size_t index;               /* of the first grant that is refused */
    uint32_t refusal;           /* an enum papr_refusal */
};

/* Makes the list of `given_count` grants, which may be in any order. No grant may overlap the machine
 * range of 2^pool_order bytes from pool_base, where the hypervisor keeps page tables. If a grant is
 * refused, the list is unchanged. */
struct papr_making papr_make_grants(const struct papr_grant *given, size_t given_count,
                                    uint64_t pool_base, uint8_t pool_order,
                                    struct papr_grants *list);

struct papr_range {
    uint64_t machine;
    bool granted;
    bool is_io;
};

/* The machine range of `length` bytes from a logical address. It is granted if the length isn't 0 and
 * one grant of the list has all of them. */
struct papr_range papr_machine_of(const struct papr_grants *list, uint64_t logical, uint64_t length);

/* ---- the calls on entries */

/* Flags. Others are ignored, except by papr_h_protect, which takes PP0, key, N and PP from them. */
#define PAPR_EXACT   UINT64_C(0x8000000000)     /* H_ENTER: the named entry, and no other */
#define PAPR_READ_4  UINT64_C(0x2000000000)     /* H_READ: the aligned group of four entries */
#define PAPR_AVPN    UINT64_C(0x80000000)       /* dword0 without its low 7 bits has to be avpn */
#define PAPR_ANDCOND UINT64_C(0x40000000)       /* H_REMOVE: no bit of avpn may be set in dword0 */

/* H_ENTER: puts a translation into the first empty entry of ptex's group of eight, or with PAPR_EXACT
 * into entry ptex. The word is the entry's index. PAPR_H_PARAMETER: the index is past the table, the
 * doublewords can't be stored, or no single grant has the page with these storage control bits.
 * PAPR_H_PTEG_FULL: each entry tried is valid. Or PAPR_H_HARDWARE. */
struct papr_reply papr_h_enter(struct papr_entry *entries, size_t count, uint8_t order,
                               const struct papr_grants *grants, uint64_t flags, uint64_t ptex,
                               uint64_t pteh, uint64_t ptel, uint64_t *words, size_t words_room,
                               struct papr_receipt *receipts, size_t receipts_room);

/* H_REMOVE: empties the entry. The words are its two doublewords from before. PAPR_H_PARAMETER: the
 * index is past the table. PAPR_H_NOT_FOUND: the entry is empty or fails the test. Or
 * PAPR_H_HARDWARE. */
struct papr_reply papr_h_remove(struct papr_entry *entries, size_t count, uint8_t order,
                                uint64_t flags, uint64_t ptex, uint64_t avpn, uint64_t *words,
                                size_t words_room, struct papr_receipt *receipts,
                                size_t receipts_room);

/* H_PROTECT: gives the entry the protection in flags. No word. Errors as for papr_h_remove. */
struct papr_reply papr_h_protect(struct papr_entry *entries, size_t count, uint8_t order,
                                 uint64_t flags, uint64_t ptex, uint64_t avpn, uint64_t *words,
                                 size_t words_room, struct papr_receipt *receipts,
                                 size_t receipts_room);

/* H_READ: the words are the entry's two doublewords, or with PAPR_READ_4 those of four entries; an
 * empty entry reads as zeros. PAPR_H_PARAMETER: the index is past the table. */
struct papr_reply papr_h_read(struct papr_entry *entries, size_t count, uint8_t order,
                              uint64_t flags, uint64_t ptex, uint64_t *words, size_t words_room,
                              struct papr_receipt *receipts, size_t receipts_room);

/* H_CLEAR_REF clears R, H_CLEAR_MOD clears C. The word is doubleword 1 from before. Errors as for
 * papr_h_remove. */
struct papr_reply papr_h_clear_ref(struct papr_entry *entries, size_t count, uint8_t order,
                                   uint64_t flags, uint64_t ptex, uint64_t *words, size_t words_room,
                                   struct papr_receipt *receipts, size_t receipts_room);
struct papr_reply papr_h_clear_mod(struct papr_entry *entries, size_t count, uint8_t order,
                                   uint64_t flags, uint64_t ptex, uint64_t *words, size_t words_room,
                                   struct papr_receipt *receipts, size_t receipts_room);

/* H_BULK_REMOVE: four pairs of words, so pairs_count is 8; with another count the answer is
 * PAPR_H_PARAMETER, and there are no words. The words are all eight, with a response instead of each
 * request that was processed. PAPR_H_PARAMETER at an ill-formed pair and PAPR_H_HARDWARE at an entry
 * that can't change again; the entries of the pairs before it stay removed. */
struct papr_reply papr_h_bulk_remove(struct papr_entry *entries, size_t count, uint8_t order,
                                     const uint64_t *pairs, size_t pairs_count, uint64_t *words,
                                     size_t words_room, struct papr_receipt *receipts,
                                     size_t receipts_room);

/* A call by its number, as register 3 has it: one of those above. `args` are registers 4 to 11; the
 * words that the call gives are written over them, from args[0] on, and the others are unchanged. For
 * another number PAPR_H_FUNCTION, whatever the table is, and nothing changes. */
struct papr_reply papr_hcall(struct papr_entry *entries, size_t count, uint8_t order,
                             const struct papr_grants *grants, uint64_t number, uint64_t args[8],
                             struct papr_receipt *receipts, size_t receipts_room);

/* ---- the walk */

/* An access, in a segment that the caller has looked up. */
struct papr_access {
    uint64_t ea;                /* the effective address */
    uint64_t vsid;              /* the segment's number: 50 bits, or 38 in a segment of 1 TB */
    uint64_t amr;               /* the processor's mask for loads and stores; 0 refuses nothing */
    uint64_t iamr;              /* its mask for instruction fetches; 0 refuses nothing */
    uint8_t shift;              /* log2 of its base page: 12, 16, 24, or in one of 1 TB also 34 */
    uint8_t want;               /* 0 load, 1 store, 2 fetch */
    bool one_tb;                /* a segment of 1 TB, not of 256 MB */
    bool key;                   /* Kp in problem state, else Ks */
    bool no_execute;            /* the segment's N */
};

enum papr_outcome {
    PAPR_WALK_AT = 0,
    PAPR_WALK_DENIED = 1,       /* the entry's protection refuses the access */
    PAPR_WALK_NO_PAGE = 2,      /* no entry translates the page */
    PAPR_WALK_PARAMETER = 3,    /* an argument is out of range, or a wrong order or count; nothing changed */
    PAPR_WALK_AMR = 4,          /* AMR refuses it, for the entry's key */
    PAPR_WALK_IAMR = 5          /* IAMR refuses it, for the entry's key */
};

/* What the entry lets this processor do, and need not record: bits. A load or a fetch has to be
 * recorded in R, and a store in C; so there is no right without R, and none to write without C. */
enum papr_right {
    PAPR_MAY_EXECUTE = 1,
    PAPR_MAY_WRITE = 2,
    PAPR_MAY_READ = 4
};

/* All that refuses an access: bits. */
enum papr_cause {
    PAPR_CAUSE_PROTECTION = 1,  /* the page's protection bits, for this key */
    PAPR_CAUSE_NO_EXECUTE = 2,  /* a fetch, and the entry's N or G is set, or the segment's N */
    PAPR_CAUSE_AMR = 4,
    PAPR_CAUSE_IAMR = 8
};

/* What a walk found: all that a TLB keeps of the translation, also if it refuses the access. If no entry
 * translates the page, all is 0 except `outcome` and `receipts`. */
struct papr_walk {
    uint64_t logical;           /* the logical address at PAPR_WALK_AT, else 0 */
    uint64_t dword0;            /* of the entry that translates the page */
    uint64_t dword1;            /* as it is after the walk, with R and C */
    uint32_t entry;             /* the index of the entry */
    uint32_t outcome;           /* an enum papr_outcome */
    uint32_t receipts;          /* places filled */
    uint8_t base_shift;         /* log2 of its base page size */
    uint8_t actual_shift;       /* log2 of the size of the real page */
    uint8_t rights;             /* bits of enum papr_right, after the walk */
    uint8_t causes;             /* bits of enum papr_cause; 0 at PAPR_WALK_AT */
};

/* Walks the page's primary and then its secondary group, up to the first entry that translates the
 * page. An access that is allowed sets its R, and a store also its C. */
struct papr_walk papr_walk(struct papr_entry *entries, size_t count, uint8_t order,
                           const struct papr_access *access, struct papr_receipt *receipts,
                           size_t receipts_room);

/* What papr_walk would find, in the entries as they are: it changes none, for a debugger or a fast path.
 * `dword1` and `rights` are those without the access, and there are no receipts. */
struct papr_walk papr_probe(const struct papr_entry *entries, size_t count, uint8_t order,
                            const struct papr_access *access);

/* ---- an entry decoded */

/* Whether two doublewords translate a page at an index, or why they don't: the first of these that
 * holds, PAPR_NO_INDEX before the others. */
enum papr_decoding {
    PAPR_PAGE = 0,
    PAPR_EMPTY = 1,             /* V is clear */
    PAPR_NO_SIZE = 2,           /* the doublewords encode no page size */
    PAPR_NO_SEGMENT = 3,        /* B is above 1, or no page of that base size lies where the tag says */
    PAPR_OTHER_GROUP = 4,       /* the page's group isn't that of this index */
    PAPR_NO_INDEX = 5           /* the order or the index is out of range */
};

/* What the doublewords say. The page's own fields are 0 except at PAPR_PAGE; `real` and the sizes are 0
 * if no size is encoded; and with V clear all is 0 except `why`. */
struct papr_page {
    uint64_t vsid;              /* of the page: its segment's number */
    uint64_t page;              /* .. and the index of the base page in its segment */
    uint64_t real;              /* the logical address of the real page */
    uint8_t base_shift;         /* log2 of the base page size */
    uint8_t actual_shift;       /* log2 of the size of the real page */
    uint8_t key;                /* 0 to 31 */
    uint8_t protection;         /* PP0, which counts 4, and PP */
    uint8_t wimg;               /* W 8, I 4, M 2, G 1 */
    bool one_tb;                /* of the page: its segment is one of 1 TB */
    bool no_execute;            /* N or G is set, so fetches are refused */
    bool bolted;
    bool secondary;             /* H: it is in its page's secondary group */
    bool referenced;            /* R of dword1 */
    bool changed;               /* C of dword1 */
    uint32_t why;               /* an enum papr_decoding */
};

/* Decodes the two doublewords of an entry, as H_READ, a receipt and a walk have them, at the index ptex
 * of a table of 2^order bytes. */
struct papr_page papr_decode(uint8_t order, uint64_t ptex, uint64_t dword0, uint64_t dword1);

/* What protection bits allow an access with this key: PAPR_MAY_READ and PAPR_MAY_WRITE. Reserved bits
 * allow nothing. */
uint8_t papr_rights(uint8_t protection, bool key);

/* ---- which entries changed */

struct papr_taken {
    int64_t rc;                 /* PAPR_H_SUCCESS or PAPR_H_PARAMETER */
    uint32_t count;             /* how many indexes were written */
    uint32_t next;              /* the index from which to go on: `count` of the table, if none is left */
};

/* Says which entries were changed since their marks were last taken: writes the indexes of marked
 * entries, in ascending order from the index `first` on, until `indexes_room` elements are filled or the
 * table ends, and takes these marks. Nothing else of the entries changes. PAPR_H_PARAMETER: the entries
 * aren't a table of the order, or `first` is above their count; nothing changes. */
struct papr_taken papr_take_changed(struct papr_entry *entries, size_t count, uint8_t order,
                                    uint32_t first, uint32_t *indexes, size_t indexes_room);

/* ---- the rehash */

struct papr_rehash {
    int64_t rc;                 /* PAPR_H_SUCCESS, PAPR_H_PTEG_FULL or PAPR_H_PARAMETER */
    uint32_t first;             /* at PAPR_H_PTEG_FULL the lower of the two old indices that collide */
    uint32_t second;            /* .. the higher one */
    uint32_t target;            /* .. and their index in the new table; else all three are 0 */
    bool stale;                 /* at PAPR_H_SUCCESS: no cached translation is one of the new table */
};

/* Whether two tables share memory. No function of the library can tell: over one table, or over two that
 * overlap, papr_rehash and the resize calls answer as they do over two that are apart, and entries are
 * lost. So ask before the memory for a new table is lent for the first time. */
static inline bool papr_overlap(const struct papr_entry *entries, size_t count,
                                const struct papr_entry *into, size_t into_count)
{
    uintptr_t first = (uintptr_t)entries, second = (uintptr_t)into;
    return first < second ? (second - first) / sizeof *entries < count
                          : (first - second) / sizeof *into < into_count;
}

/* Carries the bolted entries of one table to another, as H_RESIZE_HPT_COMMIT does: each that
 * translates a page goes to that page's group there, at its old slot and at stamp 0. The old content
 * of `into` is lost; at PAPR_H_PTEG_FULL it is empty. In `into` each entry is marked that is valid then
 * or had another state than an empty one, and at PAPR_H_PTEG_FULL each. PAPR_H_PARAMETER: an order
 * isn't from 18 to 34, or a count isn't that of its order; nothing changes. */
struct papr_rehash papr_rehash(const struct papr_entry *entries, size_t count, uint8_t order,
                               struct papr_entry *into, size_t into_count, uint8_t into_order);

/* ---- the resize calls */

/* What is pending between two resize calls. All zero is nothing. The calls write it. They read as nothing
 * pending a struct whose order isn't from 18 to 34 or whose `ready` is above 2^(order - 4). Any other
 * struct, also one that no call left, is read as it is: its first `ready` entries count as empty in
 * papr_resize_prepare, whatever they have. papr_resize_commit replaces all entries. */
struct papr_resize {
    uint32_t ready;             /* entries of the pending table that are ready, from the first on */
    uint8_t order;              /* it has 2^order bytes */
    bool pending;
};

/* H_RESIZE_HPT_PREPARE with these flags and this shift; `limit` is the highest shift that is allowed.
 * Makes a table of 2^shift bytes ready in `into`, 16,384 entries at each call, which are empty then.
 * PAPR_H_SUCCESS if all are ready, else PAPR_H_LONG_BUSY. PAPR_H_PARAMETER: there is a flag, or the
 * shift isn't 0 nor from 18 to 46; PAPR_H_RESOURCE: it is above the limit or above 34; nothing changes
 * then. Shift 0 drops what is pending; a shift other than that of the pending table drops it and begins
 * a new one. PAPR_H_NO_MEM: `into_count` isn't 2^(shift - 4); nothing is pending then. The memory is
 * lent for this call only: lend the same at each call up to the commit. */
int64_t papr_resize_prepare(struct papr_resize *resize, uint8_t limit, uint64_t flags, uint64_t shift,
                            struct papr_entry *into, size_t into_count);

/* H_RESIZE_HPT_COMMIT with these flags and this shift: carries the bolted entries of the current table
 * to the pending one, as papr_rehash does. At PAPR_H_SUCCESS `into` is the current table from then on,
 * and no cached translation is valid any more. At PAPR_H_PTEG_FULL the current table stays. After both
 * nothing is pending. PAPR_H_PARAMETER: there is a flag, the shift isn't from 18 to 46, the current
 * table's order isn't from 18 to 34, or its count isn't 2^(order - 4). Then PAPR_H_CLOSED: no table of
 * that shift is pending; PAPR_H_BUSY: it isn't ready. Then PAPR_H_PARAMETER: `into_count` isn't
 * 2^(shift - 4). At these nothing changes. */
struct papr_rehash papr_resize_commit(struct papr_resize *resize, const struct papr_entry *entries,
                                      size_t count, uint8_t order, struct papr_entry *into,
                                      size_t into_count, uint64_t flags, uint64_t shift);

/* ---- segments */

/* One slot of a segment lookaside buffer. All zero is an invalid slot. The other fields of a valid slot
 * are as in papr_access. */
struct papr_slot {
    uint64_t esid;              /* upper 36 bits of its addresses; of a segment of 1 TB 24 of them count */
    uint64_t vsid;
    uint8_t shift;
    bool valid;
    bool one_tb;
    bool ks;                    /* the key of an access in privileged state */
    bool kp;                    /* the key of an access in problem state */
    bool no_execute;
};

/* The segment lookaside buffer of a processor: a slot for each number that slbmte has. */
struct papr_slb {
    struct papr_slot slots[32];
};

/* What may be wrong with the words of an slbmte. */
enum papr_slb_refusal {
    PAPR_SLB_WRITTEN = 0,
    PAPR_SLB_SLOT = 1,          /* there is no slot of that number */
    PAPR_SLB_SEGMENT_SIZE = 2,  /* B is neither 0 (256 MB) nor 1 (1 TB) */
    PAPR_SLB_PAGE_SIZE = 3      /* L and LP are no base page size of such a segment */
};

/* slbmte: writes the slot that rb names, with the segment that both words describe, or with no segment
 * if V in rb is clear. Gives an enum papr_slb_refusal; if it refuses, nothing changes. */
uint32_t papr_slb_mte(struct papr_slb *slb, uint64_t rb, uint64_t rs);

/* Makes all 32 slots invalid. */
void papr_slb_clear(struct papr_slb *slb);

/* The slot of the segment in which an effective address lies: the lowest valid slot that has it. If none
 * has it, `valid` is false. */
struct papr_slot papr_slb_find(const struct papr_slb *slb, uint64_t ea);

/* ---- DMA windows */

/* In these calls `entries` are those of a window: one for each of its `pages` pages of 4,096 bytes, the
 * first of which has the bus address `base`. All zero is a window in which nothing is set. There is such
 * a window if `base` is a multiple of 4,096, `pages` is from 1 to 16,384, and the end isn't above 2^60. */

/* H_PUT_TCE: sets the translation control entry of the page that has the bus address `ioba`, over any
 * that is there. A `tce` that permits neither a read (1) nor a write (2) empties the entry. No word. Up to
 * two receipts. PAPR_H_PARAMETER: there is no such window or page, or the `tce` permits something and no
 * single grant of main storage holds its page. PAPR_H_HARDWARE: the entry can't change again; the one
 * that was there may be gone. */
struct papr_reply papr_put_tce(struct papr_entry *entries, size_t pages, uint64_t base,
                               const struct papr_grants *grants, uint64_t ioba, uint64_t tce,
                               struct papr_receipt *receipts, size_t receipts_room);

/* H_GET_TCE: the word is the page's translation control entry, or 0 if none is set.
 * PAPR_H_PARAMETER: there is no such window or page. */
struct papr_reply papr_get_tce(struct papr_entry *entries, size_t pages, uint64_t base, uint64_t ioba,
                               uint64_t *words, size_t words_room, struct papr_receipt *receipts,
                               size_t receipts_room);

enum papr_device_outcome {
    PAPR_DEVICE_AT = 0,
    PAPR_DEVICE_DENIED = 1,     /* the page's entry doesn't permit the access, or none is set */
    PAPR_DEVICE_NO_WINDOW = 2,  /* the address lies outside the window */
    PAPR_DEVICE_UNGRANTED = 3,  /* no single grant of main storage holds the page */
    PAPR_DEVICE_PARAMETER = 4   /* there is no such window */
};

struct papr_device {
    uint64_t address;           /* the machine address; at PAPR_DEVICE_UNGRANTED the logical one, else 0 */
    uint32_t outcome;           /* an enum papr_device_outcome */
    uint32_t receipts;          /* places filled: never more than 1 */
};

/* A device's read or write at a bus address, by the page's entry, which is unchanged. */
struct papr_device papr_device(struct papr_entry *entries, size_t pages, uint64_t base,
                               const struct papr_grants *grants, uint64_t ioba, bool write,
                               struct papr_receipt *receipts, size_t receipts_room);

/* ---- entries as bytes */

/* An entry is 16 bytes: doubleword 0 and then doubleword 1 with R and C, each with its most significant
 * byte first. An empty entry is 16 zeros. The layouts are those of two versions of the Power ISA. */
enum papr_layout {
    PAPR_LAYOUT_OLD = 0,        /* version 2.07: B is in doubleword 0 */
    PAPR_LAYOUT_NEW = 1         /* version 3.0: B is in doubleword 1 */
};

/* Why no entries are transferred. */
enum papr_transfer_refusal {
    PAPR_TRANSFERRED = 0,
    PAPR_TRANSFER_ARGUMENTS = 1, /* order, count, layout, range, or too few bytes */
    PAPR_TRANSFER_UNHELD = 2,   /* the layout has no such entry */
    PAPR_TRANSFER_UNENTERED = 3 /* H_ENTER would refuse it */
};

struct papr_transfer {
    size_t index;               /* of the first entry that is refused, else 0 */
    uint32_t refusal;           /* an enum papr_transfer_refusal */
};

/* Writes `number` entries of a table, from `first` on, into the first 16 * number bytes of `out`, without
 * their stamps. If one is refused, nothing is written. */
struct papr_transfer papr_export(const struct papr_entry *entries, size_t count, uint8_t order,
                                 uint8_t layout, size_t first, size_t number, uint8_t *out,
                                 size_t out_size);

/* Reads `number` entries from bytes into a table, from `first` on. Each is what H_ENTER stores of its two
 * doublewords, at stamp 0, or empty if V is clear. The old entries are lost, and no cached translation of
 * them is valid any more. If one is refused, nothing changes: all are tried before the first is put. */
struct papr_transfer papr_import(struct papr_entry *entries, size_t count, uint8_t order,
                                 const struct papr_grants *grants, uint8_t layout, size_t first,
                                 size_t number, const uint8_t *bytes, size_t bytes_size);

/* ---- the layout of the structs, on each processor it is built for: asserted from C11 and C++11 on */

#if defined(__cplusplus) && __cplusplus >= 201103L
#define PAPR_TEST static_assert
#elif !defined(__cplusplus) && defined(__STDC_VERSION__) && __STDC_VERSION__ >= 201112L
#define PAPR_TEST _Static_assert
#endif

#ifdef PAPR_TEST
#define PAPR_SIZE(name, bytes) PAPR_TEST(sizeof(struct name) == (bytes), "the size of " #name)
#define PAPR_AT(name, field, bytes) \
    PAPR_TEST(offsetof(struct name, field) == (bytes), "the place of " #name "." #field)

PAPR_SIZE(papr_entry, 24);
PAPR_AT(papr_entry, dword0, 0);
PAPR_AT(papr_entry, dword1, 8);
PAPR_AT(papr_entry, stamp, 16);
PAPR_AT(papr_entry, valid, 20);
PAPR_AT(papr_entry, referenced, 21);
PAPR_AT(papr_entry, changed, 22);
PAPR_AT(papr_entry, marked, 23);
PAPR_SIZE(papr_receipt, 32);
PAPR_AT(papr_receipt, dword0, 0);
PAPR_AT(papr_receipt, dword1, 8);
PAPR_AT(papr_receipt, entry, 16);
PAPR_AT(papr_receipt, stamp, 20);
PAPR_AT(papr_receipt, bits, 24);
PAPR_AT(papr_receipt, answer, 25);
PAPR_SIZE(papr_reply, 24);
PAPR_AT(papr_reply, rc, 0);
PAPR_AT(papr_reply, words, 8);
PAPR_AT(papr_reply, receipts, 12);
PAPR_AT(papr_reply, stale, 16);
PAPR_SIZE(papr_grant, 32);
PAPR_AT(papr_grant, logical, 0);
PAPR_AT(papr_grant, machine, 8);
PAPR_AT(papr_grant, length, 16);
PAPR_AT(papr_grant, is_io, 24);
PAPR_SIZE(papr_grants, 2056);
PAPR_AT(papr_grants, grants, 0);
PAPR_AT(papr_grants, count, 2048);
PAPR_SIZE(papr_making, 16);
PAPR_AT(papr_making, index, 0);
PAPR_AT(papr_making, refusal, 8);
PAPR_SIZE(papr_range, 16);
PAPR_AT(papr_range, machine, 0);
PAPR_AT(papr_range, granted, 8);
PAPR_AT(papr_range, is_io, 9);
PAPR_SIZE(papr_access, 40);
PAPR_AT(papr_access, ea, 0);
PAPR_AT(papr_access, vsid, 8);
PAPR_AT(papr_access, amr, 16);
PAPR_AT(papr_access, iamr, 24);
PAPR_AT(papr_access, shift, 32);
PAPR_AT(papr_access, want, 33);
PAPR_AT(papr_access, one_tb, 34);
PAPR_AT(papr_access, key, 35);
PAPR_AT(papr_access, no_execute, 36);
PAPR_SIZE(papr_walk, 40);
PAPR_AT(papr_walk, logical, 0);
PAPR_AT(papr_walk, dword0, 8);
PAPR_AT(papr_walk, dword1, 16);
PAPR_AT(papr_walk, entry, 24);
PAPR_AT(papr_walk, outcome, 28);
PAPR_AT(papr_walk, receipts, 32);
PAPR_AT(papr_walk, base_shift, 36);
PAPR_AT(papr_walk, actual_shift, 37);
PAPR_AT(papr_walk, rights, 38);
PAPR_AT(papr_walk, causes, 39);
PAPR_SIZE(papr_page, 40);
PAPR_AT(papr_page, vsid, 0);
PAPR_AT(papr_page, page, 8);
PAPR_AT(papr_page, real, 16);
PAPR_AT(papr_page, base_shift, 24);
PAPR_AT(papr_page, actual_shift, 25);
PAPR_AT(papr_page, key, 26);
PAPR_AT(papr_page, protection, 27);
PAPR_AT(papr_page, wimg, 28);
PAPR_AT(papr_page, one_tb, 29);
PAPR_AT(papr_page, no_execute, 30);
PAPR_AT(papr_page, bolted, 31);
PAPR_AT(papr_page, secondary, 32);
PAPR_AT(papr_page, referenced, 33);
PAPR_AT(papr_page, changed, 34);
PAPR_AT(papr_page, why, 36);
PAPR_SIZE(papr_taken, 16);
PAPR_AT(papr_taken, rc, 0);
PAPR_AT(papr_taken, count, 8);
PAPR_AT(papr_taken, next, 12);
PAPR_SIZE(papr_rehash, 24);
PAPR_AT(papr_rehash, rc, 0);
PAPR_AT(papr_rehash, first, 8);
PAPR_AT(papr_rehash, second, 12);
PAPR_AT(papr_rehash, target, 16);
PAPR_AT(papr_rehash, stale, 20);
PAPR_SIZE(papr_resize, 8);
PAPR_AT(papr_resize, ready, 0);
PAPR_AT(papr_resize, order, 4);
PAPR_AT(papr_resize, pending, 5);
PAPR_SIZE(papr_slot, 24);
PAPR_AT(papr_slot, esid, 0);
PAPR_AT(papr_slot, vsid, 8);
PAPR_AT(papr_slot, shift, 16);
PAPR_AT(papr_slot, valid, 17);
PAPR_AT(papr_slot, one_tb, 18);
PAPR_AT(papr_slot, ks, 19);
PAPR_AT(papr_slot, kp, 20);
PAPR_AT(papr_slot, no_execute, 21);
PAPR_SIZE(papr_slb, 768);
PAPR_AT(papr_slb, slots, 0);
PAPR_SIZE(papr_device, 16);
PAPR_AT(papr_device, address, 0);
PAPR_AT(papr_device, outcome, 8);
PAPR_AT(papr_device, receipts, 12);
PAPR_SIZE(papr_transfer, 16);
PAPR_AT(papr_transfer, index, 0);
PAPR_AT(papr_transfer, refusal, 8);

#undef PAPR_AT
#undef PAPR_SIZE
#undef PAPR_TEST
#endif

#ifdef __cplusplus
}
#endif

#endif
