/* What the parts of the replayer share: what an emulator keeps beside the library. */
#ifndef REPLAY_H
#define REPLAY_H

#include <papr.h>

enum {
    /* tests/check call-table: begin */
    H_ENTER = 0x08,
    H_REMOVE = 0x04,
    H_PROTECT = 0x18,
    H_READ = 0x0c,
    H_CLEAR_REF = 0x14,
    H_CLEAR_MOD = 0x10,
    H_BULK_REMOVE = 0x124,
    H_PUT_TCE = 0x20,
    H_GET_TCE = 0x1c,
    H_RESIZE_HPT_PREPARE = 0x36c,
    H_RESIZE_HPT_COMMIT = 0x370,
    /* tests/check call-table: end */
};

/* A cached translation: its page, and the entry that translated it, with the stamp that the entry had. */
struct cached {
    struct papr_slot page_of;   /* the segment's number, its size and its base page */
    uint64_t index;             /* of the page in the segment */
    uint32_t entry, stamp;
};

/* A processor's cache of translations (docs/MODEL.md): 32 sets of up to four, in the order of filling. */
struct cache {
    struct cached line[32][4];
    uint8_t count[32];
};

/* A table, and where it lies in the pool of page tables. Without entries it isn't there. */
struct table {
    struct papr_entry *entries;
    size_t count;
    uint8_t order;
    uint64_t place;
};

/* A DMA window: an entry for each page from the bus address base on. */
struct window {
    uint64_t liobn, base;
    size_t pages;
    struct papr_entry *entries;
};

struct guest {
    struct table current, pending;
    struct papr_resize resize;  /* what the library has to know of the pending one */
    uint32_t number;    /* tables before the current one */
    uint64_t limit, pool_base;
    uint8_t pool_order;
    struct papr_grant given[64];
    size_t given_count;
    struct papr_grants grants;
    struct papr_slb slb[64];    /* the processors' segments, their authority masks, and their caches */
    uint64_t amr[64], iamr[64];
    struct cache cache[64];
    struct window window[4];
    size_t window_count;
};

/* The cached translation of a page of this segment, if it is one still; else NULL. */
const struct cached *find_cached(const struct cache *cache, const struct papr_slot *segment, uint64_t ea,
                                 const struct papr_entry *entries);

/* After a walk of the page: what was cached of it goes, and where the access was allowed this comes last. */
void after_walk(struct cache *cache, const struct papr_slot *segment, uint64_t ea, bool allowed,
                uint32_t entry, uint32_t stamp);

/* An empty table at the lowest place that the pool has; false where there is none, or no memory. */
bool open_table(const struct guest *guest, struct table *table, uint8_t order);

/* The two resize calls, by their codes. */
int64_t prepare(struct guest *guest, uint64_t flags, uint64_t shift);
int64_t commit(struct guest *guest, uint64_t flags, uint64_t shift);

void close_tables(struct guest *guest);

/* `window LIOBN BASE PAGES`: false where memory ends. */
bool open_window(struct guest *guest, uint64_t liobn, uint64_t base, uint64_t pages);

/* A TCE call by its number, on the window that its first argument names. */
struct papr_reply call_window(struct guest *guest, uint64_t number, const uint64_t *a, uint64_t *words,
                              struct papr_receipt *made);

/* A device's access: its outcome and its receipt. */
struct papr_device access_device(struct guest *guest, uint64_t liobn, uint64_t ioba, bool write,
                                 struct papr_receipt *made);

void close_windows(struct guest *guest);

#endif
