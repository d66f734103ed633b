/* The calls of papr.h by hand: see plain-table.h. */
#include "plain-table.h"

#define R UINT64_C(0x100)
#define C UINT64_C(0x80)
#define TAG (~UINT64_C(0x7f))

/* ---- parts */

static bool is_table(size_t count, uint8_t order)
{
    return order >= 18 && order <= 34 && count == (size_t)1 << (order - 4);
}

static struct papr_reply answered(int64_t rc, uint32_t words, uint32_t receipts)
{
    return (struct papr_reply){rc, words, receipts, false};
}

/* The answer of a call that removed or protected an entry, or cleared its R or C. */
static struct papr_reply stale(uint32_t words, uint32_t receipts)
{
    return (struct papr_reply){PAPR_H_SUCCESS, words, receipts, true};
}

static uint64_t second(const struct papr_entry *e)
{
    return e->dword1 | (uint64_t)e->referenced << 8 | (uint64_t)e->changed << 7;
}

/* Puts the receipt of an answer, from before the entry changes, and counts it where it has a place. */
static uint32_t put(struct papr_receipt *receipts, size_t room, uint32_t made, const struct papr_entry *e,
                    uint32_t index, enum papr_answer answer)
{
    if (made >= room)
        return made;
    receipts[made] = (struct papr_receipt){e->dword0, second(e), index, e->stamp,
                                           (uint8_t)(e->referenced << 1 | e->changed), (uint8_t)answer};
    return made + 1;
}

static uint32_t put_words(uint64_t *words, size_t room, uint32_t count, uint64_t first, uint64_t then)
{
    if (count > 0 && room > 0)
        words[0] = first;
    if (count > 1 && room > 1)
        words[1] = then;
    return count < room ? count : (uint32_t)room;
}

struct size {
    uint8_t base, actual;
};

/* The page size of two doublewords; 0 where they encode none. */
static struct size size_of(uint64_t dword0, uint64_t dword1)
{
    uint64_t low = dword1 >> 12;
    if (!(dword0 & 4))
        return (struct size){12, 12};
    if ((low & 0xf) == 1)
        return (struct size){16, 16};
    if ((low & 0xf) == 7)
        return (struct size){12, 16};
    if ((low & 0xfff) == 0)
        return (struct size){24, 24};
    if ((low & 0xfff) == 0x38)
        return (struct size){12, 24};
    if ((low & 0xfff) == 8)
        return (struct size){16, 24};
    if ((low & 0x3fffff) == 3)
        return (struct size){34, 34};
    return (struct size){0, 0};
}

static uint64_t frame(uint64_t dword1, uint8_t actual)
{
    return dword1 & UINT64_C(0x0ffffffffffff000) & -(UINT64_C(1) << actual);
}

/* The grant that holds the whole range, by halves. */
static const struct papr_grant *grant_of(const struct papr_grants *grants, uint64_t at, uint64_t length)
{
    uint32_t low = 0, high = grants->count;
    while (low < high) {
        uint32_t middle = low + (high - low) / 2;
        if (grants->grants[middle].logical <= at)
            low = middle + 1;
        else
            high = middle;
    }
    if (!low)
        return NULL;
    const struct papr_grant *g = &grants->grants[low - 1];
    return at - g->logical <= g->length && length <= g->length - (at - g->logical) ? g : NULL;
}

static bool is_found(const struct papr_entry *e, uint64_t flags, uint64_t avpn)
{
    return e->valid && !(flags & PAPR_AVPN && (e->dword0 & TAG) != avpn) &&
           !(flags & PAPR_ANDCOND && e->dword0 & avpn);
}

/* ---- the calls on one entry */

struct papr_reply plain_h_enter(struct papr_entry *entries, size_t count, uint8_t order,
                                const struct papr_grants *grants, uint64_t flags, uint64_t ptex, uint64_t pteh,
                                uint64_t ptel, uint64_t *words, size_t words_room, struct papr_receipt *receipts,
                                size_t receipts_room)
{
    struct size size;
    const struct papr_grant *g;
    if (!is_table(count, order) || ptex >= count || pteh >> 63 || !(size = size_of(pteh, ptel)).actual ||
        !(g = grant_of(grants, frame(ptel, size.actual), UINT64_C(1) << size.actual)))
        return answered(PAPR_H_PARAMETER, 0, 0);
    unsigned wimg = ptel >> 3 & 15; /* W, I, M and G count 8, 4, 2 and 1 */
    if (g->is_io ? (wimg | 1) != 5 : wimg != 2 && wimg != 14)
        return answered(PAPR_H_PARAMETER, 0, 0);
    size_t first = flags & PAPR_EXACT ? ptex : ptex & ~UINT64_C(7), end = first + (flags & PAPR_EXACT ? 1 : 8);
    uint32_t made = 0;
    for (size_t i = first; i < end; i++) {
        struct papr_entry *e = &entries[i];
        if (e->valid) {
            made = put(receipts, receipts_room, made, e, (uint32_t)i, PAPR_TAKEN);
            continue;
        }
        if (e->stamp == UINT32_MAX)
            return answered(PAPR_H_HARDWARE, 0, put(receipts, receipts_room, made, e, (uint32_t)i, PAPR_WORN));
        made = put(receipts, receipts_room, made, e, (uint32_t)i, PAPR_ENTERED);
        *e = (struct papr_entry){(pteh & ~UINT64_C(0x60)) | 1,
                                 ptel & ~(UINT64_C(0x4000000000000000) | R | C),
                                 e->stamp + 1, true, ptel & R, ptel & C, true};
        return answered(PAPR_H_SUCCESS, put_words(words, words_room, 1, i, 0), made);
    }
    return answered(PAPR_H_PTEG_FULL, 0, made);
}

struct papr_reply plain_h_remove(struct papr_entry *entries, size_t count, uint8_t order, uint64_t flags,
                                 uint64_t ptex, uint64_t avpn, uint64_t *words, size_t words_room,
                                 struct papr_receipt *receipts, size_t receipts_room)
{
    if (!is_table(count, order) || ptex >= count)
        return answered(PAPR_H_PARAMETER, 0, 0);
    struct papr_entry *e = &entries[ptex];
    if (!is_found(e, flags, avpn))
        return answered(PAPR_H_NOT_FOUND, 0, put(receipts, receipts_room, 0, e, (uint32_t)ptex, PAPR_NOTFOUND));
    if (e->stamp == UINT32_MAX)
        return answered(PAPR_H_HARDWARE, 0, put(receipts, receipts_room, 0, e, (uint32_t)ptex, PAPR_WORN));
    uint32_t made = put(receipts, receipts_room, 0, e, (uint32_t)ptex, PAPR_REMOVED);
    uint32_t shown = put_words(words, words_room, 2, e->dword0, second(e));
    *e = (struct papr_entry){.stamp = e->stamp + 1, .marked = true};
    return stale(shown, made);
}

struct papr_reply plain_h_protect(struct papr_entry *entries, size_t count, uint8_t order, uint64_t flags,
                                  uint64_t ptex, uint64_t avpn, uint64_t *words, size_t words_room,
                                  struct papr_receipt *receipts, size_t receipts_room)
{
    (void)words, (void)words_room;
    if (!is_table(count, order) || ptex >= count)
        return answered(PAPR_H_PARAMETER, 0, 0);
    struct papr_entry *e = &entries[ptex];
    if (!is_found(e, flags & PAPR_AVPN, avpn))
        return answered(PAPR_H_NOT_FOUND, 0, put(receipts, receipts_room, 0, e, (uint32_t)ptex, PAPR_NOTFOUND));
    if (e->stamp == UINT32_MAX)
        return answered(PAPR_H_HARDWARE, 0, put(receipts, receipts_room, 0, e, (uint32_t)ptex, PAPR_WORN));
    uint32_t made = put(receipts, receipts_room, 0, e, (uint32_t)ptex, PAPR_PROTECTED);
    e->dword1 = (e->dword1 & ~UINT64_C(0xb000000000000e07)) | (flags & 0xe07) | (flags & 0x100) << 55 |
                (flags & 0x3000) << 48;
    e->stamp++;
    e->marked = true;
    return stale(0, made);
}

struct papr_reply plain_h_read(struct papr_entry *entries, size_t count, uint8_t order, uint64_t flags,
                               uint64_t ptex, uint64_t *words, size_t words_room, struct papr_receipt *receipts,
                               size_t receipts_room)
{
    if (!is_table(count, order) || ptex >= count)
        return answered(PAPR_H_PARAMETER, 0, 0);
    size_t first = flags & PAPR_READ_4 ? ptex & ~UINT64_C(3) : ptex, end = first + (flags & PAPR_READ_4 ? 4 : 1);
    uint32_t made = 0, shown = 0;
    for (size_t i = first; i < end; i++) {
        const struct papr_entry *e = &entries[i];
        made = put(receipts, receipts_room, made, e, (uint32_t)i, PAPR_READ);
        if (shown < words_room)
            words[shown++] = e->dword0;
        if (shown < words_room)
            words[shown++] = second(e);
    }
    return answered(PAPR_H_SUCCESS, shown, made);
}

static struct papr_reply cleared(struct papr_entry *entries, size_t count, uint8_t order, uint64_t ptex, bool change,
                                 uint64_t *words, size_t words_room, struct papr_receipt *receipts,
                                 size_t receipts_room)
{
    if (!is_table(count, order) || ptex >= count)
        return answered(PAPR_H_PARAMETER, 0, 0);
    struct papr_entry *e = &entries[ptex];
    if (!e->valid)
        return answered(PAPR_H_NOT_FOUND, 0, put(receipts, receipts_room, 0, e, (uint32_t)ptex, PAPR_NOTFOUND));
    if (e->stamp == UINT32_MAX)
        return answered(PAPR_H_HARDWARE, 0, put(receipts, receipts_room, 0, e, (uint32_t)ptex, PAPR_WORN));
    uint32_t made = put(receipts, receipts_room, 0, e, (uint32_t)ptex, PAPR_WAS);
    uint32_t shown = put_words(words, words_room, 1, second(e), 0);
    if (change)
        e->changed = false;
    else
        e->referenced = false;
    e->stamp++;
    e->marked = true;
    return stale(shown, made);
}

struct papr_reply plain_h_clear_ref(struct papr_entry *entries, size_t count, uint8_t order, uint64_t flags,
                                    uint64_t ptex, uint64_t *words, size_t words_room,
                                    struct papr_receipt *receipts, size_t receipts_room)
{
    (void)flags;
    return cleared(entries, count, order, ptex, false, words, words_room, receipts, receipts_room);
}

struct papr_reply plain_h_clear_mod(struct papr_entry *entries, size_t count, uint8_t order, uint64_t flags,
                                    uint64_t ptex, uint64_t *words, size_t words_room,
                                    struct papr_receipt *receipts, size_t receipts_room)
{
    (void)flags;
    return cleared(entries, count, order, ptex, true, words, words_room, receipts, receipts_room);
}

/* ---- four pairs */

struct papr_reply plain_h_bulk_remove(struct papr_entry *entries, size_t count, uint8_t order,
                                      const uint64_t *pairs, size_t pairs_count, uint64_t *words,
                                      size_t words_room, struct papr_receipt *receipts, size_t receipts_room)
{
    if (!is_table(count, order) || pairs_count != 8)
        return answered(PAPR_H_PARAMETER, 0, 0);
    int64_t rc = PAPR_H_SUCCESS;
    uint32_t made = 0, i = 0;
    bool removed = false;
    for (; i < 8 && rc == PAPR_H_SUCCESS && pairs[i] >> 62 != 3; i += 2) {
        uint64_t kept = pairs[i] & UINT64_C(0x03ffffffffffffff), index = pairs[i] << 8 >> 8, status = 0xa0;
        unsigned flags = pairs[i] >> 56 & 3;
        if (pairs[i] >> 62 != 1 || index >= count || flags == 3) {
            rc = PAPR_H_PARAMETER;
        } else {
            struct papr_entry *e = &entries[index];
            enum papr_answer answer = PAPR_REMOVED;
            if (!is_found(e, flags == 2 ? PAPR_AVPN : flags == 1 ? PAPR_ANDCOND : 0, pairs[i + 1])) {
                answer = PAPR_NOTFOUND, status = 0x90;
            } else if (e->stamp == UINT32_MAX) {
                answer = PAPR_WORN, status = 0xb0, rc = PAPR_H_HARDWARE;
            } else {
                status = 0x80u | (unsigned)e->referenced << 3 | (unsigned)e->changed << 2;
            }
            made = put(receipts, receipts_room, made, e, (uint32_t)index, answer);
            if (answer == PAPR_REMOVED) {
                *e = (struct papr_entry){.stamp = e->stamp + 1, .marked = true};
                removed = true;
            }
        }
        if (i < words_room)
            words[i] = status << 56 | kept;
        if (i + 1 < words_room)
            words[i + 1] = pairs[i + 1];
    }
    for (; i < 8 && i < words_room; i++)
        words[i] = pairs[i];
    return (struct papr_reply){rc, words_room < 8 ? (uint32_t)words_room : 8, made, removed};
}

/* ---- the walk */

/* Whether the page's protection bits let this key in. */
static bool lets_in(const struct papr_entry *e, bool key, unsigned want)
{
    unsigned pp = (unsigned)(e->dword1 >> 63) << 2 | (unsigned)(e->dword1 & 3);
    if (!key)
        return want == 1 ? pp < 3 : pp < 4 || pp == 6;
    return want == 1 ? pp == 2 : pp == 1 || pp == 2 || pp == 3;
}

/* All that refuses an access: bits of enum papr_cause. */
static unsigned causes(const struct papr_entry *e, const struct papr_access *a, unsigned want)
{
    unsigned key = (unsigned)(e->dword1 >> 60 & 3) << 3 | (unsigned)(e->dword1 >> 9 & 7), shift = 62 - 2 * key;
    unsigned found = lets_in(e, a->key, want) ? 0 : PAPR_CAUSE_PROTECTION;
    if (want == 2)
        return found | (a->no_execute || e->dword1 & 0xc ? PAPR_CAUSE_NO_EXECUTE : 0) |
               (a->iamr >> shift & 1 ? PAPR_CAUSE_IAMR : 0);
    return found | (a->amr >> shift & (want == 1 ? 2 : 1) ? PAPR_CAUSE_AMR : 0);
}

/* What the entry lets the processor do, and need not record. */
static unsigned rights(const struct papr_entry *e, const struct papr_access *a)
{
    if (!e->referenced)
        return 0;
    return (causes(e, a, 0) ? 0 : PAPR_MAY_READ) | (!e->changed || causes(e, a, 1) ? 0 : PAPR_MAY_WRITE) |
           (causes(e, a, 2) ? 0 : PAPR_MAY_EXECUTE);
}

static uint32_t outcome(unsigned found)
{
    if (!found)
        return PAPR_WALK_AT;
    if (found & (PAPR_CAUSE_PROTECTION | PAPR_CAUSE_NO_EXECUTE))
        return PAPR_WALK_DENIED;
    return found & PAPR_CAUSE_AMR ? PAPR_WALK_AMR : PAPR_WALK_IAMR;
}

/* A walk, or what one would find: then nothing is recorded. */
static inline struct papr_walk walked(struct papr_entry *entries, size_t count, uint8_t order,
                                      const struct papr_access *a, struct papr_receipt *receipts,
                                      size_t receipts_room, bool records)
{
    struct papr_walk walk = {.outcome = PAPR_WALK_PARAMETER};
    bool fits = a->shift == 12 || a->shift == 16 || a->shift == 24 || (a->one_tb && a->shift == 34);
    if (!is_table(count, order) || !fits || a->want > 2 || a->vsid >> (a->one_tb ? 38 : 50))
        return walk;
    unsigned segment = a->one_tb ? 40 : 28;
    uint64_t offset = a->ea & ((UINT64_C(1) << segment) - 1), page = offset >> a->shift;
    uint64_t tag = (a->one_tb ? UINT64_C(1) << 62 | a->vsid << 24 : a->vsid << 12) | (page << a->shift >> 23 << 7);
    uint64_t hash = (a->one_tb ? a->vsid ^ a->vsid << 25 : a->vsid) ^ page, mask = count / 8 - 1;
    for (unsigned h = 0; h < 2; h++) {
        size_t first = ((h ? ~hash : hash) & mask) * 8;
        for (size_t i = first; i < first + 8; i++) {
            struct papr_entry *e = &entries[i];
            struct size size;
            if (!e->valid || (e->dword0 & ~UINT64_C(0x7c)) != (tag | h << 1 | 1) ||
                (size = size_of(e->dword0, e->dword1)).base != a->shift) {
                walk.receipts = put(receipts, receipts_room, walk.receipts, e, (uint32_t)i, PAPR_NOMATCH);
                continue;
            }
            walk.entry = (uint32_t)i;
            walk.causes = (uint8_t)causes(e, a, a->want);
            walk.outcome = outcome(walk.causes);
            walk.receipts = put(receipts, receipts_room, walk.receipts, e, (uint32_t)i,
                                walk.outcome == PAPR_WALK_AT ? PAPR_AT
                                : walk.outcome == PAPR_WALK_DENIED ? PAPR_DENIED : PAPR_MASKED);
            if (walk.outcome == PAPR_WALK_AT) {
                if (records) {
                    bool changed = e->changed || a->want == 1;
                    e->marked = e->marked || !e->referenced || changed != e->changed;
                    e->referenced = true;
                    e->changed = changed;
                }
                walk.logical = frame(e->dword1, size.actual) | (a->ea & ((UINT64_C(1) << size.actual) - 1));
            }
            walk.dword0 = e->dword0;
            walk.dword1 = second(e);
            walk.base_shift = size.base;
            walk.actual_shift = size.actual;
            walk.rights = (uint8_t)rights(e, a);
            return walk;
        }
    }
    walk.outcome = PAPR_WALK_NO_PAGE;
    return walk;
}

struct papr_walk plain_walk(struct papr_entry *entries, size_t count, uint8_t order,
                            const struct papr_access *access, struct papr_receipt *receipts, size_t receipts_room)
{
    return walked(entries, count, order, access, receipts, receipts_room, true);
}

struct papr_walk plain_probe(const struct papr_entry *entries, size_t count, uint8_t order,
                             const struct papr_access *access)
{
    return walked((struct papr_entry *)entries, count, order, access, NULL, 0, false);
}
