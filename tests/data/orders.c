/* Tables of each size over memory that is made as it is touched. Random calls on a few groups of a table, the first,
 * the last and some between, are made by papr.h and by bench/plain-table.c, and all that they leave is compared. Then
 * what depends on the size alone: the page of an entry, the refusals, a resize. Writes a line for each difference. */
#define _GNU_SOURCE
#include "plain-table.h"
#include <stdio.h>
#include <string.h>
#include <sys/mman.h>

enum { GROUPS = 12, CALLS = 20000, SEGMENT = 28, PAGE = 12, AN_ENTRY = 16 };
enum { VSID = 40 }; /* bits of the number of a segment: both layouts hold them */

static int failures;

static void is(int line, const char *what, uint64_t got, uint64_t wanted)
{
    if (got != wanted && failures++ < 20)
        printf("line %d: %s is %#llx, not %#llx\n", line, what, (unsigned long long)got, (unsigned long long)wanted);
}
#define IS(got, wanted) is(__LINE__, #got, (uint64_t)(got), (uint64_t)(wanted))

struct table {
    uint8_t order;
    size_t count;
    struct papr_entry *papr, *plain;
    uint64_t group[GROUPS]; /* the primary group of the page below */
    uint64_t vsid[GROUPS];
    uint64_t page[GROUPS];  /* the page's index in its segment */
};

static struct papr_grants grants;
static uint64_t drawn = 1;

static uint64_t draw(uint64_t below)
{
    drawn ^= drawn << 13, drawn ^= drawn >> 7, drawn ^= drawn << 17;
    return drawn % below;
}

static struct papr_entry *entries_of(size_t count)
{
    void *at = mmap(NULL, count * sizeof(struct papr_entry), PROT_READ | PROT_WRITE,
                    MAP_PRIVATE | MAP_ANONYMOUS | MAP_NORESERVE, -1, 0);
    return at == MAP_FAILED ? NULL : at;
}

/* A table of this order, with a page for each of its chosen groups: the hash is the number of the segment, with the
 * page's index in its low bits. */
static bool make(struct table *t, uint8_t order)
{
    uint64_t groups = UINT64_C(1) << (order - 7);
    *t = (struct table){.order = order, .count = (size_t)1 << (order - 4)};
    t->papr = entries_of(t->count), t->plain = entries_of(t->count);
    for (int i = 0; i < GROUPS; i++) {
        t->group[i] = i == 0 ? 0 : i == 1 ? groups - 1 : i < 4 ? groups / 2 - (i & 1) : draw(groups);
        t->page[i] = draw(1 << (SEGMENT - PAGE));
        t->vsid[i] = draw(UINT64_C(1) << (VSID + 7 - order)) << (order - 7);
        t->vsid[i] |= t->group[i] ^ (t->page[i] & (groups - 1));
    }
    return t->papr && t->plain;
}

static uint64_t tag(const struct table *t, int i)
{
    return t->vsid[i] << 12 | t->page[i] >> 11 << 7;
}

static struct papr_access access_of(const struct table *t, int i)
{
    return (struct papr_access){.ea = t->page[i] << PAGE | draw(1 << PAGE), .vsid = t->vsid[i], .shift = PAGE,
                                .want = (uint8_t)draw(3), .key = draw(2)};
}

/* A random entry of a chosen group, of its primary one or of its secondary one, or an index near the table's end. */
static uint64_t index_in(const struct table *t, int i)
{
    uint64_t groups = t->count / 8, group = draw(3) ? t->group[i] : groups - 1 - t->group[i];
    return draw(20) ? group * 8 + draw(8) : t->count - 2 + draw(4);
}

static bool alike(const struct table *t)
{
    for (int i = 0; i < GROUPS; i++) {
        uint64_t one = t->group[i] * 8, other = (t->count / 8 - 1 - t->group[i]) * 8;
        if (memcmp(&t->papr[one], &t->plain[one], 8 * sizeof *t->papr) ||
            memcmp(&t->papr[other], &t->plain[other], 8 * sizeof *t->papr))
            return false;
    }
    return true;
}

/* One random call on both. Gives whether both answered and left the same; an access that hits is counted. */
static bool same(struct table *t, unsigned *hits)
{
    int i = (int)draw(GROUPS);
    uint64_t w[2][8] = {{0}}, pairs[8], ptex = index_in(t, i), avpn = draw(2) ? tag(t, i) : draw(3) << 12;
    uint64_t flags = (draw(2) ? PAPR_EXACT : 0) | (draw(3) ? 0 : PAPR_AVPN), reads = draw(2) ? PAPR_READ_4 : 0;
    uint64_t second = ptex / 8 != t->group[i], pteh = tag(t, i) | second << 1 | draw(2) << 4;
    uint64_t ptel = draw(0x10000) << PAGE | 0x10 | draw(2) << 8 | draw(4);
    struct papr_access a = access_of(t, i);
    struct papr_receipt r[2][16];
    struct papr_reply replies[2];
    struct papr_walk walks[2];
    for (int k = 0; k < 8; k++)
        pairs[k] = k & 1 ? tag(t, i) : UINT64_C(1) << 62 | draw(4) << 56 | index_in(t, (int)draw(GROUPS));
    memset(r, 0, sizeof r), memset(replies, 0, sizeof replies), memset(walks, 0, sizeof walks);
#define BOTH(into, call, ...)                                                                                          \
    into[0] = papr_##call(t->papr, t->count, t->order, __VA_ARGS__ w[0], 8, r[0], 16),                                 \
    into[1] = plain_##call(t->plain, t->count, t->order, __VA_ARGS__ w[1], 8, r[1], 16)
    switch (draw(10)) {
    case 0: BOTH(replies, h_remove, flags, ptex, avpn, ); break;
    case 1: BOTH(replies, h_protect, flags, ptex, avpn, ); break;
    case 2: BOTH(replies, h_read, reads, ptex, ); break;
    case 3: BOTH(replies, h_clear_ref, 0, ptex, ); break;
    case 4: BOTH(replies, h_clear_mod, 0, ptex, ); break;
    case 5: BOTH(replies, h_bulk_remove, pairs, 8, ); break;
    case 6: case 7:
        walks[0] = papr_walk(t->papr, t->count, t->order, &a, r[0], 16);
        walks[1] = plain_walk(t->plain, t->count, t->order, &a, r[1], 16);
        *hits += walks[0].receipts > 0 && r[0][walks[0].receipts - 1].answer == PAPR_AT;
        break;
    default: BOTH(replies, h_enter, &grants, flags, ptex, pteh | 1, ptel, ); break;
    }
    return replies[0].rc == replies[1].rc && replies[0].words == replies[1].words &&
           replies[0].receipts == replies[1].receipts && replies[0].stale == replies[1].stale &&
           !memcmp(&walks[0], &walks[1], sizeof walks[0]) && !memcmp(w[0], w[1], sizeof w[0]) &&
           !memcmp(r[0], r[1], sizeof r[0]) && alike(t);
}

/* Each valid entry of the chosen groups translates the page of its group, at its own index and at no other group's. */
static void pages(const struct table *t)
{
    for (int i = 0; i < GROUPS; i++)
        for (uint64_t at = t->group[i] * 8; at < t->group[i] * 8 + 8; at++) {
            const struct papr_entry *e = &t->papr[at];
            if (!e->valid || (e->dword0 & ~UINT64_C(0x7f)) != tag(t, i) || e->dword0 & 2)
                continue;
            struct papr_page page = papr_decode(t->order, at, e->dword0, e->dword1);
            IS(page.why, 0);
            IS(page.vsid, t->vsid[i]);
            IS(page.page, t->page[i]);
            if (t->order > 18) /* below, each bit of a group is one of the page */
                IS(papr_decode(t->order, at ^ (t->count / 2), e->dword0, e->dword1).why, 4);
        }
}

/* The entries of a group as bytes, and entries of these bytes: in both layouts, a group at either end of the table. */
static void transfers(const struct table *t)
{
    uint8_t bytes[2][8 * AN_ENTRY];
    size_t size = sizeof bytes[0];
    for (uint32_t layout = 0; layout < 2; layout++)
        for (int i = 0; i < 2; i++) {
            uint64_t first = t->group[i] * 8;
            IS(papr_export(t->papr, t->count, t->order, layout, first, 8, bytes[0], size).refusal, 0);
            memset(&t->plain[first], 0, 8 * sizeof *t->plain);
            IS(papr_import(t->plain, t->count, t->order, &grants, layout, first, 8, bytes[0], size).refusal, 0);
            IS(papr_export(t->plain, t->count, t->order, layout, first, 8, bytes[1], size).refusal, 0);
            IS(memcmp(bytes[0], bytes[1], size), 0);
        }
    IS(papr_export(t->papr, t->count, t->order, 0, t->count - 4, 8, bytes[0], size).refusal, 1);
}

/* What no table of this order, or of this count, gets. */
static void refusals(const struct table *t)
{
    uint64_t w[8];
    struct papr_receipt r[16];
    struct papr_entry before = t->papr[0];
    struct papr_access a = access_of(t, 0);
    const struct { size_t count; uint8_t order; } none[] = {
        {t->count, t->order - 1}, {t->count, t->order + 1}, {t->count - 1, t->order}, {t->count, 17}, {t->count, 35},
        {t->count, 0}, {t->count, 255}, {(size_t)1 << 13, 17}, {(size_t)1 << 31, 35},
    };
    for (size_t i = 0; i < sizeof none / sizeof *none; i++) {
        size_t count = none[i].count < t->count ? none[i].count : t->count;
        IS(papr_h_enter(t->papr, count, none[i].order, &grants, 0, 0, 0x1001, 0x12, w, 8, r, 16).rc, PAPR_H_PARAMETER);
        IS(papr_h_remove(t->papr, count, none[i].order, 0, 0, 0, w, 8, r, 16).rc, PAPR_H_PARAMETER);
        IS(papr_walk(t->papr, count, none[i].order, &a, r, 16).outcome, 3);
    }
    IS(memcmp(&before, &t->papr[0], sizeof before), 0);
    IS(papr_decode(17, 0, 1, 0).why, 5);
    IS(papr_decode(35, 0, 1, 0).why, 5);
    IS(papr_decode(t->order, t->count, 1, 0).why, 5);
    IS(papr_decode(t->order, t->count - 1, 0, 0).why, 1);
}

/* A bolted entry for each page, and a table of the next order made of them: each page is found there, in its group. */
static void resize(struct table *t, uint8_t to)
{
    struct papr_resize pending = {0};
    size_t count = (size_t)1 << (to - 4), calls = 1;
    struct papr_entry *into = entries_of(count);
    uint64_t w[8];
    struct papr_receipt r[16];
    unsigned entered = 0;
    memset(t->papr, 0, t->count * sizeof *t->papr);
    for (int i = 0; i < GROUPS; i++)
        entered += papr_h_enter(t->papr, t->count, t->order, &grants, 0, t->group[i] * 8, tag(t, i) | 0x11,
                                (uint64_t)i << PAGE | 0x12, w, 8, r, 16).rc == PAPR_H_SUCCESS;
    IS(entered, GROUPS);
    IS(papr_resize_prepare(&pending, to - 1, 0, to, into, count), PAPR_H_RESOURCE);
    IS(papr_resize_prepare(&pending, 255, 0, 35, into, count), PAPR_H_RESOURCE);
    IS(papr_resize_prepare(&pending, 255, 0, 47, into, count), PAPR_H_PARAMETER);
    while (papr_resize_prepare(&pending, to, 0, to, into, count) == PAPR_H_LONG_BUSY)
        calls++;
    IS(calls, count / 16384);
    struct papr_rehash ended = papr_resize_commit(&pending, t->papr, t->count, t->order, into, count, 0, to);
    IS(ended.rc, PAPR_H_SUCCESS);
    for (int i = 0; i < GROUPS; i++) {
        struct papr_access a = access_of(t, i);
        a.want = 0;
        struct papr_walk walk = papr_walk(into, count, to, &a, r, 16);
        uint64_t group = (t->vsid[i] ^ t->page[i]) & (count / 8 - 1);
        IS(walk.outcome, 0);
        IS(walk.logical, (uint64_t)i << PAGE | (a.ea & 0xfff));
        IS(r[walk.receipts - 1].entry / 8, group);
    }
    munmap(into, count * sizeof *into);
}

int main(void)
{
    static const uint8_t orders[] = {18, 22, 23, 24, 30, 34};
    struct papr_grant all = {0, UINT64_C(1) << 37, UINT64_C(1) << 28, false};
    IS(papr_make_grants(&all, 1, UINT64_C(1) << 36, 34, &grants).refusal, 0);
    for (size_t i = 0; i < sizeof orders / sizeof *orders; i++) {
        struct table t;
        unsigned hits = 0;
        if (!make(&t, orders[i])) {
            printf("there is no memory to be made as it is touched\n");
            return 3;
        }
        for (int call = 0; call < CALLS; call++)
            if (!same(&t, &hits) && failures++ < 20)
                printf("order %u: papr and the plain calls differ at call %d\n", t.order, call);
        IS(hits > CALLS / 100, true);
        pages(&t);
        transfers(&t);
        refusals(&t);
        if (t.order < 24)
            resize(&t, t.order + 1);
        munmap(t.papr, t.count * sizeof *t.papr), munmap(t.plain, t.count * sizeof *t.plain);
    }
    return failures ? 1 : 0;
}
