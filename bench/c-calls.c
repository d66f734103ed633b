/*
 * Measures the calls of papr_c against the same calls on the same table by hand (plain-table.c), and against bare
 * ones: these are inlined into the loop here, check neither the table nor most of the arguments, make no receipts, and
 * know pages of 4 KB alone. `bench/c-calls` builds and runs it. First random calls are made on a table of papr's and
 * on one of the plain calls', and everything that they leave is compared.
 */
#include "plain-table.h"

#include <stdio.h>
#include <stdlib.h>
#include <string.h>
#include <time.h>

#define ORDER 18
#define COUNT ((size_t)1 << (ORDER - 4))
#define CALLS 200000
#define TURNS 15

static struct papr_entry *papr, *plain, *bare;
static struct papr_grants grants;
static struct papr_grant given[64];

/* ---- the bare calls */

static const struct papr_grant *bare_grant(uint64_t at, uint64_t size)
{
    for (uint32_t i = 0; i < grants.count; i++)
        if (at >= given[i].logical && at + size <= given[i].logical + given[i].length)
            return &given[i];
    return NULL;
}

static int64_t bare_enter(uint64_t flags, uint64_t ptex, uint64_t pteh, uint64_t ptel, uint64_t *word)
{
    unsigned shift = !(pteh & 4) ? 12 : (ptel >> 12 & 15) == 1 ? 16 : 24;
    uint64_t frame = ptel & 0x0ffffffffffff000 & -(UINT64_C(1) << shift);
    const struct papr_grant *g;
    if (ptex >= COUNT || pteh >> 63 || !(g = bare_grant(frame, UINT64_C(1) << shift)))
        return -4;
    if ((ptel >> 3 & 15) != (g->is_io ? 4 : 2))
        return -4;
    size_t first = flags & PAPR_EXACT ? ptex : ptex & ~UINT64_C(7), end = first + (flags & PAPR_EXACT ? 1 : 8);
    for (size_t i = first; i < end; i++) {
        struct papr_entry *e = &bare[i];
        if (e->valid)
            continue;
        *e = (struct papr_entry){pteh | 1, ptel & ~UINT64_C(0x180), e->stamp + 1, true,
                                 ptel & 0x100, ptel & 0x80, true};
        *word = i;
        return 0;
    }
    return -6;
}

static bool bare_found(const struct papr_entry *e, uint64_t flags, uint64_t avpn)
{
    return e->valid && !(flags & PAPR_AVPN && (e->dword0 & ~UINT64_C(0x7f)) != avpn) &&
           !(flags & PAPR_ANDCOND && e->dword0 & avpn);
}

static int64_t bare_remove(uint64_t flags, uint64_t ptex, uint64_t avpn, uint64_t *words)
{
    if (ptex >= COUNT)
        return -4;
    struct papr_entry *e = &bare[ptex];
    if (!bare_found(e, flags, avpn))
        return -7;
    words[0] = e->dword0;
    words[1] = e->dword1 | (uint64_t)e->referenced << 8 | (uint64_t)e->changed << 7;
    *e = (struct papr_entry){.stamp = e->stamp + 1, .marked = true};
    return 0;
}

static int64_t bare_protect(uint64_t flags, uint64_t ptex, uint64_t avpn)
{
    if (ptex >= COUNT)
        return -4;
    struct papr_entry *e = &bare[ptex];
    if (!bare_found(e, flags & PAPR_AVPN, avpn))
        return -7;
    e->dword1 = (e->dword1 & ~UINT64_C(0xb000000000000e07)) | (flags & 7) | (flags & 0xe00) |
                (flags << 48 & UINT64_C(0xb000000000000000));
    e->stamp++;
    e->marked = true;
    return 0;
}

static int64_t bare_read(uint64_t ptex, uint64_t *words)
{
    if (ptex >= COUNT)
        return -4;
    const struct papr_entry *e = &bare[ptex];
    words[0] = e->dword0;
    words[1] = e->dword1 | (uint64_t)e->referenced << 8 | (uint64_t)e->changed << 7;
    return 0;
}

/* A load of a page of 4 KB in a segment of 256 MB. */
static uint32_t bare_walk(uint64_t vsid, uint64_t ea, uint64_t *logical)
{
    uint64_t page = ea >> 12 & 0xffff, hash = (vsid ^ page) & (COUNT / 8 - 1);
    uint64_t tag = vsid << 12 | (page >> 11 << 7);
    for (int h = 0; h < 2; h++)
        for (int i = 0; i < 8; i++) {
            struct papr_entry *e = &bare[(h ? COUNT / 8 - 1 - hash : hash) * 8 + i];
            if (e->valid && (e->dword0 & 0xffffffffffffff83) == (tag | (unsigned)h << 1 | 1) && !(e->dword0 & 4)) {
                e->marked = e->marked || !e->referenced;
                e->referenced = true;
                *logical = (e->dword1 & 0x0ffffffffffff000) | (ea & 0xfff);
                return 0;
            }
        }
    return 2;
}

/* ---- what is measured: one call of each, in turn over the table */

static uint64_t sum;

#define RUNS(side)                                                                                                     \
    static void side##_enter_remove(long i)                                                                            \
    {                                                                                                                  \
        uint64_t ptex = (uint64_t)i * 2654435761u & (COUNT - 1), at = (uint64_t)i * 4096 & 0xffff000, w[8];            \
        struct papr_receipt r[16];                                                                                     \
        sum += side##_h_enter(side, COUNT, ORDER, &grants, PAPR_EXACT, ptex, 0x1001, at | 0x12, w, 8, r, 16).rc == 0;  \
        sum += side##_h_remove(side, COUNT, ORDER, 0, ptex, 0, w, 8, r, 16).rc == 0;                                   \
    }                                                                                                                  \
    static void side##_protects(long i)                                                                                \
    {                                                                                                                  \
        uint64_t w[8];                                                                                                 \
        struct papr_receipt r[16];                                                                                     \
        sum += side##_h_protect(side, COUNT, ORDER, i & 3, 0x20, 0, w, 8, r, 16).rc == 0;                              \
    }                                                                                                                  \
    static void side##_reads(long i)                                                                                   \
    {                                                                                                                  \
        uint64_t w[8];                                                                                                 \
        struct papr_receipt r[16];                                                                                     \
        sum += side##_h_read(side, COUNT, ORDER, 0, i & (COUNT - 1), w, 8, r, 16).rc == 0;                             \
        sum += w[0];                                                                                                   \
    }                                                                                                                  \
    static void side##_bulk(long i)                                                                                    \
    {                                                                                                                  \
        uint64_t pairs[8] = {0}, w[8];                                                                                 \
        struct papr_receipt r[16];                                                                                     \
        for (int k = 0; k < 4; k++)                                                                                    \
            pairs[2 * k] = UINT64_C(1) << 62 | (((uint64_t)i + k) & (COUNT - 1));                                      \
        sum += side##_h_bulk_remove(side, COUNT, ORDER, pairs, 8, w, 8, r, 16).rc == 0;                                \
        sum += w[0];                                                                                                   \
    }                                                                                                                  \
    static void side##_walks(uint64_t ea)                                                                              \
    {                                                                                                                  \
        struct papr_access a = {.ea = ea, .vsid = 1, .shift = 12};                                                     \
        struct papr_receipt r[16];                                                                                     \
        sum += side##_walk(side, COUNT, ORDER, &a, r, 16).logical;                                                     \
    }                                                                                                                  \
    static void side##_hit(long i) { side##_walks(0x5000 | (i & 0xfff)); }                                             \
    static void side##_miss(long i) { side##_walks(0x7000 | (i & 0xfff)); }                                            \
    static void side##_probes(uint64_t ea)                                                                             \
    {                                                                                                                  \
        struct papr_access a = {.ea = ea, .vsid = 1, .shift = 12};                                                     \
        sum += side##_probe(side, COUNT, ORDER, &a).logical;                                                           \
    }                                                                                                                  \
    static void side##_probe_hit(long i) { side##_probes(0x5000 | (i & 0xfff)); }                                      \
    static void side##_probe_miss(long i) { side##_probes(0x7000 | (i & 0xfff)); }

RUNS(papr)
RUNS(plain)

static void bare_enter_remove(long i)
{
    uint64_t ptex = (uint64_t)i * 2654435761u & (COUNT - 1), w[8];
    uint64_t at = (uint64_t)i * 4096 & 0xffff000;
    sum += bare_enter(PAPR_EXACT, ptex, 0x1001, at | 0x12, w) == 0;
    sum += bare_remove(0, ptex, 0, w) == 0;
}

static void bare_protects(long i) { sum += bare_protect(i & 3, 0x20, 0) == 0; }

static void bare_reads(long i)
{
    uint64_t w[8];
    sum += bare_read(i & (COUNT - 1), w) == 0;
    sum += w[0];
}

static void bare_walks(uint64_t ea)
{
    uint64_t logical = 0;
    bare_walk(1, ea, &logical);
    sum += logical;
}

static void bare_hit(long i) { bare_walks(0x5000 | (i & 0xfff)); }
static void bare_miss(long i) { bare_walks(0x7000 | (i & 0xfff)); }

static double turn(void (*run)(long), uint64_t *answers)
{
    struct timespec a, b;
    sum = 0;
    clock_gettime(CLOCK_PROCESS_CPUTIME_ID, &a);
    for (long i = 0; i < CALLS; i++)
        run(i);
    clock_gettime(CLOCK_PROCESS_CPUTIME_ID, &b);
    *answers = sum;
    return ((b.tv_sec - a.tv_sec) * 1e9 + (b.tv_nsec - a.tv_nsec)) / CALLS;
}

static void measure(const char *name, void (*const runs[3])(long), int calls)
{
    double best[3] = {1e9, 1e9, 1e9};
    for (int i = 0; i < TURNS; i++) {
        uint64_t answers[3];
        for (int side = 0; side < 3 && runs[side]; side++) {
            double t = turn(runs[side], &answers[side]) / calls;
            best[side] = t < best[side] ? t : best[side];
        }
        if (answers[1] != answers[0] || (runs[2] && answers[2] != answers[0])) {
            printf("%s: the answers differ\n", name);
            exit(1);
        }
    }
    printf("%-24s %2u grants: papr %6.1f ns, plain %5.1f ns, %4.1f times", name, grants.count, best[0], best[1],
           best[0] / best[1]);
    if (runs[2])
        printf("; bare %5.1f ns, %4.1f times", best[2], best[0] / best[2]);
    puts("");
}

#define MEASURE(name, run, calls)                                                                                      \
    measure(name, (void (*const[3])(long)){papr_##run, plain_##run, bare_##run}, calls)

/* ---- that papr and the plain calls answer the same */

static uint64_t drawn = 1;

static uint64_t draw(uint64_t below)
{
    drawn ^= drawn << 13, drawn ^= drawn >> 7, drawn ^= drawn << 17;
    return drawn % below;
}

/* One random call on both, with little room in one of three. Gives whether both left the same. */
static bool same(void)
{
    static const uint64_t lows[] = {0x1000, 0x7000, 0x1000000, 0x38000, 0x8000, 0x3000, 0x2000};
    uint64_t w[2][8] = {{0}}, pairs[8], ptex = draw(50) ? draw(64) : draw(COUNT + 2), avpn = draw(3) << 12;
    uint64_t flags = (draw(4) ? 0 : PAPR_EXACT | PAPR_READ_4 | PAPR_ANDCOND) ^ (draw(4) ? 0 : PAPR_AVPN) ^ draw(0x4000);
    size_t words = draw(3) ? 8 : draw(9), room = draw(3) ? 16 : draw(17);
    uint8_t order = draw(50) ? ORDER : (uint8_t)draw(64);
    struct papr_receipt r[2][16];
    struct papr_reply replies[2];
    struct papr_walk walks[2];
    uint64_t pteh = draw(4) << 12 | draw(8) | (draw(20) ? 0 : draw(4) << 62);
    uint64_t ptel = lows[draw(7)] | draw(16) << 28 | (draw(4) ? 0x10 : draw(0x1000)) | draw(2) << 63 | draw(4);
    struct papr_access a = {draw(0x40000), draw(3), draw(3) ? 0 : draw(4) << 62, draw(3) ? 0 : draw(4) << 62,
                            (uint8_t)(draw(4) ? 12 : draw(40)), (uint8_t)draw(4), !draw(6), draw(2), !draw(4)};
    for (int i = 0; i < 8; i++)
        pairs[i] = i & 1 ? draw(3) << 12 : (draw(9) ? UINT64_C(1) : draw(4)) << 62 | draw(4) << 56 | draw(60);
    memset(r, 0, sizeof r), memset(replies, 0, sizeof replies), memset(walks, 0, sizeof walks);
#define BOTH(into, call, ...) into[0] = papr_##call(papr, COUNT, order, __VA_ARGS__ w[0], words, r[0], room), \
                              into[1] = plain_##call(plain, COUNT, order, __VA_ARGS__ w[1], words, r[1], room)
    switch (draw(8)) {
    case 0: BOTH(replies, h_remove, flags, ptex, avpn, ); break;
    case 1: BOTH(replies, h_protect, flags, ptex, avpn, ); break;
    case 2: BOTH(replies, h_read, flags, ptex, ); break;
    case 3: BOTH(replies, h_clear_ref, flags, ptex, ); break;
    case 4: BOTH(replies, h_clear_mod, flags, ptex, ); break;
    case 5: BOTH(replies, h_bulk_remove, pairs, 8, ); break;
    case 6:
        walks[0] = papr_probe(papr, COUNT, order, &a);
        walks[1] = plain_probe(plain, COUNT, order, &a);
        if (memcmp(&walks[0], &walks[1], sizeof walks[0]))
            return false;
        walks[0] = papr_walk(papr, COUNT, order, &a, r[0], room);
        walks[1] = plain_walk(plain, COUNT, order, &a, r[1], room);
        break;
    default: BOTH(replies, h_enter, &grants, flags, ptex, pteh, ptel, ); break;
    }
    return replies[0].rc == replies[1].rc && replies[0].words == replies[1].words &&
           replies[0].receipts == replies[1].receipts && replies[0].stale == replies[1].stale &&
           !memcmp(&walks[0], &walks[1], sizeof walks[0]) && !memcmp(w[0], w[1], sizeof w[0]) &&
           !memcmp(r[0], r[1], sizeof r[0]) && !memcmp(papr, plain, 96 * sizeof *papr);
}

static void compare(void)
{
    for (int i = 0; i < 1000000; i++) {
        if (i % 1000 == 0) {
            memset(papr, 0, COUNT * sizeof *papr), memset(plain, 0, COUNT * sizeof *plain);
            for (int j = 0; j < 64; j += 9)
                papr[j].stamp = plain[j].stamp = UINT32_MAX - 2;
        }
        if (!same()) {
            printf("papr and the plain calls differ at random call %d\n", i);
            exit(1);
        }
    }
    if (memcmp(papr, plain, COUNT * sizeof *papr))
        exit(1);
    memset(papr, 0, COUNT * sizeof *papr), memset(plain, 0, COUNT * sizeof *plain);
}

static void grant(size_t count)
{
    uint64_t length = (UINT64_C(1) << 28) / count;
    for (size_t i = 0; i < count; i++)
        given[i] = (struct papr_grant){i * length, (UINT64_C(1) << 37) + i * length, length, false};
    if (papr_make_grants(given, count, UINT64_C(1) << 36, 24, &grants).refusal)
        exit(1);
}

int main(void)
{
    uint64_t w[8];
    struct papr_receipt r[16];
    papr = calloc(COUNT, sizeof *papr), plain = calloc(COUNT, sizeof *plain), bare = calloc(COUNT, sizeof *bare);
    if (!papr || !plain || !bare)
        return 5;
    grant(2);
    compare();
    for (size_t count = 1; count <= 64; count *= 64) {
        grant(count);
        MEASURE("H_ENTER and H_REMOVE", enter_remove, 2);
    }
    papr_h_enter(papr, COUNT, ORDER, &grants, 0, 0x20, 0x1001, 0x3012, w, 8, r, 16);
    plain_h_enter(plain, COUNT, ORDER, &grants, 0, 0x20, 0x1001, 0x3012, w, 8, r, 16);
    bare_enter(0, 0x20, 0x1001, 0x3012, w);
    MEASURE("H_PROTECT", protects, 1);
    MEASURE("H_READ", reads, 1);
    MEASURE("walk that hits at once", hit, 1);
    MEASURE("walk that finds nothing", miss, 1);
    measure("probe that hits at once", (void (*const[3])(long)){papr_probe_hit, plain_probe_hit, NULL}, 1);
    measure("probe that finds nothing", (void (*const[3])(long)){papr_probe_miss, plain_probe_miss, NULL}, 1);
    measure("H_BULK_REMOVE of four", (void (*const[3])(long)){papr_bulk, plain_bulk, NULL}, 1);
    free(papr), free(plain), free(bare);
    return 0;
}
