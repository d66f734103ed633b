/* What the programs for the shared table have in common: a line is written for each value that isn't the one wanted. */
#ifndef EXPECT_H
#define EXPECT_H

#include <papr_shared.h>
#include <stdio.h>
#include <string.h>

enum { ORDER = 18, COUNT = 1 << 14, WORDS = 8, RECEIPTS = 16 };

#define SENTINEL UINT64_C(0x5a5a5a5a5a5a5a5a)

static int failures;
static uint64_t words[WORDS];
static struct papr_receipt receipts[RECEIPTS];
#define ROOM words, WORDS, receipts, RECEIPTS

static inline void is(const char *file, int line, const char *what, uint64_t got, uint64_t wanted)
{
    if (got != wanted) {
        printf("%s:%d: %s is %#llx, not %#llx\n", file, line, what, (unsigned long long)got, (unsigned long long)wanted);
        failures++;
    }
}
#define IS(got, wanted) is(__FILE__, __LINE__, #got, (uint64_t)(got), (uint64_t)(wanted))
#define HOLDS(fact) IS(!(fact), false)

/* Fills both arrays, so that `are_untouched` sees what a call writes. */
static inline void fill_rooms(void)
{
    memset(words, 0x5a, sizeof words);
    memset(receipts, 0x5a, sizeof receipts);
}

static inline bool are_untouched(uint32_t words_from, uint32_t receipts_from)
{
    bool untouched = true;
    for (uint32_t i = words_from; i < WORDS; i++)
        untouched = untouched && words[i] == SENTINEL;
    for (uint32_t i = receipts_from; i < RECEIPTS; i++)
        untouched = untouched && receipts[i].dword0 == SENTINEL && receipts[i].dword1 == SENTINEL &&
                    receipts[i].entry == 0x5a5a5a5a && receipts[i].answer == 0x5a;
    return untouched;
}

/* An answer with these counts, and nothing behind them written. The rooms are to be filled before. */
#define ANSWERS(call, code, words_count, receipts_count, is_stale) \
    do { \
        fill_rooms(); \
        struct papr_reply reply = call; \
        IS(reply.rc, code); IS(reply.words, words_count); IS(reply.receipts, receipts_count); \
        IS(reply.stale, is_stale); HOLDS(are_untouched(words_count, receipts_count)); \
    } while (0)
#define REFUSES(call) ANSWERS(call, PAPR_H_PARAMETER, 0, 0, false)
#define WALK_REFUSES(call) \
    do { \
        fill_rooms(); \
        struct papr_walk walk = call; \
        IS(walk.outcome, PAPR_WALK_PARAMETER); IS(walk.receipts, 0); IS(walk.logical, 0); IS(walk.dword0, 0); \
        IS(walk.dword1, 0); IS(walk.entry, 0); HOLDS(are_untouched(0, 0)); \
    } while (0)

static inline bool is_same_pass(const struct papr_pass *one, const struct papr_pass *other)
{
    return one->at == other->at && one->live == other->live;
}

static inline bool is_closed(const struct papr_pass *pass)
{
    return !pass->at && !pass->live;
}

static inline bool is_same_entry(const struct papr_entry *one, const struct papr_entry *other)
{
    return one->dword0 == other->dword0 && one->dword1 == other->dword1 && one->stamp == other->stamp &&
           one->valid == other->valid && one->referenced == other->referenced && one->changed == other->changed;
}

static inline bool is_same_table(const struct papr_entry *one, const struct papr_entry *other, size_t count)
{
    bool same = true;
    for (size_t i = 0; i < count; i++)
        same = same && is_same_entry(&one[i], &other[i]);
    return same;
}

/* 1 GB of main storage. */
static inline void grant(struct papr_grants *grants)
{
    struct papr_grant ram = {0, UINT64_C(0x2000000000), 0x40000000, false};
    IS(papr_make_grants(&ram, 1, UINT64_C(0x1000000000), 24, grants).refusal, PAPR_GRANTED);
}

#endif
