/* Random calls on one thread, on a table of the caller's by papr.h and on a shared one by papr_shared.h: both give the
 * same codes, words and receipts, and leave the same entries. Two passes of the shared table take turns. */
#include "expect.h"

enum { ROUNDS = 40, CALLS = 2000 };

static struct papr_grants grants;
static struct papr_entry serial[COUNT], shared[COUNT];
static uint64_t drawn = 1;

/* What both write, with the rooms that they have. */
struct side {
    uint64_t words[WORDS];
    struct papr_receipt receipts[RECEIPTS];
    struct papr_reply reply;
    struct papr_walk walk;
};

static uint64_t draw(uint64_t below)
{
    drawn ^= drawn << 13, drawn ^= drawn >> 7, drawn ^= drawn << 17;
    return drawn % below;
}

/* ---- that two sides are alike */

static bool is_same_reply(const struct papr_reply *a, const struct papr_reply *b)
{
    return a->rc == b->rc && a->words == b->words && a->receipts == b->receipts && a->stale == b->stale;
}

static bool is_same_walk(const struct papr_walk *a, const struct papr_walk *b)
{
    return a->logical == b->logical && a->dword0 == b->dword0 && a->dword1 == b->dword1 && a->entry == b->entry &&
           a->outcome == b->outcome && a->receipts == b->receipts && a->base_shift == b->base_shift &&
           a->actual_shift == b->actual_shift && a->rights == b->rights && a->causes == b->causes;
}

static bool is_same_receipt(const struct papr_receipt *a, const struct papr_receipt *b)
{
    return a->dword0 == b->dword0 && a->dword1 == b->dword1 && a->entry == b->entry && a->stamp == b->stamp &&
           a->bits == b->bits && a->answer == b->answer;
}

/* All of both arrays, also what no call writes. */
static bool are_alike(const struct side *a, const struct side *b)
{
    bool alike = is_same_reply(&a->reply, &b->reply) && is_same_walk(&a->walk, &b->walk);
    for (int i = 0; i < WORDS; i++)
        alike = alike && a->words[i] == b->words[i];
    for (int i = 0; i < RECEIPTS; i++)
        alike = alike && is_same_receipt(&a->receipts[i], &b->receipts[i]);
    return alike;
}

/* ---- random arguments */

struct given {
    uint64_t flags, ptex, pteh, ptel, avpn, number, pairs[8];
    struct papr_access access;
    size_t pairs_count, words, receipts;
};

static const uint64_t numbers[] = {0x04, 0x08, 0x0c, 0x10, 0x14, 0x18, 0x124, 0x1c};

static struct given given(void)
{
    static const uint64_t lows[] = {0x1000, 0x7000, 0x1000000, 0x38000, 0x8000, 0x3000, 0x2000};
    struct given g = {.ptex = draw(50) ? draw(64) : draw(COUNT + 2), .avpn = draw(3) << 12, .number = numbers[draw(8)]};
    g.flags = (draw(4) ? 0 : PAPR_EXACT | PAPR_READ_4 | PAPR_ANDCOND) ^ (draw(4) ? 0 : PAPR_AVPN) ^ draw(0x4000);
    g.pteh = draw(4) << 12 | draw(8) | (draw(20) ? 0 : draw(4) << 62);
    g.ptel = lows[draw(7)] | draw(16) << 28;
    g.ptel |= (draw(4) ? 0x10 : draw(0x1000)) | draw(2) << 63 | draw(4) | draw(4) << 7;
    g.access = (struct papr_access){.ea = draw(0x40000), .vsid = draw(3), .shift = (uint8_t)(draw(4) ? 12 : draw(40)),
                                    .want = (uint8_t)draw(4), .one_tb = !draw(6), .key = draw(2), .no_execute = !draw(4)};
    g.access.amr = draw(3) ? 0 : draw(4) << 62;
    g.access.iamr = draw(3) ? 0 : draw(4) << 62;
    for (int i = 0; i < 8; i++)
        g.pairs[i] = i % 2 ? draw(3) << 12 : (draw(9) ? UINT64_C(1) : draw(4)) << 62 | draw(4) << 56 | draw(60);
    g.pairs_count = draw(20) ? 8 : draw(8);
    g.words = draw(3) ? WORDS : draw(WORDS + 1);
    g.receipts = draw(3) ? RECEIPTS : draw(RECEIPTS + 1);
    return g;
}

/* ---- the calls */

#define TABLE serial, COUNT, ORDER
#define OF(side) (side).words, g.words, (side).receipts, g.receipts
#define BOTH(call, ...) \
    (a->reply = papr_##call(TABLE, __VA_ARGS__, OF(*a)), b->reply = papr_try_##call(pass, __VA_ARGS__, OF(*b)))

static void call_both(struct papr_pass *pass, struct side *a, struct side *b)
{
    struct given g = given();
    switch (draw(9)) {
    case 0: BOTH(h_remove, g.flags, g.ptex, g.avpn); break;
    case 1: BOTH(h_protect, g.flags, g.ptex, g.avpn); break;
    case 2: BOTH(h_read, g.flags, g.ptex); break;
    case 3: BOTH(h_clear_ref, g.flags, g.ptex); break;
    case 4: BOTH(h_clear_mod, g.flags, g.ptex); break;
    case 5: BOTH(h_bulk_remove, g.pairs, g.pairs_count); break;
    case 6:
        a->walk = papr_walk(TABLE, &g.access, a->receipts, g.receipts);
        b->walk = papr_try_walk(pass, &g.access, b->receipts, g.receipts);
        break;
    case 7: {
        uint64_t args[8] = {g.flags, g.ptex, draw(2) ? g.pteh : g.avpn, g.ptel};
        memcpy(a->words, g.number == 0x124 ? g.pairs : args, sizeof a->words);
        memcpy(b->words, a->words, sizeof b->words);
        a->reply = papr_hcall(TABLE, &grants, g.number, a->words, a->receipts, g.receipts);
        b->reply = papr_try_hcall(pass, &grants, g.number, b->words, b->receipts, g.receipts);
        break;
    }
    default: BOTH(h_enter, &grants, g.flags, g.ptex, g.pteh, g.ptel); break;
    }
}

/* A table opened with the entries of the caller's, calls on both, and the entries that both leave. */
static void round_of_calls(void)
{
    struct papr_pass pass[2] = {{0}};
    IS(papr_open(TABLE, 2, &pass[0]), PAPR_H_SUCCESS);
    IS(papr_split(&pass[0], &pass[1]), PAPR_H_SUCCESS);
    for (int i = 0; i < CALLS && !failures; i++) {
        struct side a, b;
        memset(&a, 0, sizeof a), memset(&b, 0, sizeof b);
        call_both(&pass[draw(2)], &a, &b);
        if (!are_alike(&a, &b))
            IS(i, CALLS);
    }
    IS(papr_join(&pass[1], &pass[0]), PAPR_H_SUCCESS);
    IS(papr_close(&pass[1], shared, COUNT), PAPR_H_SUCCESS);
    HOLDS(is_same_table(serial, shared, COUNT));
}

int main(void)
{
    grant(&grants);
    for (int i = 0; i < ROUNDS && !failures; i++) {
        for (int j = 0; i % 4 == 0 && j < COUNT; j++)
            serial[j] = (struct papr_entry){.stamp = j % 9 ? 0 : UINT32_MAX - 2};
        round_of_calls();
    }
    return failures ? 1 : 0;
}
