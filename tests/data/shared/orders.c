/* Larger tables: the same random calls by two passes of a shared table and by papr.h on a copy of it, on groups all over
 * the table. Both give the same receipts, and leave the same entries. */
#include "expect.h"
#include <stdlib.h>

enum { CALLS = 4000, PAGE = 12 };

static struct papr_grants grants;
static struct papr_receipt others[RECEIPTS];
static uint64_t other_words[WORDS];
static uint64_t drawn = 1;

static uint64_t draw(uint64_t below)
{
    drawn ^= drawn << 13, drawn ^= drawn >> 7, drawn ^= drawn << 17;
    return drawn % below;
}

/* A call on one of few groups, whose page has the group as the number of its segment and index 0. */
static void call(struct papr_pass *pass, struct papr_entry *copy, size_t count, uint8_t order, const uint64_t *group)
{
    uint64_t at = group[draw(8)], ptex = at * 8 + draw(8), pteh = at << 12 | 1, ptel = draw(0x10000) << PAGE | 0x12;
    uint64_t flags = draw(4);
    struct papr_access access = {.ea = draw(1 << PAGE), .vsid = at, .shift = PAGE, .want = (uint8_t)draw(3)};
    struct papr_reply one = {0}, two = {0};
    struct papr_walk here = {0}, there = {0};
    memset(receipts, 0, sizeof receipts), memset(others, 0, sizeof others);
#define BOTH(name, ...)                                                                                                \
    one = papr_try_##name(pass, __VA_ARGS__, words, WORDS, receipts, RECEIPTS),                                        \
    two = papr_##name(copy, count, order, __VA_ARGS__, other_words, WORDS, others, RECEIPTS)
    switch (draw(6)) {
    case 0: BOTH(h_remove, 0, ptex, 0); break;
    case 1: BOTH(h_protect, flags, ptex, 0); break;
    case 2: BOTH(h_read, PAPR_READ_4, ptex); break;
    case 3:
        here = papr_try_walk(pass, &access, receipts, RECEIPTS);
        there = papr_walk(copy, count, order, &access, others, RECEIPTS);
        break;
    default: BOTH(h_enter, &grants, 0, ptex, pteh, ptel); break;
    }
    IS(one.rc, two.rc);
    IS(one.receipts, two.receipts);
    IS(here.outcome, there.outcome);
    IS(here.logical, there.logical);
    IS(memcmp(receipts, others, sizeof receipts), 0);
}

static void compare(uint8_t order)
{
    size_t count = (size_t)1 << (order - 4);
    struct papr_entry *table = calloc(count, sizeof *table), *copy = calloc(count, sizeof *copy);
    struct papr_pass pass = {0}, second = {0};
    uint64_t group[8] = {0, count / 8 - 1, count / 16};
    for (int i = 3; i < 8; i++)
        group[i] = draw(count / 8);
    IS(papr_open(table, count, order, 2, &pass), PAPR_H_SUCCESS);
    IS(papr_split(&pass, &second), PAPR_H_SUCCESS);
    for (int i = 0; i < CALLS; i++)
        call(draw(2) ? &pass : &second, copy, count, order, group);
    REFUSES(papr_try_h_read(&second, 0, count, ROOM));
    IS(papr_join(&pass, &second), PAPR_H_SUCCESS);
    IS(papr_close(&pass, table, count - 1), PAPR_H_PARAMETER);
    IS(papr_close(&pass, table, count), PAPR_H_SUCCESS);
    HOLDS(is_same_table(table, copy, count));
    free(table), free(copy);
}

int main(void)
{
    struct papr_pass pass = {0};
    struct papr_entry one = {0};
    grant(&grants);
    for (uint8_t order = 22; order <= 27; order++)
        compare(order);
    IS(papr_open(&one, (size_t)1 << 13, 17, 1, &pass), PAPR_H_PARAMETER);
    IS(papr_open(&one, (size_t)1 << 31, 35, 1, &pass), PAPR_H_PARAMETER);
    HOLDS(is_closed(&pass));
    return failures ? 1 : 0;
}
