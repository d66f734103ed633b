/* Each refusal of papr_shared.h but those of a call that is busy: its code, and that nothing changed. */
#include "expect.h"

#include <stdlib.h>

static struct papr_grants grants;
static struct papr_entry table[COUNT + 1], before[COUNT];
static const struct papr_access access = {.ea = 0x5000, .vsid = 1, .shift = 12};

/* Every call on a pass that refuses them all. */
static void refuses_calls(struct papr_pass *pass)
{
    uint64_t args[8] = {0, 0x20, 0x1001, 0x3012}, pairs[8] = {UINT64_C(0x4000000000000020)};
    struct papr_pass was = *pass;
    REFUSES(papr_try_h_enter(pass, &grants, 0, 0x20, 0x1001, 0x3012, ROOM));
    REFUSES(papr_try_h_remove(pass, 0, 0x20, 0, ROOM));
    REFUSES(papr_try_h_protect(pass, 0, 0x20, 0, ROOM));
    REFUSES(papr_try_h_read(pass, 0, 0x20, ROOM));
    REFUSES(papr_try_h_clear_ref(pass, 0, 0x20, ROOM));
    REFUSES(papr_try_h_clear_mod(pass, 0, 0x20, ROOM));
    REFUSES(papr_try_h_bulk_remove(pass, pairs, 8, ROOM));
    REFUSES(papr_try_hcall(pass, &grants, 8, args, receipts, RECEIPTS));
    IS(args[0], 0);
    IS(args[1], 0x20);
    REFUSES(papr_again(pass, ROOM));
    WALK_REFUSES(papr_try_walk(pass, &access, receipts, RECEIPTS));
    WALK_REFUSES(papr_walk_again(pass, receipts, RECEIPTS));
    HOLDS(is_same_pass(pass, &was));
}

static void closed_pass(void)
{
    struct papr_pass pass = {0}, other = {0};
    refuses_calls(&pass);
    IS(papr_held_up(&pass).hold, PAPR_NOT_HELD_UP);
    papr_give_up(&pass);
    IS(papr_split(&pass, &other), PAPR_H_PARAMETER);
    IS(papr_join(&pass, &other), PAPR_H_PARAMETER);
    IS(papr_close(&pass, table, COUNT), PAPR_H_PARAMETER);
    HOLDS(is_closed(&pass) && is_closed(&other) && is_same_table(table, before, COUNT));
}

static void open_with(size_t count, uint8_t order, uint32_t passes)
{
    struct papr_pass pass = {0};
    IS(papr_open(table, count, order, passes, &pass), PAPR_H_PARAMETER);
    HOLDS(is_closed(&pass));
}

static void wrong_opens(void)
{
    const size_t counts[] = {0, 1, COUNT / 2, COUNT - 1, COUNT + 1};
    const uint8_t orders[] = {0, 14, 17, 19, 22, 23, 255};
    for (size_t i = 0; i < sizeof counts / sizeof *counts; i++)
        open_with(counts[i], ORDER, 1);
    for (size_t i = 0; i < sizeof orders; i++)
        open_with(COUNT, orders[i], 1);
    open_with(COUNT / 2, 17, 1);
    open_with(COUNT, ORDER, 0);
    open_with(COUNT, ORDER, 65);
    open_with(COUNT, ORDER, UINT32_MAX);
}

/* Every order, with the fewest and the most passes. */
static void right_opens(void)
{
    for (uint8_t order = 18; order <= 22; order++) {
        size_t count = (size_t)1 << (order - 4);
        struct papr_entry *large = calloc(count, sizeof *large);
        struct papr_pass pass = {0};
        HOLDS(large);
        IS(papr_open(large, count, order, order % 2 ? 1 : 64, &pass), PAPR_H_SUCCESS);
        HOLDS(pass.live);
        ANSWERS(papr_try_h_read(&pass, 0, count - 1, ROOM), PAPR_H_SUCCESS, 2, 1, false);
        REFUSES(papr_try_h_read(&pass, 0, count, ROOM));
        IS(papr_close(&pass, large, count), PAPR_H_SUCCESS);
        HOLDS(is_closed(&pass));
        free(large);
    }
}

/* An open pass is neither opened again nor made by a split. */
static void open_passes(void)
{
    struct papr_pass pass = {0}, other = {0}, was, other_was;
    IS(papr_open(table, COUNT, ORDER, 2, &pass), PAPR_H_SUCCESS);
    was = pass;
    IS(papr_open(table, COUNT, ORDER, 2, &pass), PAPR_H_PARAMETER);
    HOLDS(is_same_pass(&pass, &was));
    IS(papr_open(table, COUNT, ORDER, 1, &other), PAPR_H_SUCCESS);
    other_was = other;
    IS(papr_split(&pass, &other), PAPR_H_PARAMETER);
    HOLDS(is_same_pass(&pass, &was) && is_same_pass(&other, &other_was));
    IS(papr_close(&other, table, COUNT), PAPR_H_SUCCESS);
    IS(papr_split(&pass, &other), PAPR_H_SUCCESS);
    IS(papr_join(&pass, &other), PAPR_H_SUCCESS);
    IS(papr_close(&pass, table, COUNT), PAPR_H_SUCCESS);
}

/* As many passes as the table was opened for, and no more, from whichever of them. */
static void shares(void)
{
    struct papr_pass pass[4] = {{0}}, more = {0};
    IS(papr_open(table, COUNT, ORDER, 4, &pass[0]), PAPR_H_SUCCESS);
    for (int i = 1; i < 4; i++)
        IS(papr_split(&pass[0], &pass[i]), PAPR_H_SUCCESS);
    for (int i = 0; i < 4; i++) {
        struct papr_pass was = pass[i];
        IS(papr_split(&pass[i], &more), PAPR_H_RESOURCE);
        HOLDS(is_same_pass(&pass[i], &was) && is_closed(&more));
    }
    IS(papr_join(&pass[2], &pass[1]), PAPR_H_SUCCESS);
    HOLDS(is_closed(&pass[1]));
    IS(papr_split(&pass[2], &more), PAPR_H_SUCCESS);
    IS(papr_split(&pass[2], &pass[1]), PAPR_H_RESOURCE);
    IS(papr_join(&more, &pass[0]), PAPR_H_SUCCESS);
    IS(papr_join(&more, &pass[3]), PAPR_H_SUCCESS);
    IS(papr_join(&more, &pass[2]), PAPR_H_SUCCESS);
    IS(papr_close(&more, table, COUNT), PAPR_H_SUCCESS);
}

static void wrong_joins(void)
{
    struct papr_pass pass = {0}, closed = {0}, was;
    IS(papr_open(table, COUNT, ORDER, 1, &pass), PAPR_H_SUCCESS);
    was = pass;
    IS(papr_join(&pass, &closed), PAPR_H_PARAMETER);
    IS(papr_join(&closed, &pass), PAPR_H_PARAMETER);
    HOLDS(is_same_pass(&pass, &was) && is_closed(&closed));
    IS(papr_close(&pass, table, COUNT), PAPR_H_SUCCESS);
}

/* The table isn't closed, and what was entered in it stays in it. */
static void wrong_closes(void)
{
    static struct papr_entry closing[COUNT];
    struct papr_pass pass = {0}, other = {0}, was;
    IS(papr_open(table, COUNT, ORDER, 2, &pass), PAPR_H_SUCCESS);
    ANSWERS(papr_try_h_enter(&pass, &grants, 0, 0x40, 0x1001, 0x3012, ROOM), PAPR_H_SUCCESS, 1, 1, false);
    was = pass;
    IS(papr_close(&pass, closing, COUNT - 1), PAPR_H_PARAMETER);
    IS(papr_close(&pass, closing, 0), PAPR_H_PARAMETER);
    IS(papr_split(&pass, &other), PAPR_H_SUCCESS);
    IS(papr_close(&pass, closing, COUNT), PAPR_H_RESOURCE);
    IS(papr_close(&other, closing, COUNT), PAPR_H_RESOURCE);
    HOLDS(is_same_pass(&pass, &was) && other.live);
    for (int i = 0; i < COUNT; i++)
        HOLDS(is_same_entry(&closing[i], &(struct papr_entry){0}));
    IS(papr_join(&pass, &other), PAPR_H_SUCCESS);
    IS(papr_close(&pass, closing, COUNT), PAPR_H_SUCCESS);
    HOLDS(is_closed(&pass));
    IS(closing[0x40].valid, true);
    IS(closing[0x40].dword0, 0x1001);
    IS(closing[0x40].stamp, 1);
}

/* Refusals of the calls themselves. */
static void wrong_calls(void)
{
    uint64_t pairs[8] = {UINT64_C(0x4000000000000020)}, args[8] = {0};
    struct papr_access wrong = access;
    struct papr_pass pass = {0};
    IS(papr_open(table, COUNT, ORDER, 1, &pass), PAPR_H_SUCCESS);
    REFUSES(papr_try_h_enter(&pass, &grants, 0, COUNT, 0x1001, 0x3012, ROOM));
    REFUSES(papr_try_h_enter(&pass, &grants, 0, 0x20, 0x1001, 0x40000012, ROOM));
    REFUSES(papr_try_h_remove(&pass, 0, COUNT, 0, ROOM));
    REFUSES(papr_try_h_protect(&pass, 0, COUNT, 0, ROOM));
    REFUSES(papr_try_h_read(&pass, 0, UINT64_MAX, ROOM));
    REFUSES(papr_try_h_clear_ref(&pass, 0, COUNT, ROOM));
    REFUSES(papr_try_h_clear_mod(&pass, 0, COUNT, ROOM));
    REFUSES(papr_try_h_bulk_remove(&pass, pairs, 6, ROOM));
    REFUSES(papr_try_h_bulk_remove(&pass, pairs, 0, ROOM));
    ANSWERS(papr_try_hcall(&pass, &grants, 0x1c, args, receipts, RECEIPTS), PAPR_H_FUNCTION, 0, 0, false);
    wrong.shift = 13;
    WALK_REFUSES(papr_try_walk(&pass, &wrong, receipts, RECEIPTS));
    wrong = access;
    wrong.want = 3;
    WALK_REFUSES(papr_try_walk(&pass, &wrong, receipts, RECEIPTS));
    wrong = access;
    wrong.vsid = UINT64_C(1) << 50;
    WALK_REFUSES(papr_try_walk(&pass, &wrong, receipts, RECEIPTS));
    IS(papr_close(&pass, table, COUNT), PAPR_H_SUCCESS);
    HOLDS(is_same_table(table, before, COUNT));
}

/* Without a call that is busy there is nothing to go on with, also after a call. */
static void again_without_a_call(void)
{
    struct papr_pass pass = {0};
    IS(papr_open(table, COUNT, ORDER, 1, &pass), PAPR_H_SUCCESS);
    for (int i = 0; i < 2; i++) {
        REFUSES(papr_again(&pass, ROOM));
        WALK_REFUSES(papr_walk_again(&pass, receipts, RECEIPTS));
        IS(papr_held_up(&pass).hold, PAPR_NOT_HELD_UP);
        IS(papr_held_up(&pass).entry, 0);
        IS(papr_held_up(&pass).done, 0);
        papr_give_up(&pass);
        ANSWERS(papr_try_h_read(&pass, PAPR_READ_4, 0x20, ROOM), PAPR_H_SUCCESS, 8, 4, false);
    }
    IS(papr_try_walk(&pass, &access, NULL, 0).outcome, PAPR_WALK_NO_PAGE);
    WALK_REFUSES(papr_walk_again(&pass, receipts, RECEIPTS));
    IS(papr_try_h_read(&pass, PAPR_READ_4, 0x20, NULL, 0, NULL, 0).rc, PAPR_H_SUCCESS);
    IS(papr_close(&pass, table, COUNT), PAPR_H_SUCCESS);
}

int main(void)
{
    grant(&grants);
    closed_pass();
    wrong_opens();
    right_opens();
    open_passes();
    shares();
    wrong_joins();
    wrong_closes();
    wrong_calls();
    again_without_a_call();
    return failures ? 1 : 0;
}
