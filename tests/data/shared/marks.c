/* A table that is opened and closed: an entry is marked then exactly where it was, or where its state is another one. */
#include "expect.h"

static struct papr_grants grants;
static struct papr_entry table[COUNT], copy[COUNT];

static size_t untold(void)
{
    size_t wrong = 0;
    for (size_t i = 0; i < COUNT; i++)
        wrong += table[i].marked != (copy[i].marked || !is_same_entry(&table[i], &copy[i]));
    return wrong;
}

static void opened(void (*calls)(struct papr_pass *))
{
    struct papr_pass pass = {0};
    memcpy(copy, table, sizeof copy);
    IS(papr_open(table, COUNT, ORDER, 1, &pass), PAPR_H_SUCCESS);
    calls(&pass);
    IS(memcmp(table, copy, sizeof table), 0);
    IS(papr_close(&pass, table, COUNT), PAPR_H_SUCCESS);
    IS(untold(), 0);
}

static void nothing(struct papr_pass *pass)
{
    ANSWERS(papr_try_h_read(pass, 0, 0x20, ROOM), PAPR_H_SUCCESS, 2, 1, false);
}

static void entered(struct papr_pass *pass)
{
    ANSWERS(papr_try_h_enter(pass, &grants, 0, 0x20, 0x1001, 0x3012, ROOM), PAPR_H_SUCCESS, 1, 1, false);
    ANSWERS(papr_try_h_enter(pass, &grants, 0, 0x20, 0x1001, 0x4012, ROOM), PAPR_H_SUCCESS, 1, 2, false);
}

static void walked(struct papr_pass *pass)
{
    const struct papr_access load = {.ea = 0x5000, .vsid = 1, .shift = 12};
    IS(papr_try_walk(pass, &load, receipts, RECEIPTS).outcome, PAPR_WALK_AT);
}

int main(void)
{
    uint32_t indexes[4];
    grant(&grants);
    table[7].marked = true;
    opened(nothing);
    IS(table[7].marked, true);
    opened(entered);
    IS(table[0x20].marked, true);
    IS(papr_take_changed(table, COUNT, ORDER, 0, indexes, 4).count, 3);
    opened(walked);
    struct papr_taken told = papr_take_changed(table, COUNT, ORDER, 0, indexes, 4);
    IS(told.count, 1);
    IS(indexes[0], 0x20);
    return failures ? 1 : 0;
}
