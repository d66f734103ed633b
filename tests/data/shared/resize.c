/* A table that is resized as docs/LIBRARY.md says: joined, closed, carried over, opened and split again. */
#include "expect.h"

enum { LARGER = 19, LARGER_COUNT = 1 << 15, OLD_PLACE = 0x20, NEW_PLACE = 0x4020 };

static struct papr_grants grants;
static struct papr_entry table[COUNT], larger[LARGER_COUNT];

/* Two pages of one group: the first one's hash has a bit that only the larger table uses, and it is bolted. */
static const struct papr_access bolted = {.ea = 0x805 << 12, .vsid = 1, .shift = 12, .want = 1};
static const struct papr_access other = {.ea = 0x7 << 12, .vsid = 3, .shift = 12};

static void finds(struct papr_pass *pass, const struct papr_access *access, uint32_t outcome, uint32_t entry)
{
    struct papr_walk walk = papr_try_walk(pass, access, receipts, RECEIPTS);
    IS(walk.outcome, outcome);
    IS(walk.entry, entry);
}

static void before(struct papr_pass *pass, struct papr_pass *second)
{
    IS(papr_open(table, COUNT, ORDER, 2, pass), PAPR_H_SUCCESS);
    IS(papr_split(pass, second), PAPR_H_SUCCESS);
    ANSWERS(papr_try_h_enter(pass, &grants, 0, OLD_PLACE, 0x1091, 0x3012, ROOM), PAPR_H_SUCCESS, 1, 1, false);
    ANSWERS(papr_try_h_enter(second, &grants, 0, OLD_PLACE, 0x3001, 0x4012, ROOM), PAPR_H_SUCCESS, 1, 2, false);
    finds(second, &bolted, PAPR_WALK_AT, OLD_PLACE);
    finds(pass, &other, PAPR_WALK_AT, OLD_PLACE + 1);
}

static void resize(struct papr_pass *pass, struct papr_pass *second)
{
    IS(papr_join(pass, second), PAPR_H_SUCCESS);
    IS(papr_close(pass, table, COUNT), PAPR_H_SUCCESS);
    struct papr_rehash carried = papr_rehash(table, COUNT, ORDER, larger, LARGER_COUNT, LARGER);
    IS(carried.rc, PAPR_H_SUCCESS);
    IS(carried.stale, true);
    IS(papr_open(larger, LARGER_COUNT, LARGER, 2, pass), PAPR_H_SUCCESS);
    IS(papr_split(pass, second), PAPR_H_SUCCESS);
}

static void after(struct papr_pass *pass, struct papr_pass *second)
{
    finds(pass, &bolted, PAPR_WALK_AT, NEW_PLACE);
    IS(receipts[0].stamp, 0);
    finds(second, &other, PAPR_WALK_NO_PAGE, 0);
    REFUSES(papr_try_h_read(second, 0, LARGER_COUNT, ROOM));
    IS(papr_join(second, pass), PAPR_H_SUCCESS);
    IS(papr_close(second, table, COUNT), PAPR_H_PARAMETER);
    IS(papr_close(second, larger, LARGER_COUNT), PAPR_H_SUCCESS);
    IS(larger[NEW_PLACE].changed, true);
}

int main(void)
{
    struct papr_pass pass = {0}, second = {0};
    grant(&grants);
    before(&pass, &second);
    resize(&pass, &second);
    after(&pass, &second);
    return failures ? 1 : 0;
}
