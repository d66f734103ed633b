/* What papr.h says at the edges: pointers that may be NULL, a struct of a resize that no call left, the order of the
 * refusals of a commit, a TCE that permits nothing, an entry that can't change again, and tables that share memory. Writes a
 * line for each value that is another. */
#include <papr.h>
#include <stdio.h>
#include <string.h>

enum { ORDER = 18, COUNT = 1 << 14, LARGER = 19, LARGER_COUNT = 1 << 15, PLACE = 0x20 };

static int failures;

static void is(int line, const char *what, uint64_t got, uint64_t wanted)
{
    if (got != wanted) {
        printf("line %d: %s is %#llx, not %#llx\n", line, what, (unsigned long long)got, (unsigned long long)wanted);
        failures++;
    }
}
#define IS(got, wanted) is(__LINE__, #got, (uint64_t)(got), (uint64_t)(wanted))
#define ANSWERS(call, code, words_count, receipts_count) \
    do { \
        struct papr_reply reply = call; \
        IS(reply.rc, code); IS(reply.words, words_count); IS(reply.receipts, receipts_count); \
    } while (0)

static struct papr_entry table[COUNT], into[LARGER_COUNT], before[LARGER_COUNT];
static struct papr_grants grants;
static struct papr_receipt receipts[2];

_Static_assert(_Alignof(struct papr_entry) == 8, "entries are aligned to 8 bytes");
_Static_assert(_Alignof(struct papr_receipt) == 8, "and so are receipts");
_Static_assert(_Alignof(uint64_t) == 8, "and words");

/* A count or a room of 0, with no pointer. */
static void nothing_lent(void)
{
    struct papr_grants none = {.count = 1};
    struct papr_resize resize = {0};
    IS(papr_make_grants(NULL, 0, 0x1000000000, 24, &none).refusal, PAPR_GRANTED);
    IS(none.count, 0);
    ANSWERS(papr_h_read(table, COUNT, ORDER, 0, PLACE, NULL, 0, NULL, 0), PAPR_H_SUCCESS, 0, 0);
    ANSWERS(papr_h_read(NULL, 0, ORDER, 0, PLACE, NULL, 0, NULL, 0), PAPR_H_PARAMETER, 0, 0);
    ANSWERS(papr_h_bulk_remove(table, COUNT, ORDER, NULL, 0, NULL, 0, NULL, 0), PAPR_H_PARAMETER, 0, 0);
    ANSWERS(papr_put_tce(NULL, 0, 0, &grants, 0, 0, NULL, 0), PAPR_H_PARAMETER, 0, 0);
    IS(papr_take_changed(table, COUNT, ORDER, 0, NULL, 0).rc, PAPR_H_SUCCESS);
    IS(papr_export(table, COUNT, ORDER, PAPR_LAYOUT_OLD, 0, 0, NULL, 0).refusal, PAPR_TRANSFERRED);
    IS(papr_import(table, COUNT, ORDER, &grants, PAPR_LAYOUT_OLD, 0, 0, NULL, 0).refusal, PAPR_TRANSFERRED);
    IS(papr_resize_prepare(&resize, ORDER, 0, 0, NULL, 0), PAPR_H_SUCCESS);
    IS(papr_resize_prepare(&resize, ORDER, 0, ORDER, NULL, 0), PAPR_H_NO_MEM);
    IS(papr_rehash(NULL, 0, ORDER, into, COUNT, ORDER).rc, PAPR_H_PARAMETER);
}

/* Fills the memory for the new table with entries that are valid. */
static void fill_into(void)
{
    for (size_t i = 0; i < LARGER_COUNT; i++)
        into[i] = (struct papr_entry){.dword0 = 0x1001, .dword1 = 0x3012, .stamp = 5, .valid = true};
    memcpy(before, into, sizeof into);
}

static unsigned valid_ones(size_t count)
{
    unsigned found = 0;
    for (size_t i = 0; i < count; i++)
        found += into[i].valid;
    return found;
}

static int64_t commit(struct papr_resize *resize, size_t count, uint64_t shift)
{
    return papr_resize_commit(resize, table, COUNT, ORDER, into, count, 0, shift).rc;
}

/* A struct that is read as nothing pending. */
static void out_of_range(uint32_t ready, uint8_t order)
{
    const struct papr_resize given = {.ready = ready, .order = order, .pending = true};
    struct papr_resize resize = given;
    IS(commit(&resize, LARGER_COUNT, LARGER), PAPR_H_CLOSED);
    IS(memcmp(&resize, &given, sizeof given), 0);
    fill_into();
    IS(papr_resize_prepare(&resize, LARGER, 0, LARGER, into, LARGER_COUNT), PAPR_H_LONG_BUSY);
    IS(resize.ready, LARGER_COUNT / 2);
    IS(valid_ones(LARGER_COUNT / 2), 0);
}

/* A struct that no call left, and that is read as it is. */
static void in_range(void)
{
    struct papr_resize resize = {.ready = COUNT, .order = ORDER, .pending = true};
    fill_into();
    IS(papr_resize_prepare(&resize, ORDER, 0, ORDER, into, COUNT), PAPR_H_SUCCESS);
    IS(memcmp(into, before, sizeof into), 0);
    IS(commit(&resize, COUNT, ORDER), PAPR_H_SUCCESS);
    IS(valid_ones(COUNT), 0);
    resize = (struct papr_resize){.ready = 5, .order = ORDER, .pending = true};
    IS(commit(&resize, COUNT, ORDER), PAPR_H_BUSY);
}

/* Memory of another size is looked at last. */
static void refused_commits(void)
{
    struct papr_resize resize = {0};
    fill_into();
    IS(commit(&resize, COUNT, LARGER), PAPR_H_CLOSED);
    IS(papr_resize_prepare(&resize, LARGER, 0, LARGER, into, LARGER_COUNT), PAPR_H_LONG_BUSY);
    IS(commit(&resize, COUNT, ORDER), PAPR_H_CLOSED);
    IS(commit(&resize, COUNT, LARGER), PAPR_H_BUSY);
    IS(papr_resize_prepare(&resize, LARGER, 0, LARGER, into, LARGER_COUNT), PAPR_H_SUCCESS);
    fill_into();
    IS(commit(&resize, COUNT, LARGER), PAPR_H_PARAMETER);
    IS(resize.pending, true);
    IS(memcmp(into, before, sizeof into), 0);
    IS(commit(&resize, LARGER_COUNT, LARGER), PAPR_H_SUCCESS);
    IS(resize.pending, false);
    IS(valid_ones(LARGER_COUNT), 0);
}

/* No grant has the page 0x50000000. A TCE that permits nothing needs none. */
static void ungranted(void)
{
    ANSWERS(papr_put_tce(table, COUNT, 0, &grants, 0x1000, 0x50000003, receipts, 2), PAPR_H_PARAMETER, 0, 0);
    ANSWERS(papr_put_tce(table, COUNT, 0, &grants, 0x1000, 0x3003, receipts, 2), PAPR_H_SUCCESS, 0, 2);
    IS(table[1].valid, true);
    ANSWERS(papr_put_tce(table, COUNT, 0, &grants, 0x1000, 0x50000000, receipts, 2), PAPR_H_SUCCESS, 0, 1);
    IS(table[1].valid, false);
}

/* An entry that can change once more, and then no more. */
static void worn(void)
{
    ANSWERS(papr_put_tce(table, COUNT, 0, &grants, 0x1000, 0x3003, receipts, 2), PAPR_H_SUCCESS, 0, 2);
    table[1].stamp = UINT32_MAX - 1;
    ANSWERS(papr_put_tce(table, COUNT, 0, &grants, 0x1000, 0x4003, receipts, 2), PAPR_H_HARDWARE, 0, 2);
    IS(table[1].valid, false);
    IS(table[1].stamp, UINT32_MAX);
    table[1] = (struct papr_entry){.stamp = UINT32_MAX};
    ANSWERS(papr_h_enter(table, COUNT, ORDER, &grants, PAPR_EXACT, 1, 0x1001, 0x3012, NULL, 0, receipts, 2),
            PAPR_H_HARDWARE, 0, 1);
    IS(table[1].valid, false);
    memset(&table[1], 0, sizeof *table);
}

/* Tables that share memory, whichever begins first, and tables that don't. */
static void overlapping(void)
{
    IS(papr_overlap(into, COUNT, into, LARGER_COUNT), true);
    IS(papr_overlap(into, COUNT, into + COUNT - 1, COUNT), true);
    IS(papr_overlap(into + COUNT - 1, COUNT, into, COUNT), true);
    IS(papr_overlap(into + 1, 1, into, LARGER_COUNT), true);
    IS(papr_overlap((const struct papr_entry *)(const void *)((const char *)into + 8), 1, into, 1), true);
    IS(papr_overlap(into, COUNT, into + COUNT, COUNT), false);
    IS(papr_overlap(into + COUNT, COUNT, into, COUNT), false);
    IS(papr_overlap(into, 0, into + 1, COUNT), false);
    IS(papr_overlap(into, COUNT, NULL, 0), false);
    IS(papr_overlap(table, COUNT, into, LARGER_COUNT), false);
}

int main(void)
{
    const struct papr_grant ram = {0, 0x2000000000, 0x40000000, false};
    IS(papr_make_grants(&ram, 1, 0x1000000000, 24, &grants).refusal, PAPR_GRANTED);
    nothing_lent();
    out_of_range(LARGER_COUNT + 1, LARGER);
    out_of_range(0, 17);
    out_of_range(0, 35);
    in_range();
    refused_commits();
    ungranted();
    worn();
    overlapping();
    return failures ? 1 : 0;
}
