/* Calls of papr.h on a table of which a copy is kept: after each, an entry is marked exactly where it was, or where its
 * state is another one. Then a table that is migrated by papr_take_changed while calls go on. Writes a line for each
 * value that is another. */
#include <papr.h>
#include <stdio.h>
#include <stdlib.h>
#include <string.h>

enum { ORDER = 18, COUNT = 1 << 14, LARGER = 19, LARGER_COUNT = 1 << 15, WORDS = 8, RECEIPTS = 16, AN_ENTRY = 16 };

static int failures;

static void is(int line, const char *what, uint64_t got, uint64_t wanted)
{
    if (got != wanted && failures++ < 20)
        printf("line %d: %s is %#llx, not %#llx\n", line, what, (unsigned long long)got, (unsigned long long)wanted);
}
#define IS(got, wanted) is(__LINE__, #got, (uint64_t)(got), (uint64_t)(wanted))

static struct papr_entry table[COUNT], copy[COUNT], larger[LARGER_COUNT], old[LARGER_COUNT];
static struct papr_grants grants;
static uint64_t words[WORDS];
static struct papr_receipt receipts[RECEIPTS];
#define ROOM words, WORDS, receipts, RECEIPTS

static uint64_t drawn = 1;

static uint64_t draw(uint64_t below)
{
    drawn ^= drawn << 13, drawn ^= drawn >> 7, drawn ^= drawn << 17;
    return drawn % below;
}

static bool is_same(const struct papr_entry *one, const struct papr_entry *other)
{
    return one->dword0 == other->dword0 && one->dword1 == other->dword1 && one->stamp == other->stamp &&
           one->valid == other->valid && one->referenced == other->referenced && one->changed == other->changed;
}

/* How many entries have a mark that the states before and after don't tell. */
static size_t untold(const struct papr_entry *now, const struct papr_entry *before, size_t count)
{
    size_t wrong = 0;
    for (size_t i = 0; i < count; i++)
        wrong += now[i].marked != (before[i].marked || !is_same(&now[i], &before[i]));
    return wrong;
}

static size_t marked(const struct papr_entry *entries, size_t count)
{
    size_t found = 0;
    for (size_t i = 0; i < count; i++)
        found += entries[i].marked;
    return found;
}

/* ---- calls */

static void import_some(struct papr_entry *entries)
{
    uint8_t bytes[4 * AN_ENTRY];
    size_t from = draw(96);
    IS(papr_export(entries, COUNT, ORDER, 0, from, 4, bytes, sizeof bytes).refusal, PAPR_TRANSFERRED);
    IS(papr_import(entries, COUNT, ORDER, &grants, 0, draw(2) ? from : draw(96), 4, bytes, sizeof bytes).refusal,
       PAPR_TRANSFERRED);
}

/* One call of any kind, on the first entries. */
static void call(struct papr_entry *entries)
{
    uint64_t flags = (draw(4) ? 0 : PAPR_EXACT) | (draw(4) ? 0 : PAPR_AVPN), ptex = draw(64), avpn = draw(3) << 12;
    uint64_t pteh = draw(4) << 12 | draw(2) << 4 | 1, ptel = draw(16) << 12 | 0x10 | draw(2) << 8, args[8] = {0};
    struct papr_access access = {.ea = draw(64) << 12, .vsid = draw(4), .shift = 12, .want = (uint8_t)draw(3)};
    for (int i = 0; i < 8; i++)
        args[i] = i & 1 ? draw(3) << 12 : (draw(9) ? UINT64_C(1) : draw(4)) << 62 | draw(4) << 56 | draw(60);
    switch (draw(10)) {
    case 0: papr_h_remove(entries, COUNT, ORDER, flags, ptex, avpn, ROOM); break;
    case 1: papr_h_protect(entries, COUNT, ORDER, draw(8) | flags, ptex, avpn, ROOM); break;
    case 2: papr_h_read(entries, COUNT, ORDER, draw(2) ? PAPR_READ_4 : 0, ptex, ROOM); break;
    case 3: papr_h_clear_ref(entries, COUNT, ORDER, 0, ptex, ROOM); break;
    case 4: papr_h_clear_mod(entries, COUNT, ORDER, 0, ptex, ROOM); break;
    case 5: papr_h_bulk_remove(entries, COUNT, ORDER, args, 8, ROOM); break;
    case 6: papr_hcall(entries, COUNT, ORDER, &grants, draw(2) ? 0x04 : 0x24, args, receipts, RECEIPTS); break;
    case 7: papr_walk(entries, COUNT, ORDER, &access, receipts, RECEIPTS); break;
    case 8: import_some(entries); break;
    default: papr_h_enter(entries, COUNT, ORDER, &grants, flags & PAPR_EXACT, ptex, pteh, ptel, ROOM); break;
    }
}

static void calls(void)
{
    for (int i = 0; i < 3000; i++) {
        memcpy(copy, table, sizeof copy);
        call(table);
        IS(untold(table, copy, COUNT), 0);
        if (draw(200) == 0) {
            uint32_t indexes[8];
            papr_take_changed(table, COUNT, ORDER, (uint32_t)draw(64), indexes, draw(9));
        }
    }
    IS(marked(table, COUNT) > 0, true);
}

/* The pages of a window are entries too. A device's access marks none. */
static void windows(void)
{
    static struct papr_entry pages[8], before[8];
    for (int i = 0; i < 200; i++) {
        uint64_t ioba = draw(9) << 12;
        memcpy(before, pages, sizeof before);
        switch (draw(3)) {
        case 0: papr_put_tce(pages, 8, 0, &grants, ioba, draw(16) << 12 | draw(4), receipts, RECEIPTS); break;
        case 1: papr_get_tce(pages, 8, 0, ioba, ROOM); break;
        default:
            papr_device(pages, 8, 0, &grants, ioba, draw(2), receipts, RECEIPTS);
            IS(memcmp(pages, before, sizeof pages), 0);
        }
        IS(untold(pages, before, 8), 0);
    }
}

/* ---- another table */

/* In the new table each entry is marked that is valid, or had a mark or another state than an empty one. */
static size_t untold_carried(void)
{
    static const struct papr_entry empty;
    size_t wrong = 0;
    for (size_t i = 0; i < LARGER_COUNT; i++)
        wrong += larger[i].marked != (larger[i].valid || old[i].marked || !is_same(&old[i], &empty));
    return wrong;
}

static void carried(void)
{
    struct papr_resize resize = {0};
    memset(larger, 0, sizeof larger);
    larger[3] = (struct papr_entry){.stamp = 7};
    larger[4] = (struct papr_entry){.dword0 = 0x1001, .valid = true};
    larger[5] = (struct papr_entry){.marked = true};
    memcpy(old, larger, sizeof old);
    papr_h_enter(table, COUNT, ORDER, &grants, 0, 0x20, 0x1091, 0x3012, ROOM);
    IS(papr_rehash(table, COUNT, ORDER, larger, LARGER_COUNT, LARGER).rc, PAPR_H_SUCCESS);
    IS(untold_carried(), 0);
    for (int i = 0; i < 2; i++) {
        memcpy(old, larger, sizeof old);
        IS(papr_resize_prepare(&resize, 22, 0, LARGER, larger, LARGER_COUNT), i ? PAPR_H_SUCCESS : PAPR_H_LONG_BUSY);
        IS(untold(larger, old, LARGER_COUNT), 0);
    }
    memcpy(old, larger, sizeof old);
    IS(papr_resize_commit(&resize, table, COUNT, ORDER, larger, LARGER_COUNT, 0, LARGER).rc, PAPR_H_SUCCESS);
    IS(untold_carried(), 0);
    IS(marked(larger, LARGER_COUNT) > 0, true);
}

/* ---- marks that are taken */

static void taken(void)
{
    uint32_t indexes[3] = {9, 9, 9};
    memset(table, 0, sizeof table);
    table[2].marked = table[5].marked = table[COUNT - 1].marked = true;
    struct papr_taken told = papr_take_changed(table, COUNT, ORDER, COUNT + 1, indexes, 3);
    IS(told.rc, PAPR_H_PARAMETER), IS(told.count, 0), IS(told.next, 0);
    told = papr_take_changed(table, COUNT - 1, ORDER, 0, indexes, 3);
    IS(told.rc, PAPR_H_PARAMETER), IS(marked(table, COUNT), 3), IS(indexes[0], 9);
    told = papr_take_changed(table, COUNT, ORDER, 3, NULL, 0);
    IS(told.rc, PAPR_H_SUCCESS), IS(told.count, 0), IS(told.next, 3), IS(marked(table, COUNT), 3);
    told = papr_take_changed(table, COUNT, ORDER, 0, indexes, 2);
    IS(told.rc, PAPR_H_SUCCESS), IS(told.count, 2), IS(told.next, 6);
    IS(indexes[0], 2), IS(indexes[1], 5), IS(indexes[2], 9), IS(marked(table, COUNT), 1);
    table[1].marked = true;
    told = papr_take_changed(table, COUNT, ORDER, told.next, indexes, 2);
    IS(told.count, 1), IS(told.next, COUNT), IS(indexes[0], COUNT - 1), IS(table[1].marked, true);
    told = papr_take_changed(table, COUNT, ORDER, COUNT, indexes, 3);
    IS(told.rc, PAPR_H_SUCCESS), IS(told.count, 0), IS(told.next, COUNT), IS(marked(table, COUNT), 1);
}

/* Sends what changed, from the first entry to the last one, with calls between; gives how many were sent. */
static size_t send(struct papr_entry *there, int between)
{
    size_t sent = 0;
    for (uint32_t next = 0; next < COUNT;) {
        uint32_t indexes[5];
        struct papr_taken told = papr_take_changed(table, COUNT, ORDER, next, indexes, 5);
        IS(told.rc, PAPR_H_SUCCESS);
        for (uint32_t i = 0; i < told.count; i++)
            there[indexes[i]] = table[indexes[i]];
        sent += told.count, next = told.next;
        for (int i = 0; i < between; i++)
            call(table);
    }
    return sent;
}

static void migrated(void)
{
    memset(table, 0, sizeof table), memset(copy, 0, sizeof copy);
    for (int i = 0; i < 500; i++)
        call(table);
    IS(send(copy, 3) > 0, true);
    IS(send(copy, 3) > 0, true);
    IS(send(copy, 0) > 0, true);
    size_t other = 0;
    for (size_t i = 0; i < COUNT; i++)
        other += !is_same(&table[i], &copy[i]);
    IS(other, 0);
    IS(send(copy, 0), 0);
}

int main(void)
{
    struct papr_grant ram = {0, UINT64_C(0x2000000000), 0x40000000, false};
    IS(papr_make_grants(&ram, 1, UINT64_C(0x1000000000), 24, &grants).refusal, PAPR_GRANTED);
    calls();
    windows();
    carried();
    taken();
    migrated();
    return failures ? 1 : 0;
}
