/* Reads every field of every struct of papr.h behind calls that give the fields of one struct numbers that differ, and
 * passes each parameter a value that no other parameter of its type has. Writes a line for each that is another. */
#include <papr.h>
#include <stdio.h>
#include <stdlib.h>
#include <string.h>

static int failures;

static void is(int line, const char *what, uint64_t got, uint64_t wanted)
{
    if (got != wanted) {
        printf("line %d: %s is %#llx, not %#llx\n", line, what, (unsigned long long)got, (unsigned long long)wanted);
        failures++;
    }
}
#define IS(got, wanted) is(__LINE__, #got, (uint64_t)(got), (uint64_t)(wanted))
#define RECEIPT(at, d0, d1, e, s, b, a) \
    do { \
        IS((at).dword0, d0); IS((at).dword1, d1); IS((at).entry, e); \
        IS((at).stamp, s); IS((at).bits, b); IS((at).answer, a); \
    } while (0)
#define ANSWER(call, code, w, r, old) \
    do { \
        struct papr_reply reply = call; \
        IS(reply.rc, code); IS(reply.words, w); IS(reply.receipts, r); IS(reply.stale, old); \
    } while (0)
#define REPLY(call, code, w, r) ANSWER(call, code, w, r, false)
#define STALE(call, code, w, r) ANSWER(call, code, w, r, true)
#define ENTRY(at, d0, d1, s, v, r, c) \
    do { \
        IS((at).dword0, d0); IS((at).dword1, d1); IS((at).stamp, s); \
        IS((at).valid, v); IS((at).referenced, r); IS((at).changed, c); \
    } while (0)
#define WALK(call, l, e, o, r) \
    do { \
        struct papr_walk walked = call; \
        IS(walked.logical, l); IS(walked.entry, e); IS(walked.outcome, o); IS(walked.receipts, r); \
    } while (0)
#define TELLS(call, o, d0, d1, b, a, may, why) \
    do { \
        struct papr_walk walked = call; \
        IS(walked.outcome, o); IS(walked.dword0, d0); IS(walked.dword1, d1); IS(walked.base_shift, b); \
        IS(walked.actual_shift, a); IS(walked.rights, may); IS(walked.causes, why); \
    } while (0)

enum { ORDER = 18, COUNT = 1 << 14, WORDS = 8, RECEIPTS = 16 };

static struct papr_entry table[COUNT];
static struct papr_grants list;
static uint64_t words[WORDS];
static struct papr_receipt receipts[RECEIPTS];
#define ROOM words, WORDS, receipts, RECEIPTS

/* Two grants out of order, of main storage and of a device. */
static void grants(void)
{
    struct papr_grant given[] = {
        {.logical = 0x40000000, .machine = 0x5000000000, .length = 0x3000, .is_io = true},
        {.logical = 0, .machine = 0x2000000000, .length = 0x100000, .is_io = false},
        {.logical = 0x80000000, .machine = 0x6000000000, .length = 0, .is_io = false},
    };
    struct papr_making made = papr_make_grants(given, 3, 0x1000000000, 24, &list);
    IS(made.index, 2);
    IS(made.refusal, PAPR_GRANT_EMPTY);
    IS(list.count, 0);
    made = papr_make_grants(given, 2, 0x1000000000, 24, &list);
    IS(made.index, 0);
    IS(made.refusal, PAPR_GRANTED);
    IS(list.count, 2);
    for (int at = 0; at < 2; at++) {
        IS(list.grants[at].logical, given[1 - at].logical);
        IS(list.grants[at].machine, given[1 - at].machine);
        IS(list.grants[at].length, given[1 - at].length);
        IS(list.grants[at].is_io, given[1 - at].is_io);
    }
    struct papr_range range = papr_machine_of(&list, 0x2345, 0x100);
    IS(range.machine, 0x2000002345);
    IS(range.granted, true);
    IS(range.is_io, false);
    range = papr_machine_of(&list, 0x40001000, 0x2000);
    IS(range.machine, 0x5000001000);
    IS(range.granted, true);
    IS(range.is_io, true);
    range = papr_machine_of(&list, 0x40001000, 0x2001);
    IS(range.machine, 0);
    IS(range.granted, false);
    IS(range.is_io, false);
    range = papr_machine_of(&list, 0x3000, 0x40000000);
    IS(range.granted, false);
}

/* Enters the page at 0x5000 of segment 1 into the third place of its group, behind another page's. */
static void enter(void)
{
    REPLY(papr_h_enter(table, COUNT, ORDER, &list, PAPR_EXACT, 0x21, 0x2001, 0x4012, ROOM), PAPR_H_SUCCESS, 1, 1);
    IS(words[0], 0x21);
    RECEIPT(receipts[0], 0, 0, 0x21, 0, 0, PAPR_ENTERED);
    REPLY(papr_h_enter(table, COUNT, ORDER, &list, PAPR_EXACT, 0x22, 0x1001, 0x3012, ROOM), PAPR_H_SUCCESS, 1, 1);
    IS(words[0], 0x22);
    ENTRY(table[0x22], 0x1001, 0x3012, 1, true, false, false);
    REPLY(papr_h_enter(table, COUNT, ORDER, &list, PAPR_EXACT, 0x22, 0x1001, 0x3012, ROOM), PAPR_H_PTEG_FULL, 0, 1);
    RECEIPT(receipts[0], 0x1001, 0x3012, 0x22, 1, 0, PAPR_TAKEN);
}

/* Accesses to it that differ in one field each. */
static void walk(void)
{
    const struct papr_access load = {.ea = 0x5678, .vsid = 1, .amr = 0x11, .iamr = 0x22, .shift = 12};
    struct papr_access access = load;
    WALK(papr_walk(table, COUNT, ORDER, &access, receipts, RECEIPTS), 0x3678, 0x22, PAPR_WALK_AT, 3);
    RECEIPT(receipts[0], 0, 0, 0x20, 0, 0, PAPR_NOMATCH);
    RECEIPT(receipts[1], 0x2001, 0x4012, 0x21, 1, 0, PAPR_NOMATCH);
    RECEIPT(receipts[2], 0x1001, 0x3012, 0x22, 1, 0, PAPR_AT);
    ENTRY(table[0x22], 0x1001, 0x3012, 1, true, true, false);
    access.want = 1;
    WALK(papr_walk(table, COUNT, ORDER, &access, receipts, RECEIPTS), 0x3678, 0x22, PAPR_WALK_AT, 3);
    RECEIPT(receipts[2], 0x1001, 0x3112, 0x22, 1, 2, PAPR_AT);
    ENTRY(table[0x22], 0x1001, 0x3012, 1, true, true, true);
    access = load;
    access.amr = UINT64_C(1) << 62;     /* no load by key 0 */
    WALK(papr_walk(table, COUNT, ORDER, &access, receipts, RECEIPTS), 0, 0x22, PAPR_WALK_AMR, 3);
    access = load;
    access.iamr = UINT64_C(1) << 62;    /* no fetch by key 0 */
    WALK(papr_walk(table, COUNT, ORDER, &access, receipts, RECEIPTS), 0x3678, 0x22, PAPR_WALK_AT, 3);
    access.want = 2;
    WALK(papr_walk(table, COUNT, ORDER, &access, receipts, RECEIPTS), 0, 0x22, PAPR_WALK_IAMR, 3);
    access.iamr = 0;
    WALK(papr_walk(table, COUNT, ORDER, &access, receipts, RECEIPTS), 0x3678, 0x22, PAPR_WALK_AT, 3);
    access.no_execute = true;
    WALK(papr_walk(table, COUNT, ORDER, &access, receipts, RECEIPTS), 0, 0x22, PAPR_WALK_DENIED, 3);
    access = load;
    access.key = true;                  /* this page's PP of 2 lets both keys in */
    WALK(papr_walk(table, COUNT, ORDER, &access, receipts, RECEIPTS), 0x3678, 0x22, PAPR_WALK_AT, 3);
    access.vsid = 2;
    WALK(papr_walk(table, COUNT, ORDER, &access, receipts, RECEIPTS), 0, 0, PAPR_WALK_NO_PAGE, 16);
    access = load;
    access.one_tb = true;
    WALK(papr_walk(table, COUNT, ORDER, &access, receipts, RECEIPTS), 0, 0, PAPR_WALK_NO_PAGE, 16);
    access = load;
    access.shift = 13;
    WALK(papr_walk(table, COUNT, ORDER, &access, receipts, RECEIPTS), 0, 0, PAPR_WALK_PARAMETER, 0);
}

/* A page of a segment of 1 TB, whose PP of 0 lets the key 0 in alone. */
static void other_pages(void)
{
    struct papr_access access = {.ea = 0x678, .vsid = 1, .shift = 12, .one_tb = true};
    REPLY(papr_h_enter(table, COUNT, ORDER, &list, 0, 8, UINT64_C(0x4000000001000001), 0x6010, ROOM),
          PAPR_H_SUCCESS, 1, 1);
    WALK(papr_walk(table, COUNT, ORDER, &access, receipts, RECEIPTS), 0x6678, 8, PAPR_WALK_AT, 1);
    access.key = true;
    WALK(papr_walk(table, COUNT, ORDER, &access, receipts, RECEIPTS), 0, 8, PAPR_WALK_DENIED, 1);
    TELLS(papr_probe(table, COUNT, ORDER, &access), PAPR_WALK_DENIED, UINT64_C(0x4000000001000001), 0x6110, 12, 12, 0,
          PAPR_CAUSE_PROTECTION);
}

/* A page of 4 KB in one of 64 KB, of key 9: what is told of it, and that a first store has to walk. */
static void tells(void)
{
    enum { LOAD_AND_FETCH = PAPR_MAY_READ | PAPR_MAY_EXECUTE, ALL = LOAD_AND_FETCH | PAPR_MAY_WRITE };
    const uint64_t first = 0x3005, second = UINT64_C(0x1000000000017212);
    struct papr_access access = {.ea = 0x5678, .vsid = 3, .shift = 12};
    REPLY(papr_h_enter(table, COUNT, ORDER, &list, PAPR_EXACT, 0x33, first, second, ROOM), PAPR_H_SUCCESS, 1, 1);
    WALK(papr_probe(table, COUNT, ORDER, &access), 0x15678, 0x33, PAPR_WALK_AT, 0);
    TELLS(papr_probe(table, COUNT, ORDER, &access), PAPR_WALK_AT, first, second, 12, 16, 0, 0);
    ENTRY(table[0x33], first, second, 1, true, false, false);
    TELLS(papr_walk(table, COUNT, ORDER, &access, receipts, 0), PAPR_WALK_AT, first, second | 0x100, 12, 16,
          LOAD_AND_FETCH, 0);
    access.want = 1;
    TELLS(papr_probe(table, COUNT, ORDER, &access), PAPR_WALK_AT, first, second | 0x100, 12, 16, LOAD_AND_FETCH, 0);
    TELLS(papr_walk(table, COUNT, ORDER, &access, receipts, 0), PAPR_WALK_AT, first, second | 0x180, 12, 16, ALL, 0);
    access.amr = UINT64_C(2) << 44;
    TELLS(papr_walk(table, COUNT, ORDER, &access, receipts, 0), PAPR_WALK_AMR, first, second | 0x180, 12, 16,
          LOAD_AND_FETCH, PAPR_CAUSE_AMR);
    access.want = 2;
    access.iamr = UINT64_C(1) << 44;
    access.no_execute = true;
    TELLS(papr_walk(table, COUNT, ORDER, &access, receipts, 0), PAPR_WALK_DENIED, first, second | 0x180, 12, 16,
          PAPR_MAY_READ, PAPR_CAUSE_NO_EXECUTE | PAPR_CAUSE_IAMR);
    access.vsid = 4;
    TELLS(papr_walk(table, COUNT, ORDER, &access, receipts, 0), PAPR_WALK_NO_PAGE, 0, 0, 0, 0, 0, 0);
    access.want = 3;
    TELLS(papr_probe(table, COUNT, ORDER, &access), PAPR_WALK_PARAMETER, 0, 0, 0, 0, 0, 0);
}

/* Doublewords of which one says one thing, and another another. */
static void decoded(void)
{
    struct papr_page page = papr_decode(ORDER, 0x33, 0x3005, UINT64_C(0x1000000000017292));
    IS(page.vsid, 3);
    IS(page.page, 5);
    IS(page.real, 0x10000);
    IS(page.base_shift, 12);
    IS(page.actual_shift, 16);
    IS(page.key, 9);
    IS(page.protection, 2);
    IS(page.wimg, 2);
    IS(page.one_tb || page.no_execute || page.bolted || page.secondary || page.referenced, false);
    IS(page.changed, true);
    IS(page.why, PAPR_PAGE);
    page = papr_decode(ORDER, 0xe0, UINT64_C(0x4000000015240015), UINT64_C(0x8000000400003112));
    IS(page.vsid, 0x15);
    IS(page.page, 9);
    IS(page.real, UINT64_C(0x400000000));
    IS(page.base_shift, 34);
    IS(page.protection, 6);
    IS(page.one_tb && page.bolted && page.referenced, true);
    IS(page.no_execute || page.secondary || page.changed, false);
    page = papr_decode(ORDER, 0x3fd8, 0x1003, 0x3016);
    IS(page.vsid, 1);
    IS(page.page, 5);
    IS(page.secondary && page.no_execute, true);
    IS(page.why, PAPR_PAGE);
    page = papr_decode(ORDER, COUNT, 0x1001, 0x3012);
    IS(page.why, PAPR_NO_INDEX);
    IS(page.real, 0x3000);
    IS(page.vsid, 0);
    IS(papr_decode(ORDER - 1, 0, 0x1001, 0x3012).why, PAPR_NO_INDEX);
    IS(papr_decode(ORDER, 0x20, 0x1000, 0x3012).why, PAPR_EMPTY);
    IS(papr_decode(ORDER, 0x20, 0x1000, 0x3012).real, 0);
    IS(papr_decode(ORDER, 0x20, 0x1005, 0x2010).why, PAPR_NO_SIZE);
    IS(papr_decode(ORDER, 0x20, UINT64_C(0x8000000000001001), 0x3012).why, PAPR_NO_SEGMENT);
    IS(papr_decode(ORDER, 0x400, 0x1015, 0x11012).why, PAPR_OTHER_GROUP);
    IS(papr_rights(2, true), PAPR_MAY_READ | PAPR_MAY_WRITE);
    IS(papr_rights(1, true), PAPR_MAY_READ);
    IS(papr_rights(6, true), 0);
    IS(papr_rights(8, false), 0);
}

/* The other calls, whose arguments all differ. */
static void calls(void)
{
    REPLY(papr_h_read(table, COUNT, ORDER, PAPR_READ_4, 0x23, ROOM), PAPR_H_SUCCESS, 8, 4);
    IS(words[2], 0x2001);
    IS(words[3], 0x4012);
    IS(words[4], 0x1001);
    IS(words[5], 0x3192);
    RECEIPT(receipts[2], 0x1001, 0x3192, 0x22, 1, 3, PAPR_READ);
    STALE(papr_h_clear_ref(table, COUNT, ORDER, 5, 0x22, ROOM), PAPR_H_SUCCESS, 1, 1);
    IS(words[0], 0x3192);
    ENTRY(table[0x22], 0x1001, 0x3012, 2, true, false, true);
    STALE(papr_h_clear_mod(table, COUNT, ORDER, 5, 0x22, ROOM), PAPR_H_SUCCESS, 1, 1);
    IS(words[0], 0x3092);
    RECEIPT(receipts[0], 0x1001, 0x3092, 0x22, 2, 1, PAPR_WAS);
    ENTRY(table[0x22], 0x1001, 0x3012, 3, true, false, false);
    REPLY(papr_h_protect(table, COUNT, ORDER, PAPR_AVPN | 3, 0x22, 0x2000, ROOM), PAPR_H_NOT_FOUND, 0, 1);
    STALE(papr_h_protect(table, COUNT, ORDER, PAPR_AVPN | 3, 0x22, 0x1000, ROOM), PAPR_H_SUCCESS, 0, 1);
    ENTRY(table[0x22], 0x1001, 0x3013, 4, true, false, false);
    REPLY(papr_h_remove(table, COUNT, ORDER, PAPR_AVPN, 0x22, 0x2000, ROOM), PAPR_H_NOT_FOUND, 0, 1);
    RECEIPT(receipts[0], 0x1001, 0x3013, 0x22, 4, 0, PAPR_NOTFOUND);
    STALE(papr_h_remove(table, COUNT, ORDER, PAPR_AVPN, 0x22, 0x1000, ROOM), PAPR_H_SUCCESS, 2, 1);
    IS(words[0], 0x1001);
    IS(words[1], 0x3013);
    RECEIPT(receipts[0], 0x1001, 0x3013, 0x22, 4, 0, PAPR_REMOVED);
    ENTRY(table[0x22], 0, 0, 5, false, false, false);
    const uint64_t pairs[8] = {UINT64_C(0x4200000000000021), 0x2000, UINT64_C(0xc000000000000000), 7};
    STALE(papr_h_bulk_remove(table, COUNT, ORDER, pairs, 8, ROOM), PAPR_H_SUCCESS, 8, 1);
    IS(words[0], UINT64_C(0x8200000000000021));
    IS(words[1], 0x2000);
    IS(words[3], 7);
    RECEIPT(receipts[0], 0x2001, 0x4012, 0x21, 1, 0, PAPR_REMOVED);
    REPLY(papr_h_bulk_remove(table, COUNT, ORDER, pairs, 6, ROOM), PAPR_H_PARAMETER, 0, 0);
}

/* Calls by their numbers, with all eight words. */
static void by_number(void)
{
    enum { H_REMOVE = 0x04, H_ENTER = 0x08, H_PROTECT = 0x18, H_BULK_REMOVE = 0x124, H_PUT_TCE = 0x20 };
#define BY(number) papr_hcall(table, COUNT, ORDER, &list, number, words, receipts, RECEIPTS)
    const uint64_t enter[WORDS] = {PAPR_EXACT, 0x45, 0x1001, 0x7012, 4, 5, 6, 7};
    memcpy(words, enter, sizeof words);
    REPLY(BY(H_ENTER), PAPR_H_SUCCESS, 1, 1);
    IS(words[0], 0x45);
    IS(words[1], 0x45);
    IS(words[7], 7);
    const uint64_t protect[WORDS] = {PAPR_AVPN | 1, 0x45, 0x1000};
    memcpy(words, protect, sizeof words);
    STALE(BY(H_PROTECT), PAPR_H_SUCCESS, 0, 1);
    ENTRY(table[0x45], 0x1001, 0x7011, 2, true, false, false);
    REPLY(BY(H_PUT_TCE), PAPR_H_FUNCTION, 0, 0);
    IS(words[1], 0x45);
    REPLY(papr_hcall(table, COUNT, ORDER + 1, &list, 0, words, receipts, RECEIPTS), PAPR_H_FUNCTION, 0, 0);
    REPLY(papr_hcall(table, COUNT, ORDER + 1, &list, H_REMOVE, words, receipts, RECEIPTS), PAPR_H_PARAMETER, 0, 0);
    STALE(BY(H_REMOVE), PAPR_H_SUCCESS, 2, 1);
    IS(words[0], 0x1001);
    IS(words[1], 0x7011);
    const uint64_t pairs[WORDS] = {UINT64_C(0x4000000000000045), 1, UINT64_C(0xc000000000000000), 2, 3, 4, 5, 6};
    memcpy(words, pairs, sizeof words);
    REPLY(BY(H_BULK_REMOVE), PAPR_H_SUCCESS, 8, 1);
    IS(words[0], UINT64_C(0x9000000000000045));
    IS(words[7], 6);
}

/* Two bolted entries of a larger table that meet in the smaller one, and one that is carried over. */
static int rehash(void)
{
    enum { FROM_ORDER = 20, FROM_COUNT = 1 << 16 };
    struct papr_entry *from = calloc(FROM_COUNT, sizeof *from);
    if (!from)
        return 1;
    REPLY(papr_h_enter(from, FROM_COUNT, FROM_ORDER, &list, PAPR_EXACT, 0x4023, 0x1091, 0x3012, ROOM),
          PAPR_H_SUCCESS, 1, 1);
    struct papr_rehash made = papr_rehash(from, FROM_COUNT, FROM_ORDER, table, COUNT, ORDER);
    IS(made.rc, PAPR_H_SUCCESS);
    IS(made.stale, true);
    IS(made.first, 0);
    IS(made.second, 0);
    IS(made.target, 0);
    ENTRY(table[0x23], 0x1091, 0x3012, 0, true, false, false);
    IS(table[8].valid, false);
    REPLY(papr_h_enter(from, FROM_COUNT, FROM_ORDER, &list, PAPR_EXACT, 0x8023, 0x1111, 0x4012, ROOM),
          PAPR_H_SUCCESS, 1, 1);
    made = papr_rehash(from, FROM_COUNT, FROM_ORDER, table, COUNT, ORDER);
    IS(made.rc, PAPR_H_PTEG_FULL);
    IS(made.stale, false);
    IS(made.first, 0x4023);
    IS(made.second, 0x8023);
    IS(made.target, 0x23);
    made = papr_rehash(from, FROM_COUNT, FROM_ORDER, table, COUNT, FROM_ORDER);
    IS(made.rc, PAPR_H_PARAMETER);
    free(from);
    return 0;
}

/* A table that is made ready in two calls, each refusal in its order, and the commit. */
static int resize(void)
{
    enum { LARGE_ORDER = 19, LARGE = 1 << 15 };
    struct papr_entry *from = calloc(COUNT, sizeof *from), *into = malloc(LARGE * sizeof *into);
    struct papr_resize r = {0};
    struct papr_rehash made;
    if (!from || !into)
        return 1;
    memset(into, 0x11, LARGE * sizeof *into);
    for (size_t at = 0; at < LARGE; at++)
        into[at].valid = into[at].referenced = into[at].changed = false;
    REPLY(papr_h_enter(from, COUNT, ORDER, &list, PAPR_EXACT, 0x23, 0x1091, 0x3012, ROOM), PAPR_H_SUCCESS, 1, 1);
    IS(papr_resize_prepare(&r, 20, 1, LARGE_ORDER, into, LARGE), PAPR_H_PARAMETER);
    IS(papr_resize_prepare(&r, 20, 0, 17, into, LARGE), PAPR_H_PARAMETER);
    IS(papr_resize_prepare(&r, 20, 0, 21, into, LARGE), PAPR_H_RESOURCE);
    IS(papr_resize_prepare(&r, 46, 0, 35, into, LARGE), PAPR_H_RESOURCE);
    IS(papr_resize_prepare(&r, 20, 0, LARGE_ORDER, into, LARGE), PAPR_H_LONG_BUSY);
    IS(r.ready, 16384);
    IS(r.order, LARGE_ORDER);
    IS(r.pending, true);
    ENTRY(into[16383], 0, 0, 0, false, false, false);
    IS(into[16384].dword0, UINT64_C(0x1111111111111111));
    made = papr_resize_commit(&r, from, COUNT, ORDER, into, LARGE, 0, LARGE_ORDER);
    IS(made.rc, PAPR_H_BUSY);
    made = papr_resize_commit(&r, from, COUNT, ORDER, into, LARGE, 0, 20);
    IS(made.rc, PAPR_H_CLOSED);
    made = papr_resize_commit(&r, from, COUNT, ORDER, into, LARGE, 1, LARGE_ORDER);
    IS(made.rc, PAPR_H_PARAMETER);
    IS(papr_resize_prepare(&r, 20, 0, LARGE_ORDER, into, LARGE), PAPR_H_SUCCESS);
    IS(r.ready, LARGE);
    made = papr_resize_commit(&r, from, COUNT, ORDER, into, LARGE - 1, 0, LARGE_ORDER);
    IS(made.rc, PAPR_H_PARAMETER);
    made = papr_resize_commit(&r, from, COUNT, ORDER, into, LARGE, 0, LARGE_ORDER);
    IS(made.rc, PAPR_H_SUCCESS);
    IS(made.stale, true);
    ENTRY(into[0x4023], 0x1091, 0x3012, 0, true, false, false);
    IS(r.pending, false);
    made = papr_resize_commit(&r, from, COUNT, ORDER, into, LARGE, 0, LARGE_ORDER);
    IS(made.rc, PAPR_H_CLOSED);
    IS(papr_resize_prepare(&r, 20, 0, LARGE_ORDER, into, LARGE), PAPR_H_LONG_BUSY);
    IS(papr_resize_prepare(&r, 20, 0, 20, into, LARGE), PAPR_H_NO_MEM);
    IS(r.pending, false);
    IS(papr_resize_prepare(&r, 20, 0, 0, NULL, 0), PAPR_H_SUCCESS);
    free(from);
    free(into);
    return 0;
}

static void is_transfer(int line, struct papr_transfer made, size_t index, uint32_t refusal)
{
    is(line, "index", made.index, index);
    is(line, "refusal", made.refusal, refusal);
}
#define TRANSFER(call, index, refusal) is_transfer(__LINE__, call, index, refusal)

/* Entries as bytes in both layouts, and what is refused of them. */
static void transfers(void)
{
    static const uint8_t old[32] = {[6] = 0x10, [7] = 0x01, [14] = 0x31, [15] = 0x92,
                                    [16] = 0x40, [20] = 0x01, [23] = 0x01, [30] = 0x60, [31] = 0x10};
    static struct papr_entry mine[COUNT];
    uint8_t bytes[40], other[32];
    memset(mine, 0, sizeof mine);
    memset(bytes, 0x55, sizeof bytes);
    TRANSFER(papr_import(mine, COUNT, ORDER, &list, PAPR_LAYOUT_OLD, 0x22, 2, old, 32), 0, PAPR_TRANSFERRED);
    ENTRY(mine[0x22], 0x1001, 0x3012, 0, true, true, true);
    ENTRY(mine[0x23], UINT64_C(0x4000000001000001), 0x6010, 0, true, false, false);
    TRANSFER(papr_export(mine, COUNT, ORDER, PAPR_LAYOUT_OLD, 0x22, 2, bytes, 40), 0, PAPR_TRANSFERRED);
    IS(memcmp(bytes, old, 32), 0);
    IS(bytes[32], 0x55);
    TRANSFER(papr_export(mine, COUNT, ORDER, PAPR_LAYOUT_NEW, 0x22, 2, other, 32), 0, PAPR_TRANSFERRED);
    IS(memcmp(other, old, 16), 0);
    IS(other[16], 0);
    IS(other[24], 0x04);
    TRANSFER(papr_import(mine, COUNT, ORDER, &list, PAPR_LAYOUT_NEW, 0x30, 2, other, 32), 0, PAPR_TRANSFERRED);
    ENTRY(mine[0x31], UINT64_C(0x4000000001000001), 0x6010, 0, true, false, false);
    TRANSFER(papr_import(mine, COUNT, ORDER, &list, PAPR_LAYOUT_NEW, 0x40, 2, old, 32), 0x41,
             PAPR_TRANSFER_UNHELD);
    IS(mine[0x40].valid, false);
    memcpy(other, old, 32);
    other[15] = 0x11;               /* W, I, M and G of 2 alone suit main storage */
    other[31] = 0x38;
    TRANSFER(papr_import(mine, COUNT, ORDER, &list, PAPR_LAYOUT_OLD, 0x40, 2, other, 32), 0x41,
             PAPR_TRANSFER_UNENTERED);
    IS(mine[0x40].valid, false);
    TRANSFER(papr_import(mine, COUNT, ORDER, &list, 2, 0x40, 2, old, 32), 0, PAPR_TRANSFER_ARGUMENTS);
    TRANSFER(papr_import(mine, COUNT, ORDER, &list, 0, COUNT - 1, 2, old, 32), 0, PAPR_TRANSFER_ARGUMENTS);
    TRANSFER(papr_export(mine, COUNT, ORDER, 0, 0, 2, other, 31), 0, PAPR_TRANSFER_ARGUMENTS);
    TRANSFER(papr_export(mine, COUNT, ORDER, 0, 0, SIZE_MAX, other, 32), 0, PAPR_TRANSFER_ARGUMENTS);
    mine[0x22].dword0 |= UINT64_C(1) << 52;
    TRANSFER(papr_export(mine, COUNT, ORDER, PAPR_LAYOUT_NEW, 0x21, 2, bytes, 40), 0x22, PAPR_TRANSFER_UNHELD);
}

/* A segment of 256 MB in slot 3, and one of 1 TB in slot 1. */
static void segments(void)
{
    static struct papr_slb slb;
    IS(papr_slb_mte(&slb, 0x18000003, 0x5e10), PAPR_SLB_PAGE_SIZE);
    IS(papr_slb_mte(&slb, 0x18000003, UINT64_C(0x8000000000005e00)), PAPR_SLB_SEGMENT_SIZE);
    IS(papr_slb_mte(&slb, 0x18000020, 0x5e00), PAPR_SLB_SLOT);
    IS(papr_slb_mte(&slb, 0x18000003, 0x5d00), PAPR_SLB_WRITTEN);
    struct papr_slot found = papr_slb_find(&slb, 0x12345678);
    IS(found.valid, true);
    IS(found.esid, 1);
    IS(found.vsid, 5);
    IS(found.shift, 24);
    IS(found.one_tb, false);
    IS(found.ks, true);
    IS(found.kp, true);
    IS(found.no_execute, false);
    IS(papr_slb_find(&slb, 0x2345678).valid, false);
    IS(papr_slb_mte(&slb, UINT64_C(0x0000010008000001), UINT64_C(0x4000000007000a00)), PAPR_SLB_WRITTEN);
    found = papr_slb_find(&slb, UINT64_C(0x1ffffffffff));
    IS(found.one_tb, true);
    IS(found.vsid, 7);
    IS(found.shift, 12);
    IS(found.ks, true);
    IS(found.kp, false);
    IS(found.no_execute, true);
    IS(papr_slb_mte(&slb, 3, 0), PAPR_SLB_WRITTEN);
    IS(papr_slb_find(&slb, 0x12345678).valid, false);
    papr_slb_clear(&slb);
    IS(papr_slb_find(&slb, UINT64_C(0x1ffffffffff)).valid, false);
}

static void is_device(int line, struct papr_device d, uint64_t address, uint32_t outcome, uint32_t made)
{
    is(line, "address", d.address, address);
    is(line, "outcome", d.outcome, outcome);
    is(line, "receipts", d.receipts, made);
}
#define DEVICE(call, address, outcome, made) is_device(__LINE__, call, address, outcome, made)

/* A window of three pages: its calls, and what a device reaches by it. */
static void windows(void)
{
    static struct papr_entry pages[3];
    const uint64_t base = 0x7000;
    REPLY(papr_put_tce(pages, 3, base, &list, 0x8123, 0x4001, receipts, RECEIPTS), PAPR_H_SUCCESS, 0, 2);
    RECEIPT(receipts[0], 0, 0, 1, 0, 0, PAPR_NOTFOUND);
    RECEIPT(receipts[1], 0, 0, 1, 0, 0, PAPR_ENTERED);
    REPLY(papr_get_tce(pages, 3, base, 0x8000, ROOM), PAPR_H_SUCCESS, 1, 1);
    IS(words[0], 0x4001);
    DEVICE(papr_device(pages, 3, base, &list, 0x8123, false, receipts, RECEIPTS), 0x2000004123, PAPR_DEVICE_AT, 1);
    DEVICE(papr_device(pages, 3, base, &list, 0x8123, true, receipts, RECEIPTS), 0, PAPR_DEVICE_DENIED, 1);
    DEVICE(papr_device(pages, 3, base, &list, 0xa000, true, receipts, RECEIPTS), 0, PAPR_DEVICE_NO_WINDOW, 0);
    DEVICE(papr_device(pages, 3, 0x7001, &list, 0x8000, true, receipts, RECEIPTS), 0, PAPR_DEVICE_PARAMETER, 0);
    const struct papr_grants none = {0};
    DEVICE(papr_device(pages, 3, base, &none, 0x8123, false, receipts, RECEIPTS), 0x4123, PAPR_DEVICE_UNGRANTED, 1);
    REPLY(papr_put_tce(pages, 3, base, &list, 0x8000, 0x100001, receipts, RECEIPTS), PAPR_H_PARAMETER, 0, 0);
    REPLY(papr_put_tce(pages, 3, base, &list, 0x6000, 0x4001, receipts, RECEIPTS), PAPR_H_PARAMETER, 0, 0);
    REPLY(papr_get_tce(pages, 0, base, base, ROOM), PAPR_H_PARAMETER, 0, 0);
    STALE(papr_put_tce(pages, 3, base, &list, 0x8000, 0, receipts, RECEIPTS), PAPR_H_SUCCESS, 0, 1);
    IS(pages[1].valid, false);
}

int main(void)
{
    grants();
    enter();
    walk();
    other_pages();
    tells();
    decoded();
    calls();
    by_number();
    transfers();
    segments();
    windows();
    IS(papr_version(), PAPR_VERSION);
    return rehash() || resize() || failures;
}
