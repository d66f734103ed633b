/*
 * What is answered while another thread is at an entry.
 */
#include "stopping.h"

#define LOCK (UINT64_C(1) << 63)    /* bits of a control word: a call holds the entry */
#define SHUT (UINT64_C(1) << 62)    /* .. and changes it */

static struct papr_pass third;

/* A walk of the page that is in ENTRY. */
static const struct papr_access access = {.ea = 7 << 12, .vsid = 3, .shift = 12};

static bool is_walk_busy(void)
{
    return papr_try_walk(&pass, &access, NULL, 0).outcome == PAPR_WALK_BUSY;
}

/* ---- what is expected of a call that is busy */

static void is_held(uint32_t entry, uint32_t done, uint32_t hold)
{
    struct papr_busy busy = papr_held_up(&pass);
    IS(busy.entry, entry);
    IS(busy.done, done);
    IS(busy.hold, hold);
    if (hold == PAPR_HELD)
        HOLDS(busy.looked == busy.found && busy.found & LOCK);
    else
        HOLDS((busy.looked | busy.found) & SHUT || busy.looked != busy.found);
}

static void is_held_no_more(void)
{
    IS(papr_held_up(&pass).hold, PAPR_NOT_HELD_UP);
    REFUSES(papr_again(&pass, ROOM));
    WALK_REFUSES(papr_walk_again(&pass, receipts, RECEIPTS));
}

/* Goes on until the call's end. */
static struct papr_reply finish(void)
{
    struct papr_reply reply;
    let_go();
    fill_rooms();
    do
        reply = papr_again(&pass, ROOM);
    while (reply.rc == PAPR_H_BUSY);
    return reply;
}

/* ---- the cases */

/* As long as a call is busy, the pass makes no other, is neither joined nor closed, and goes on with this one alone. */
static void nothing_else(void)
{
    uint64_t args[8] = {0, 0x40}, pairs[8] = {UINT64_C(0x4000000000000040)};
    struct papr_pass was = pass;
    stop_where(is_call_busy);
    ANSWERS(papr_try_h_clear_ref(&pass, 0, ENTRY, ROOM), PAPR_H_BUSY, 0, 0, false);
    REFUSES(papr_try_h_enter(&pass, &grants, 0, 0x40, 0x1001, 0x3012, ROOM));
    REFUSES(papr_try_h_remove(&pass, 0, 0x40, 0, ROOM));
    REFUSES(papr_try_h_protect(&pass, 0, 0x40, 0, ROOM));
    REFUSES(papr_try_h_read(&pass, 0, 0x40, ROOM));
    REFUSES(papr_try_h_clear_ref(&pass, 0, ENTRY, ROOM));
    REFUSES(papr_try_h_clear_mod(&pass, 0, 0x40, ROOM));
    REFUSES(papr_try_h_bulk_remove(&pass, pairs, 8, ROOM));
    REFUSES(papr_try_hcall(&pass, &grants, 8, args, receipts, RECEIPTS));
    WALK_REFUSES(papr_try_walk(&pass, &access, receipts, RECEIPTS));
    WALK_REFUSES(papr_walk_again(&pass, receipts, RECEIPTS));
    IS(papr_join(&pass, &third), PAPR_H_BUSY);
    IS(papr_join(&third, &pass), PAPR_H_BUSY);
    IS(papr_close(&pass, table, COUNT), PAPR_H_RESOURCE);
    IS(papr_open(table, COUNT, ORDER, 1, &pass), PAPR_H_PARAMETER);
    HOLDS(third.live && is_same_pass(&pass, &was));
    is_held(ENTRY, 0, PAPR_HELD);
    ANSWERS(papr_again(&pass, ROOM), PAPR_H_BUSY, 0, 0, false);
    is_held(ENTRY, 0, PAPR_HELD);
    struct papr_reply reply = finish();
    IS(reply.rc, PAPR_H_SUCCESS);
    IS(reply.words, 1);
    IS(reply.receipts, 1);
    IS(reply.stale, true);
    IS(words[0], receipts[0].dword1);
    IS(receipts[0].answer, PAPR_WAS);
    IS(receipts[0].entry, ENTRY);
    HOLDS(are_untouched(1, 1));
    is_held_no_more();
}

static uint64_t request(uint64_t entry)
{
    return UINT64_C(1) << 62 | entry;
}

/* H_BULK_REMOVE that is held up at its third pair: each pair is answered once. */
static void four_pairs(void)
{
    const uint64_t pairs[8] = {request(0x40), 1, request(0x41), 2, request(ENTRY), 3, request(0x42), 4};
    ANSWERS(papr_try_h_enter(&pass, &grants, PAPR_EXACT, 0x40, 0x1001, 0x3112, ROOM), PAPR_H_SUCCESS, 1, 1, false);
    ANSWERS(papr_try_h_enter(&pass, &grants, PAPR_EXACT, 0x42, 0x1001, 0x3012, ROOM), PAPR_H_SUCCESS, 1, 1, false);
    stop_where(is_call_busy);
    for (int i = 0; i < 2; i++) {
        if (i)
            ANSWERS(papr_again(&pass, ROOM), PAPR_H_BUSY, 8, 2, true);
        else
            ANSWERS(papr_try_h_bulk_remove(&pass, pairs, 8, ROOM), PAPR_H_BUSY, 8, 2, true);
        is_held(ENTRY, 2, PAPR_HELD);
        IS(words[0], UINT64_C(0x8800000000000040));
        IS(words[2], UINT64_C(0x9000000000000041));
        IS(words[4], pairs[4]);
        IS(words[6], pairs[6]);
        IS(receipts[0].answer, PAPR_REMOVED);
        IS(receipts[1].answer, PAPR_NOTFOUND);
    }
    struct papr_reply reply = finish();
    IS(reply.rc, PAPR_H_SUCCESS);
    IS(reply.words, 8);
    IS(reply.receipts, 4);
    IS(reply.stale, true);
    IS(words[0], UINT64_C(0x8800000000000040));
    IS(words[2], UINT64_C(0x9000000000000041));
    IS(words[4], UINT64_C(0x8000000000000022) | (uint64_t)receipts[2].bits << 58);
    IS(words[6], UINT64_C(0x8000000000000042));
    for (int i = 1; i < 8; i += 2)
        IS(words[i], pairs[i]);
    IS(receipts[0].answer, PAPR_REMOVED);
    IS(receipts[1].answer, PAPR_NOTFOUND);
    IS(receipts[2].answer, PAPR_REMOVED);
    IS(receipts[2].entry, ENTRY);
    IS(receipts[3].answer, PAPR_REMOVED);
    is_held_no_more();
}

/* H_READ of four, which has the words so far; its second try has room for some of them. */
static void four_entries(void)
{
    stop_where(is_call_busy);
    ANSWERS(papr_try_h_read(&pass, PAPR_READ_4, 0x21, ROOM), PAPR_H_BUSY, 4, 2, false);
    is_held(ENTRY, 2, PAPR_HELD);
    IS(words[0], 0x1001);
    IS(words[2], 0);
    IS(receipts[0].entry, 0x20);
    IS(receipts[1].entry, 0x21);
    fill_rooms();
    struct papr_reply reply = papr_again(&pass, words, 3, receipts, 1);
    IS(reply.rc, PAPR_H_BUSY);
    IS(reply.words, 3);
    IS(reply.receipts, 1);
    HOLDS(are_untouched(3, 1));
    reply = finish();
    IS(reply.rc, PAPR_H_SUCCESS);
    IS(reply.words, 8);
    IS(reply.receipts, 4);
    for (uint32_t i = 0; i < 4; i++) {
        IS(receipts[i].entry, 0x20 + i);
        IS(words[2 * i], receipts[i].dword0);
        IS(words[2 * i + 1], receipts[i].dword1);
    }
}

/* H_ENTER by its number: the words are put over the arguments at the end. */
static void by_number(void)
{
    uint64_t args[8] = {0, GROUP, 0x4001, 0x5012};
    ANSWERS(papr_try_h_enter(&pass, &grants, PAPR_EXACT, 0x21, 0x2001, 0x4012, ROOM), PAPR_H_SUCCESS, 1, 1, false);
    stop_where(is_call_busy);
    ANSWERS(papr_try_hcall(&pass, &grants, 0x08, args, receipts, RECEIPTS), PAPR_H_BUSY, 0, 2, false);
    is_held(ENTRY, 2, PAPR_HELD);
    IS(args[0], 0);
    IS(args[1], GROUP);
    IS(receipts[0].answer, PAPR_TAKEN);
    IS(receipts[1].answer, PAPR_TAKEN);
    let_go();
    struct papr_reply reply;
    do
        reply = papr_again(&pass, args, 8, receipts, RECEIPTS);
    while (reply.rc == PAPR_H_BUSY);
    IS(reply.rc, PAPR_H_SUCCESS);
    IS(reply.words, 1);
    IS(reply.receipts, 4);
    IS(args[0], 0x23);
    IS(args[1], GROUP);
    IS(receipts[2].answer, PAPR_TAKEN);
    IS(receipts[3].answer, PAPR_ENTERED);
}

/* A walk of the page in ENTRY, which is the third of its group. */
static void walk(void)
{
    struct papr_walk found;
    stop_where(is_walk_busy);
    for (int i = 0; i < 2; i++) {
        fill_rooms();
        found = i ? papr_walk_again(&pass, receipts, RECEIPTS) : papr_try_walk(&pass, &access, receipts, RECEIPTS);
        IS(found.outcome, PAPR_WALK_BUSY);
        IS(found.receipts, 2);
        IS(found.logical | found.dword0 | found.dword1 | found.entry, 0);
        IS(found.base_shift | found.actual_shift | found.rights | found.causes, 0);
        IS(receipts[1].answer, PAPR_NOMATCH);
        HOLDS(are_untouched(0, 2));
        is_held(ENTRY, 2, PAPR_CHANGING);
    }
    REFUSES(papr_again(&pass, ROOM));
    REFUSES(papr_try_h_read(&pass, 0, 0x40, ROOM));
    let_go();
    do
        found = papr_walk_again(&pass, receipts, RECEIPTS);
    while (found.outcome == PAPR_WALK_BUSY);
    IS(found.outcome, PAPR_WALK_AT);
    IS(found.entry, ENTRY);
    IS(found.receipts, 3);
    IS(found.logical, 0x6000);
    IS(receipts[2].answer, PAPR_AT);
    is_held_no_more();
}

/* What a call has made before it is given up stays made, and nothing more is made of it. */
static void give_up(void)
{
    const uint64_t pairs[8] = {request(0x40), 0, request(ENTRY), 0, request(0x42), 0, UINT64_C(3) << 62};
    ANSWERS(papr_try_h_enter(&pass, &grants, PAPR_EXACT, 0x40, 0x1001, 0x3012, ROOM), PAPR_H_SUCCESS, 1, 1, false);
    ANSWERS(papr_try_h_enter(&pass, &grants, PAPR_EXACT, 0x42, 0x1001, 0x3012, ROOM), PAPR_H_SUCCESS, 1, 1, false);
    stop_where(is_call_busy);
    ANSWERS(papr_try_h_bulk_remove(&pass, pairs, 8, ROOM), PAPR_H_BUSY, 8, 1, true);
    is_held(ENTRY, 1, PAPR_HELD);
    papr_give_up(&pass);
    is_held_no_more();
    ANSWERS(papr_try_h_read(&pass, 0, 0x40, ROOM), PAPR_H_SUCCESS, 2, 1, false);
    IS(words[0], 0);
    ANSWERS(papr_try_h_remove(&pass, 0, 0x42, 0, ROOM), PAPR_H_SUCCESS, 2, 1, true);
    ANSWERS(papr_try_h_read(&pass, 0, ENTRY, ROOM), PAPR_H_BUSY, 0, 0, false);
    let_go();
    IS(finish().rc, PAPR_H_SUCCESS);
    IS(words[0] & 1, 1);
}

/* A pass with a call to go on with is split as any other. */
static void split(void)
{
    struct papr_pass fourth = {0};
    stop_where(is_call_busy);
    ANSWERS(papr_try_h_read(&pass, 0, ENTRY, ROOM), PAPR_H_BUSY, 0, 0, false);
    IS(papr_split(&pass, &fourth), PAPR_H_SUCCESS);
    is_held(ENTRY, 0, PAPR_HELD);
    IS(papr_held_up(&fourth).hold, PAPR_NOT_HELD_UP);
    ANSWERS(papr_try_h_read(&fourth, 0, 0x40, ROOM), PAPR_H_SUCCESS, 2, 1, false);
    IS(finish().rc, PAPR_H_SUCCESS);
    IS(papr_join(&pass, &fourth), PAPR_H_SUCCESS);
}

int main(void)
{
    if (!begin())
        return 1;
    IS(papr_split(&pass, &third), PAPR_H_SUCCESS);
    nothing_else();
    four_entries();
    walk();
    split();
    by_number();
    give_up();
    four_pairs();
    atomic_store(&is_over, true);
    pthread_join(other, NULL);
    IS(papr_join(&pass, &their_pass), PAPR_H_SUCCESS);
    IS(papr_join(&pass, &third), PAPR_H_SUCCESS);
    IS(papr_close(&pass, table, COUNT), PAPR_H_SUCCESS);
    return failures ? 1 : 0;
}
