#include "calls.h"

#include <sched.h>
#include <string.h>
#include <time.h>

enum {
    NEAR_GROUP = 4,             /* the one group */
    PAGES = 8,                  /* pages that a group is for, of segments 1 to 8 */
    SPINS = 16,                 /* tries before the first yield */
    YIELDS = 64                 /* tries before the first sleep */
};

/* ---- random calls */

uint64_t draw(uint64_t *seed, uint64_t below)
{
    *seed ^= *seed << 13;
    *seed ^= *seed >> 7;
    *seed ^= *seed << 17;
    return (*seed * UINT64_C(0x2545f4914f6cdd1d) >> 32) * below >> 32;
}

/* Of a hundred calls so many are of each kind; the rest are walks. */
static enum kind draw_kind(uint64_t *seed)
{
    static const struct { enum kind kind; unsigned below; } shares[] = {
        {ENTER, 20}, {REMOVE, 40}, {PROTECT, 48}, {READ, 60}, {CLEAR_REF, 67}, {CLEAR_MOD, 74}, {BULK_REMOVE, 80},
    };
    uint64_t drawn = draw(seed, 100);
    for (unsigned i = 0; i < sizeof shares / sizeof *shares; i++)
        if (drawn < shares[i].below)
            return shares[i].kind;
    return WALK;
}

/* A test of the entry's first doubleword, one time of four. */
static uint64_t draw_test(uint64_t *seed, uint64_t test)
{
    return draw(seed, 4) ? 0 : test;
}

/* The first doubleword of a page of segments 1 to 8. An entry's group says the rest of its page. */
static uint64_t draw_dword0(uint64_t *seed)
{
    return (1 + draw(seed, PAGES)) << 12 | 1;
}

/* A real page with R and C as they come, coherent, and writable. */
static uint64_t draw_dword1(uint64_t *seed)
{
    uint64_t page = 3 + draw(seed, 64);
    return page << 12 | draw(seed, 4) << 7 | 0x12;
}

static void draw_pairs(uint64_t *seed, uint64_t group, uint64_t pairs[8])
{
    for (int i = 0; i < 8; i += 2) {
        uint64_t request = draw(seed, 16) ? 1 : 3, test = draw(seed, 4) ? 0 : 2;
        pairs[i] = request << 62 | test << 56 | (group * 8 + draw(seed, 8));
        pairs[i + 1] = draw_dword0(seed) & ~UINT64_C(0x7f);
    }
}

static struct papr_access draw_access(uint64_t *seed, uint64_t group)
{
    uint64_t segment = 1 + draw(seed, PAGES);
    return (struct papr_access){.ea = (segment ^ group) << 12 | draw(seed, 4096), .vsid = segment, .shift = 12,
                                .want = (uint8_t)draw(seed, 2), .key = draw(seed, 4) == 0};
}

struct call draw_call(uint64_t *seed, bool is_far)
{
    uint64_t group = is_far ? draw(seed, COUNT / 8) : NEAR_GROUP, ptex = group * 8 + draw(seed, 8);
    struct call call = {.kind = draw_kind(seed), .args = {0, ptex, 0, 0}};
    switch (call.kind) {
    case ENTER:
        call.args[0] = draw_test(seed, PAPR_EXACT);
        call.args[2] = draw_dword0(seed);
        call.args[3] = draw_dword1(seed);
        break;
    case REMOVE:
        call.args[0] = draw_test(seed, draw(seed, 2) ? PAPR_AVPN : PAPR_ANDCOND);
        call.args[2] = draw_dword0(seed) & ~UINT64_C(0x7f);
        break;
    case PROTECT:
        call.args[0] = draw(seed, 8) | draw_test(seed, PAPR_AVPN);
        call.args[2] = draw_dword0(seed) & ~UINT64_C(0x7f);
        break;
    case READ:
        call.args[0] = draw(seed, 3) ? 0 : PAPR_READ_4;
        break;
    case BULK_REMOVE:
        draw_pairs(seed, group, call.args);
        break;
    case WALK:
        call.access = draw_access(seed, group);
        break;
    case CLEAR_REF:
    case CLEAR_MOD:
        break;
    }
    return call;
}

bool make_grants(struct papr_grants *grants)
{
    struct papr_grant ram = {0, UINT64_C(0x2000000000), 0x40000000, false};
    return papr_make_grants(&ram, 1, UINT64_C(0x1000000000), 24, grants).refusal == PAPR_GRANTED;
}

bool is_same_receipt(const struct papr_receipt *one, const struct papr_receipt *other)
{
    return one->dword0 == other->dword0 && one->dword1 == other->dword1 && one->entry == other->entry &&
           one->stamp == other->stamp && one->bits == other->bits && one->answer == other->answer;
}

/* ---- a call that is busy */

/* How far a call was when it was busy. */
struct stop {
    struct papr_busy held;
    uint32_t made;
    struct papr_receipt receipts[RECEIPTS];
};

/* A moment's rest for a processor that spins, where the compiler has one. */
static void rest(void)
{
#if defined(__x86_64__)
    __builtin_ia32_pause();
#endif
}

/* Lets the other thread go on that is at the entry: it may have lost its processor. */
static void give_way(uint64_t tries)
{
    if (tries <= SPINS)
        rest();
    else if (tries <= YIELDS)
        sched_yield();
    else
        nanosleep(&(struct timespec){.tv_nsec = 50000}, NULL);
}

/* Notes how far it is, and lets others go on. */
static void stop_at(struct stop *stop, struct papr_pass *pass, struct answer *answer, uint32_t made)
{
    give_way(++answer->busy);
    if (!answer->is_watched)
        return;
    stop->held = papr_held_up(pass);
    stop->made = made;
    memcpy(stop->receipts, answer->receipts, made * sizeof *stop->receipts);
}

/* Whether a later try has the receipts of that one, and the next one is of the entry that was busy. */
static bool goes_on_from(const struct stop *stop, const struct answer *answer, uint32_t made)
{
    if (!answer->is_watched)
        return true;
    if (stop->held.hold == PAPR_NOT_HELD_UP || stop->held.done != stop->made || made < stop->made)
        return false;
    for (uint32_t i = 0; i < stop->made; i++)
        if (!is_same_receipt(&stop->receipts[i], &answer->receipts[i]))
            return false;
    return made == stop->made || answer->receipts[stop->made].entry == stop->held.entry;
}

/* ---- on a pass */

#define ROOMS answer->words, WORDS, answer->receipts, RECEIPTS

static struct papr_reply try_call(struct papr_pass *pass, const struct papr_grants *grants, const struct call *call,
                                  struct answer *answer)
{
    const uint64_t *a = call->args;
    switch (call->kind) {
    case ENTER: return papr_try_h_enter(pass, grants, a[0], a[1], a[2], a[3], ROOMS);
    case REMOVE: return papr_try_h_remove(pass, a[0], a[1], a[2], ROOMS);
    case PROTECT: return papr_try_h_protect(pass, a[0], a[1], a[2], ROOMS);
    case READ: return papr_try_h_read(pass, a[0], a[1], ROOMS);
    case CLEAR_REF: return papr_try_h_clear_ref(pass, a[0], a[1], ROOMS);
    case CLEAR_MOD: return papr_try_h_clear_mod(pass, a[0], a[1], ROOMS);
    default: return papr_try_h_bulk_remove(pass, a, 8, ROOMS);
    }
}

static void walk_pass(struct papr_pass *pass, const struct papr_access *access, struct answer *answer)
{
    struct stop stop;
    answer->walk = papr_try_walk(pass, access, answer->receipts, RECEIPTS);
    while (answer->walk.outcome == PAPR_WALK_BUSY) {
        stop_at(&stop, pass, answer, answer->walk.receipts);
        answer->walk = papr_walk_again(pass, answer->receipts, RECEIPTS);
        answer->goes_on = answer->goes_on && goes_on_from(&stop, answer, answer->walk.receipts);
    }
    answer->reply = (struct papr_reply){.receipts = answer->walk.receipts};
}

void call_pass(struct papr_pass *pass, const struct papr_grants *grants, const struct call *call,
               struct answer *answer)
{
    struct stop stop;
    answer->busy = 0;
    answer->goes_on = true;
    if (call->kind == WALK) {
        walk_pass(pass, &call->access, answer);
        return;
    }
    answer->reply = try_call(pass, grants, call, answer);
    while (answer->reply.rc == PAPR_H_BUSY) {
        stop_at(&stop, pass, answer, answer->reply.receipts);
        answer->reply = papr_again(pass, ROOMS);
        answer->goes_on = answer->goes_on && goes_on_from(&stop, answer, answer->reply.receipts);
    }
}

/* ---- on a table that one caller has */

void call_table(struct papr_entry *table, const struct papr_grants *grants, const struct call *call,
                struct answer *answer)
{
    const uint64_t *a = call->args;
    struct papr_reply *reply = &answer->reply;
    answer->busy = 0;
    answer->goes_on = true;
    switch (call->kind) {
    case ENTER: *reply = papr_h_enter(table, COUNT, ORDER, grants, a[0], a[1], a[2], a[3], ROOMS); break;
    case REMOVE: *reply = papr_h_remove(table, COUNT, ORDER, a[0], a[1], a[2], ROOMS); break;
    case PROTECT: *reply = papr_h_protect(table, COUNT, ORDER, a[0], a[1], a[2], ROOMS); break;
    case READ: *reply = papr_h_read(table, COUNT, ORDER, a[0], a[1], ROOMS); break;
    case CLEAR_REF: *reply = papr_h_clear_ref(table, COUNT, ORDER, a[0], a[1], ROOMS); break;
    case CLEAR_MOD: *reply = papr_h_clear_mod(table, COUNT, ORDER, a[0], a[1], ROOMS); break;
    case BULK_REMOVE: *reply = papr_h_bulk_remove(table, COUNT, ORDER, a, 8, ROOMS); break;
    case WALK:
        answer->walk = papr_walk(table, COUNT, ORDER, &call->access, answer->receipts, RECEIPTS);
        *reply = (struct papr_reply){.receipts = answer->walk.receipts};
        break;
    }
}
