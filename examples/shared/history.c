#include "history.h"
#include "entry.h"

#include <inttypes.h>
#include <stdio.h>
#include <stdlib.h>
#include <string.h>

/* ---- the log */

/* The operation of a call that gave its receipt of this number. */
static struct operation operation_of(const struct call *call, uint32_t number)
{
    const uint64_t *a = call->args;
    if (call->kind == ENTER)
        return (struct operation){ENTER, a[2], a[3]};
    if (call->kind == BULK_REMOVE) {
        uint64_t test = a[2 * number] >> 56 & 3;
        return (struct operation){REMOVE, test == 2 ? PAPR_AVPN : 0, a[2 * number + 1]};
    }
    if (call->kind == WALK) {
        const struct papr_access *access = &call->access;
        uint64_t secondary = number >= 8 ? 2 : 0;
        return (struct operation){WALK, access->vsid << 12 | secondary | 1,
                                  (access->want == 1 ? A_STORE : 0) | (access->key ? WITH_KEY : 0)};
    }
    return (struct operation){call->kind, a[0], a[2]};
}

bool keep(struct log *log, uint32_t thread, const struct call *call, const struct answer *answer)
{
    if (log->count + RECEIPTS > log->room) {
        size_t room = log->room ? 2 * log->room : 1 << 16;
        struct made *made = realloc(log->made, room * sizeof *made);
        if (!made)
            return false;
        log->made = made;
        log->room = room;
    }
    for (uint32_t i = 0; i < answer->reply.receipts; i++, log->count++)
        log->made[log->count] = (struct made){answer->receipts[i], operation_of(call, i), thread,
                                              (uint32_t)log->count};
    return true;
}

/* ---- the order */

/* Whether this operation left its entry in another state. */
static bool is_change(const struct made *made)
{
    const struct papr_receipt *r = &made->receipt;
    return r->answer == PAPR_ENTERED || r->answer == PAPR_REMOVED || r->answer == PAPR_PROTECTED ||
           r->answer == PAPR_WAS || (r->answer == PAPR_AT && (r->bits | bits_of(&made->operation)) != r->bits);
}

/* By entry, stamp and bits; what leaves the state as it is comes before what changes it. */
static int by_place(const void *one, const void *other)
{
    const struct made *a = one, *b = other;
    if (a->receipt.entry != b->receipt.entry)
        return a->receipt.entry < b->receipt.entry ? -1 : 1;
    if (a->receipt.stamp != b->receipt.stamp)
        return a->receipt.stamp < b->receipt.stamp ? -1 : 1;
    if (a->receipt.bits != b->receipt.bits)
        return a->receipt.bits < b->receipt.bits ? -1 : 1;
    return is_change(a) - is_change(b);
}

/* All receipts of the threads, in order; NULL if there is no memory. */
static struct made *in_order(const struct log *logs, uint32_t threads, size_t *count)
{
    *count = 0;
    for (uint32_t t = 0; t < threads; t++)
        *count += logs[t].count;
    struct made *all = malloc((*count + 1) * sizeof *all), *next = all;
    for (uint32_t t = 0; all && t < threads; next += logs[t++].count)
        if (logs[t].count)
            memcpy(next, logs[t].made, logs[t].count * sizeof *all);
    if (all)
        qsort(all, *count, sizeof *all, by_place);
    return all;
}

/* Takes the middle one of the changes out. */
static void drop_change(struct made *all, size_t *count)
{
    size_t at = *count / 2;
    while (at < *count && !is_change(&all[at]))
        at++;
    if (at < *count)
        memmove(&all[at], &all[at + 1], (--*count - at) * sizeof *all);
}

/* ---- the check */

/* No thread sees an entry's stamp fall. */
static bool do_stamps_rise(const struct log *log, uint32_t thread)
{
    uint32_t *seen = calloc(COUNT, sizeof *seen);
    bool rise = seen != NULL;
    for (size_t i = 0; rise && i < log->count; i++) {
        const struct papr_receipt *r = &log->made[i].receipt;
        rise = r->stamp >= seen[r->entry];
        if (!rise)
            printf("thread %" PRIu32 ", receipt %zu: the stamp of entry %#" PRIx32 " fell\n", thread, i, r->entry);
        seen[r->entry] = r->stamp;
    }
    free(seen);
    return rise;
}

/* Whether a receipt shows this state, and what an entry in it answers. */
static bool is_next(const struct made *made, const struct papr_entry *state)
{
    const struct papr_receipt *r = &made->receipt;
    struct papr_receipt expected = receipt_of(r->entry, state, &made->operation);
    if (is_same_receipt(r, &expected))
        return true;
    printf("entry %#" PRIx32 ": receipt %" PRIu32 " of thread %" PRIu32 " shows stamp %" PRIu32 ", bits %u, %#" PRIx64
           " %#" PRIx64 ", answer %u; after the one before it is stamp %" PRIu32 ", bits %u, %#" PRIx64 " %#" PRIx64
           ", answer %u\n", r->entry, made->number, made->thread, r->stamp, r->bits, r->dword0, r->dword1, r->answer,
           expected.stamp, expected.bits, expected.dword0, expected.dword1, expected.answer);
    return false;
}

/* Follows the receipts of one entry, of which there may be none, and counts them and the changes. */
static bool follow(const struct made *next, const struct made *end, uint32_t entry, const struct papr_entry *opening,
                   const struct papr_entry *closing, size_t *followed, size_t *changes)
{
    struct papr_entry state = *opening;
    for (*followed = 0; next < end && next->receipt.entry == entry; next++, ++*followed) {
        if (!is_next(next, &state))
            return false;
        leave(&state, &next->operation);
        *changes += is_change(next);
    }
    if (is_same_entry(&state, closing))
        return true;
    printf("entry %#" PRIx32 ": it closes at stamp %" PRIu32 ", and its last receipt leaves stamp %" PRIu32
           " or another content\n", entry, closing->stamp, state.stamp);
    return false;
}

bool is_legal(const struct log *logs, uint32_t threads, const struct papr_entry *opening,
              const struct papr_entry *closing, bool drop)
{
    size_t count, entries = 0, changes = 0, followed;
    struct made *all = in_order(logs, threads, &count), *next = all;
    bool legal = all != NULL;
    if (legal && drop)
        drop_change(all, &count);
    for (uint32_t t = 0; legal && t < threads; t++)
        legal = do_stamps_rise(&logs[t], t);
    for (uint32_t entry = 0; legal && entry < COUNT; entry++, next += followed) {
        legal = follow(next, all + count, entry, &opening[entry], &closing[entry], &followed, &changes);
        entries += followed > 0;
    }
    if (legal)
        printf("%zu receipts of %zu entries, %zu changes: each entry has one legal history, from its opening to its "
               "closing state\n", count, entries, changes);
    free(all);
    return legal;
}
