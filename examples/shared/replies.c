#include "history.h"

#include <inttypes.h>
#include <stdio.h>

/* The entry of a call's operation of this number. */
static uint64_t entry_of(const struct call *call, uint32_t number)
{
    const uint64_t *a = call->args, groups = COUNT / 8;
    uint64_t hash = call->access.vsid ^ call->access.ea >> 12;
    switch (call->kind) {
    case ENTER: return a[0] & PAPR_EXACT ? a[1] : (a[1] & ~UINT64_C(7)) + number;
    case READ: return a[0] & PAPR_READ_4 ? (a[1] & ~UINT64_C(3)) + number : a[1];
    case BULK_REMOVE: return a[2 * number] & UINT64_C(0x00ffffffffffffff);
    case WALK: return ((number < 8 ? hash : ~hash) & (groups - 1)) * 8 + number % 8;
    default: return a[1];
    }
}

/* How many operations a call makes whose last one has this answer. */
static uint32_t operations_of(const struct call *call, const struct answer *answer, uint8_t last)
{
    uint32_t pairs = 0;
    switch (call->kind) {
    case ENTER: return last == PAPR_ENTERED ? answer->reply.receipts : call->args[0] & PAPR_EXACT ? 1 : 8;
    case READ: return call->args[0] & PAPR_READ_4 ? 4 : 1;
    case WALK: return last == PAPR_NOMATCH ? 16 : answer->reply.receipts;
    case BULK_REMOVE:
        while (pairs < 4 && call->args[2 * pairs] >> 62 == 1)
            pairs++;
        return pairs;
    default: return 1;
    }
}

/* What H_BULK_REMOVE responds for a pair, by its receipt. */
static uint64_t response_of(uint64_t request, const struct papr_receipt *receipt)
{
    uint64_t status = receipt->answer == PAPR_REMOVED ? UINT64_C(0x80) | (uint64_t)receipt->bits << 2 : 0x90;
    return status << 56 | (request & UINT64_C(0x03ffffffffffffff));
}

/* The words of a call, and how many there are. */
static uint32_t words_of(const struct call *call, const struct answer *answer, uint64_t words[WORDS])
{
    const struct papr_receipt *r = answer->receipts, *last = r + answer->reply.receipts - 1;
    uint32_t count = 0;
    switch (call->kind) {
    case ENTER:
        words[0] = last->entry;
        return last->answer == PAPR_ENTERED;
    case CLEAR_REF:
    case CLEAR_MOD:
        words[0] = last->dword1;
        return last->answer == PAPR_WAS;
    case REMOVE:
    case READ:
        for (uint32_t i = 0; i < answer->reply.receipts && r[i].answer != PAPR_NOTFOUND; i++) {
            words[count++] = r[i].dword0;
            words[count++] = r[i].dword1;
        }
        return count;
    case BULK_REMOVE:
        for (uint32_t i = 0; i < 8; i++)
            words[i] = i % 2 == 0 && i / 2 < answer->reply.receipts ? response_of(call->args[i], &r[i / 2])
                                                                    : call->args[i];
        return 8;
    default:
        return 0;
    }
}

static int64_t code_of(const struct call *call, uint8_t last)
{
    if (call->kind == ENTER)
        return last == PAPR_ENTERED ? PAPR_H_SUCCESS : PAPR_H_PTEG_FULL;
    return last == PAPR_NOTFOUND && call->kind != BULK_REMOVE ? PAPR_H_NOT_FOUND : PAPR_H_SUCCESS;
}

static bool is_walk_of(const struct call *call, const struct papr_walk *walk, const struct papr_receipt *last)
{
    uint64_t dword1 = last->dword1 | 0x100 | (call->access.want == 1 ? 0x80 : 0);
    if (last->answer == PAPR_NOMATCH)
        return walk->outcome == PAPR_WALK_NO_PAGE && walk->entry == 0 && walk->dword0 == 0;
    if (walk->entry != last->entry || walk->dword0 != last->dword0)
        return false;
    if (last->answer == PAPR_DENIED)
        return walk->outcome == PAPR_WALK_DENIED && walk->dword1 == last->dword1;
    return walk->outcome == PAPR_WALK_AT && walk->dword1 == dword1 &&
           walk->logical == ((dword1 & UINT64_C(0x0ffffffffffff000)) | (call->access.ea & 0xfff));
}

/* Whether it answers the whole call: code, words and `stale` by the receipts, each of its own entry. */
static bool is_whole(const struct call *call, const struct answer *answer)
{
    uint64_t words[WORDS];
    const struct papr_reply *reply = &answer->reply;
    uint8_t last = reply->receipts ? answer->receipts[reply->receipts - 1].answer : PAPR_READ;
    bool stale = false;
    if (reply->receipts != operations_of(call, answer, last))
        return false;
    for (uint32_t i = 0; i < reply->receipts; i++) {
        uint8_t said = answer->receipts[i].answer;
        stale = stale || said == PAPR_REMOVED || said == PAPR_PROTECTED || said == PAPR_WAS;
        if (answer->receipts[i].entry != entry_of(call, i))
            return false;
    }
    if (call->kind == WALK)
        return is_walk_of(call, &answer->walk, &answer->receipts[reply->receipts - 1]);
    if (reply->rc != code_of(call, last) || reply->stale != stale || reply->words != words_of(call, answer, words))
        return false;
    for (uint32_t i = 0; i < reply->words; i++)
        if (answer->words[i] != words[i])
            return false;
    return true;
}

bool is_of_its_receipts(const struct call *call, const struct answer *answer)
{
    if (answer->goes_on && is_whole(call, answer))
        return true;
    printf("a call of kind %d at entry %#" PRIx64 " was answered %" PRId64 ", with %" PRIu32 " words and %" PRIu32
           " receipts, and that isn't the answer of one whole call\n", call->kind, entry_of(call, 0),
           call->kind == WALK ? (int64_t)answer->walk.outcome : answer->reply.rc, answer->reply.words,
           answer->reply.receipts);
    return false;
}
