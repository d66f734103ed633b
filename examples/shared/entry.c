#include "entry.h"

static const uint64_t R = 0x100, C = 0x80, TAG = ~UINT64_C(0x7f), PROTECTION = 7;

/* Doubleword 1 as calls show it. */
static uint64_t shown(const struct papr_entry *entry)
{
    return entry->dword1 | (entry->referenced ? R : 0) | (entry->changed ? C : 0);
}

/* Whether the entry is valid and passes the test of a call's flags. */
static bool is_found(const struct papr_entry *entry, const struct operation *operation)
{
    return entry->valid && !(operation->first & PAPR_AVPN && (entry->dword0 & TAG) != operation->second) &&
           !(operation->first & PAPR_ANDCOND && entry->dword0 & operation->second);
}

/* Whether the entry's PP lets a load or a store in: the calls here leave PP0 clear. */
static bool lets_in(const struct papr_entry *entry, uint64_t wanted)
{
    unsigned pp = entry->dword1 & 3;
    if (wanted & WITH_KEY)
        return wanted & A_STORE ? pp == 2 : pp != 0;
    return !(wanted & A_STORE) || pp != 3;
}

static enum papr_answer answer_of(const struct papr_entry *entry, const struct operation *operation)
{
    switch (operation->kind) {
    case ENTER:
        return entry->valid ? PAPR_TAKEN : PAPR_ENTERED;
    case READ:
        return PAPR_READ;
    case PROTECT:
        return is_found(entry, operation) ? PAPR_PROTECTED : PAPR_NOTFOUND;
    case CLEAR_REF:
    case CLEAR_MOD:
        return entry->valid ? PAPR_WAS : PAPR_NOTFOUND;
    case WALK:
        if (!entry->valid || entry->dword0 != operation->first)
            return PAPR_NOMATCH;
        return lets_in(entry, operation->second) ? PAPR_AT : PAPR_DENIED;
    default:
        return is_found(entry, operation) ? PAPR_REMOVED : PAPR_NOTFOUND;
    }
}

uint8_t bits_of(const struct operation *access)
{
    return access->second & A_STORE ? 3 : 2;
}

struct papr_receipt receipt_of(uint32_t index, const struct papr_entry *entry, const struct operation *operation)
{
    return (struct papr_receipt){entry->dword0, shown(entry), index, entry->stamp,
                                 (uint8_t)(2 * entry->referenced + entry->changed),
                                 (uint8_t)answer_of(entry, operation)};
}

void leave(struct papr_entry *entry, const struct operation *operation)
{
    uint64_t first = operation->first, second = operation->second;
    switch (answer_of(entry, operation)) {
    case PAPR_ENTERED:
        *entry = (struct papr_entry){.dword0 = first, .dword1 = second & ~(R | C), .stamp = entry->stamp + 1,
                                     .valid = true, .referenced = second & R, .changed = second & C};
        break;
    case PAPR_REMOVED:
        *entry = (struct papr_entry){.stamp = entry->stamp + 1};
        break;
    case PAPR_PROTECTED:
        entry->dword1 = (entry->dword1 & ~PROTECTION) | (first & PROTECTION);
        entry->stamp++;
        break;
    case PAPR_WAS:
        if (operation->kind == CLEAR_REF)
            entry->referenced = false;
        else
            entry->changed = false;
        entry->stamp++;
        break;
    case PAPR_AT:
        entry->referenced = true;
        entry->changed = entry->changed || second & A_STORE;
        break;
    default:
        break;
    }
}

bool is_same_entry(const struct papr_entry *one, const struct papr_entry *other)
{
    return one->dword0 == other->dword0 && one->dword1 == other->dword1 && one->stamp == other->stamp &&
           one->valid == other->valid && one->referenced == other->referenced && one->changed == other->changed;
}
