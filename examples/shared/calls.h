/* Random calls and walks, and how they are made: on a pass of a shared table, or on a table that one caller has. */
#ifndef CALLS_H
#define CALLS_H

#include <papr_shared.h>

enum { ORDER = 18, COUNT = 1 << 14, WORDS = 8, RECEIPTS = 16 };

enum kind { ENTER, REMOVE, PROTECT, READ, CLEAR_REF, CLEAR_MOD, BULK_REMOVE, WALK };

/* A call with its arguments, as registers 4 to 11 have them, or a walk. */
struct call {
    enum kind kind;
    uint64_t args[8];
    struct papr_access access;
};

/* What was answered. Of a walk `reply` has the count of receipts alone. `is_watched` is for the caller to set. */
struct answer {
    struct papr_reply reply;
    struct papr_walk walk;
    uint64_t words[WORDS];
    struct papr_receipt receipts[RECEIPTS];
    uint64_t busy;              /* how often an entry was busy */
    bool is_watched;            /* whether each try is compared with the one before */
    bool goes_on;               /* .. and goes on from there */
};

/* A random number below another, which is below 2^32. The seed isn't 0. */
uint64_t draw(uint64_t *seed, uint64_t below);

/* A random call: on one group of eight entries and the eight pages that it is for, or on any group and those pages
 * that it is for. */
struct call draw_call(uint64_t *seed, bool is_far);

/* The grants that the calls need. */
bool make_grants(struct papr_grants *grants);

bool is_same_receipt(const struct papr_receipt *one, const struct papr_receipt *other);

/* Makes a call on a pass, and goes on with it as long as an entry is busy. */
void call_pass(struct papr_pass *pass, const struct papr_grants *grants, const struct call *call,
               struct answer *answer);

/* Makes a call on a table that no other thread uses. */
void call_table(struct papr_entry *table, const struct papr_grants *grants, const struct call *call,
                struct answer *answer);

#endif
