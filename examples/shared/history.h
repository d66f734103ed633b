/* What threads did to entries, as their receipts say, and whether it is one legal history of each entry. */
#ifndef HISTORY_H
#define HISTORY_H

#include "calls.h"

/* An operation on one entry: a part of a call. */
struct operation {
    enum kind kind;             /* BULK_REMOVE doesn't occur: its operations are those of H_REMOVE */
    uint64_t first, second;     /* of H_ENTER the doublewords; of a walk the first doubleword of the page's entries,
                                 * and what `enum wanted` has; of the others flags and avpn */
};

enum wanted { A_STORE = 1, WITH_KEY = 2 };

/* An operation with its receipt. */
struct made {
    struct papr_receipt receipt;
    struct operation operation;
    uint32_t thread, number;    /* the number counts the thread's own */
};

/* What one thread made, in order. All zero is nothing. */
struct log {
    struct made *made;
    size_t count, room;
};

/* Adds what a call of this thread made. False if there is no memory. */
bool keep(struct log *log, uint32_t thread, const struct call *call, const struct answer *answer);

/* Whether an answer is that of one whole call: code, words and `stale` are those of its receipts, and each try went on
 * from the one before. Else it says so. */
bool is_of_its_receipts(const struct call *call, const struct answer *answer);

/* Whether what these threads made is one legal history of each entry, from its state in `opening` to that in
 * `closing`, and no thread saw a stamp fall. Writes what it found. `drop` leaves the receipt of a change out. */
bool is_legal(const struct log *logs, uint32_t threads, const struct papr_entry *opening,
              const struct papr_entry *closing, bool drop);

#endif
