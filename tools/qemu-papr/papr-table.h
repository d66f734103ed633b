/*
 * papr's table in mode answer. It is in one of two forms: entries in our own memory with one lock round
 * each call and walk (papr.h), or the running table, on which each actor works by a pass of its own and
 * without a lock (papr_shared.h). An actor is a processor; one more is for all other threads.
 */
#ifndef HW_PPC_PAPR_TABLE_H
#define HW_PPC_PAPR_TABLE_H

#include "papr-modes.h"

/* The entries while no actor works: between papr_table_take and papr_table_give. */
struct papr_rest {
    struct papr_entry *entries;
    size_t count;
    uint8_t order;
};

/* The memory that the guest may map. Where a grant is refused, the program ends. */
void papr_table_grant(const struct papr_grant *given, size_t count);
const struct papr_grants *papr_table_grants(void);

/* ---- while no actor works */

/* A table of 2^order bytes for so many actors takes the place of the one that is there, if one is. The
 * entries are g_free's; NULL leaves no table. */
void papr_table_put(struct papr_entry *entries, uint8_t order, unsigned actors);
bool papr_table_is_there(void);

/* The entries as all calls and walks have left them; they are the caller's until it gives them back, or
 * others in their place. */
struct papr_rest papr_table_take(void);
void papr_table_give(const struct papr_rest *rest);

/* ---- each actor on its own thread */

/* A call by its number, with its words instead of its arguments. There are PAPR_MOST_RECEIPTS places, which are filled
 * if a recording is made. */
struct papr_reply papr_table_call(unsigned actor, uint64_t number, uint64_t args[8],
                                  struct papr_receipt *made);
struct papr_walk papr_table_walk(unsigned actor, const struct papr_access *access,
                                 struct papr_receipt *made);

/* How often an entry was another thread's, so that a step was tried again. */
uint64_t papr_table_tries(void);

#endif
