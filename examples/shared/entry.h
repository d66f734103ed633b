/* One entry as papr.h describes it, by hand: what it answers to an operation, and what is left. */
#ifndef ENTRY_H
#define ENTRY_H

#include "history.h"

/* The receipt of an operation on an entry in this state. */
struct papr_receipt receipt_of(uint32_t index, const struct papr_entry *entry, const struct operation *operation);

/* Makes an operation on an entry. */
void leave(struct papr_entry *entry, const struct operation *operation);

/* The bits that an access that is allowed sets: R counts 2, C counts 1. */
uint8_t bits_of(const struct operation *access);

bool is_same_entry(const struct papr_entry *one, const struct papr_entry *other);

#endif
