/*
 * The calls of papr.h once more, on the same table and with the same answers, as one writes them in C by hand and
 * with no proof: what bench/c-calls measures papr against. Arguments and answers are those of papr.h.
 */
#ifndef PLAIN_TABLE_H
#define PLAIN_TABLE_H

#include <papr.h>

struct papr_reply plain_h_enter(struct papr_entry *entries, size_t count, uint8_t order,
                                const struct papr_grants *grants, uint64_t flags, uint64_t ptex, uint64_t pteh,
                                uint64_t ptel, uint64_t *words, size_t words_room, struct papr_receipt *receipts,
                                size_t receipts_room);
struct papr_reply plain_h_remove(struct papr_entry *entries, size_t count, uint8_t order, uint64_t flags,
                                 uint64_t ptex, uint64_t avpn, uint64_t *words, size_t words_room,
                                 struct papr_receipt *receipts, size_t receipts_room);
struct papr_reply plain_h_protect(struct papr_entry *entries, size_t count, uint8_t order, uint64_t flags,
                                  uint64_t ptex, uint64_t avpn, uint64_t *words, size_t words_room,
                                  struct papr_receipt *receipts, size_t receipts_room);
struct papr_reply plain_h_read(struct papr_entry *entries, size_t count, uint8_t order, uint64_t flags,
                               uint64_t ptex, uint64_t *words, size_t words_room, struct papr_receipt *receipts,
                               size_t receipts_room);
struct papr_reply plain_h_clear_ref(struct papr_entry *entries, size_t count, uint8_t order, uint64_t flags,
                                    uint64_t ptex, uint64_t *words, size_t words_room,
                                    struct papr_receipt *receipts, size_t receipts_room);
struct papr_reply plain_h_clear_mod(struct papr_entry *entries, size_t count, uint8_t order, uint64_t flags,
                                    uint64_t ptex, uint64_t *words, size_t words_room,
                                    struct papr_receipt *receipts, size_t receipts_room);
struct papr_reply plain_h_bulk_remove(struct papr_entry *entries, size_t count, uint8_t order,
                                      const uint64_t *pairs, size_t pairs_count, uint64_t *words,
                                      size_t words_room, struct papr_receipt *receipts, size_t receipts_room);
struct papr_walk plain_walk(struct papr_entry *entries, size_t count, uint8_t order,
                            const struct papr_access *access, struct papr_receipt *receipts, size_t receipts_room);
struct papr_walk plain_probe(const struct papr_entry *entries, size_t count, uint8_t order,
                             const struct papr_access *access);

#endif
