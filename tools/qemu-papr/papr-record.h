/*
 * Recording what a table answers, which is papr's or QEMU's own: each actor writes its calls and walks, with their
 * receipts, into a buffer of its own. judge-recording makes of a recording traces with replies, which `papr check` judges.
 *
 * A recording is a folder. It has `part-N.head`, the configuration of a trace as text, for each part, and `actor-N`,
 * words of 64 bits in the host's order, for each actor. The first line of a head says at which word of each actor the
 * part begins. No trace has a table above order 22: in a part where there is one, or one is prepared, the actors
 * record nothing, and its head is `unrecorded` with the order. A record of an actor is
 *
 *   word 0    bits 0 to 7 its kind, 8 to 15 the number of its receipts
 *   word 1    the host's clock when it was made
 *   a call    in word 0 bits 16 to 23 the number of words of the answer; then the call's number, its code,
 *             its eight arguments, the words, and the receipts
 *   a walk    in word 0 bits 16 to 23 the outcome, 24 to 31 what it wants, 32 to 39 the base page's shift,
 *             bit 40 for problem state, and bit 41 if each stamp may be one more or less (a search of QEMU's
 *             beside a call); then the address, the segment's second word, the logical address, and the
 *             receipts
 *   masks     AMR and IAMR of the walks from here on, which are 0 at first in each part
 *   a mark    a number, which all actors have: what is before it was made before all that is after it in
 *             any actor. A resize call is the only record between two marks
 *   a part    the part's number, in all actors. With it all that was recorded before is written out: a part is whole
 *             if the next one begins in all actors, or the recording ends in all
 *   the end   0, in all actors. It is missing if QEMU was killed
 *
 * A receipt is one word: bits 0 to 23 the entry, 24 to 55 the stamp, 56 to 57 the bits, 60 to 63 the answer.
 */
#ifndef HW_PPC_PAPR_RECORD_H
#define HW_PPC_PAPR_RECORD_H

#include "papr-table.h"

/* ---- while no actor works */

/* Begins a part with these entries, whose stamps become 0. */
void papr_record_part(struct papr_rest *rest, const struct papr_grants *grants, unsigned actors, uint8_t limit);

/* Begins a part of which nothing is recorded, since no trace has what is done with a table of this order; or goes
 * on with one. */
void papr_record_pause(unsigned actors, uint64_t order);
bool papr_record_is_paused(void);

/* Whether a trace gives this answer to a resize call: it has the limit of its head. */
bool papr_record_has(uint64_t number, uint64_t shift, int64_t rc);

/* The part that is due can't begin yet. */
void papr_record_later(void);

/* A resize call. */
void papr_record_quiet(unsigned actor, uint64_t number, uint64_t flags, uint64_t shift, int64_t rc);

/* Writes what is buffered, at the end. If actors may be at work, the last part isn't whole. */
void papr_record_end(bool is_at_rest);

/* ---- each actor on its own thread; whether another part is due, which is said once */

bool papr_record_call(unsigned actor, uint64_t number, const uint64_t *asked, const struct papr_reply *reply,
                      const uint64_t *words, const struct papr_receipt *made);
enum papr_record_flags { PAPR_IN_PROBLEM_STATE = 1, PAPR_BESIDE_A_CALL = 2 };
bool papr_record_walk(unsigned actor, uint64_t slb, enum papr_record_flags flags, const struct papr_access *access,
                      const struct papr_walk *walk, const struct papr_receipt *made);

#endif
