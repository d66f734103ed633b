/*
 * papr for C, the running table: hypervisor calls and walks of several threads at once on one table,
 * with no lock around them. It goes beside papr.h, whose calls take a table that one caller has for
 * itself. The calls, words and receipts are those of papr.h.
 *
 * papr_open copies the caller's entries into a table of the library's own, and makes a pass with all
 * shares of it. Each thread needs a pass of its own: papr_split makes one. papr_join takes a pass back,
 * and papr_close writes the entries back, so shared and serial use take turns on the same entries. A
 * resize is: stop the other threads, papr_join, papr_close, papr_rehash, papr_open, papr_split.
 *
 * No call waits or sleeps, and each returns. If another thread is at an entry, the answer is PAPR_H_BUSY
 * (of a walk PAPR_WALK_BUSY). The pass then keeps the call and what it has made, and papr_again goes on
 * with it at the same entry; until then the pass refuses other calls with PAPR_H_PARAMETER. So no
 * operation is made twice, and the answer in the end is that of the whole call.
 *
 *     struct papr_reply reply = papr_try_h_enter(&pass, &grants, flags, ptex, pteh, ptel,
 *                                                words, 8, receipts, 16);
 *     for (unsigned tries = 1; reply.rc == PAPR_H_BUSY; tries++) {
 *         if (tries > 16)
 *             sched_yield();
 *         reply = papr_again(&pass, words, 8, receipts, 16);
 *     }
 *
 * A busy entry belongs to another thread that is inside a call, and the scheduler may have put that
 * thread aside: so yield after some tries, and sleep after some more. No bound on the tries is proved.
 *
 * The functions can't check these conditions, so the caller has to ensure them: a pass is all zero or as
 * the calls left it, is never copied, and is in one call at a time (it may move from thread to thread
 * if a lock or a join orders that); no thread ends inside a call, and none leaves it by longjmp;
 * papr_join takes passes of one table; and what papr.h says of parameters. The library takes memory by
 * malloc in papr_open and papr_split alone.
 *
 * A thread that ends inside a call (pthread_cancel) may leave its entry busy for good, and its pass as one
 * that can't be joined; then the table can't be closed. In a child that fork made while other threads were
 * inside calls the table is lost in the same way. The child may open another one.
 *
 * A call needs at most 2 KB of stack on x86-64, papr_open 12 KB, and papr_close 4 KB.
 */
#ifndef PAPR_SHARED_H
#define PAPR_SHARED_H

#include "papr.h"

#ifdef __cplusplus
extern "C" {
#endif

/* An outcome of a walk beside those of enum papr_outcome: papr_walk_again goes on with it. */
#define PAPR_WALK_BUSY 6

/* The right of a thread to work on a table. All zero is a closed pass, on which each call answers
 * PAPR_H_PARAMETER (a walk: PAPR_WALK_PARAMETER) and changes nothing. */
struct papr_pass {
    void *at;
    bool live;
};

/* ---- passes */

/* Opens a table with these entries, for 1 to 64 passes, and makes `pass`, which must be closed, a pass
 * with all shares. PAPR_H_PARAMETER: the pass isn't closed, the order or the count of entries or passes
 * is out of range; PAPR_H_NO_MEM. The pass is then as it was. */
int64_t papr_open(const struct papr_entry *entries, size_t count, uint8_t order, uint32_t passes,
                  struct papr_pass *pass);

/* Makes `other`, which must be closed, a new pass of the same table, with one of the shares of `pass`.
 * PAPR_H_PARAMETER: `pass` is closed, or `other` isn't; PAPR_H_RESOURCE: `pass` has only one share;
 * PAPR_H_NO_MEM. Both are then as they were. */
int64_t papr_split(struct papr_pass *pass, struct papr_pass *other);

/* Takes `other` into `pass`: its shares and what it has made; `other` is closed then. PAPR_H_PARAMETER:
 * one of them is closed; PAPR_H_BUSY: one of them has a call to go on with. Both are then as they were. */
int64_t papr_join(struct papr_pass *pass, struct papr_pass *other);

/* Writes the entries back, frees the table, and closes the pass, which must have all shares.
 * PAPR_H_PARAMETER: the pass is closed, or the count isn't that of the table; PAPR_H_RESOURCE: other
 * passes have shares; PAPR_H_BUSY: it has a call to go on with. Nothing changes then. An entry that is
 * another one than before is marked. */
int64_t papr_close(struct papr_pass *pass, struct papr_entry *entries, size_t count);

/* ---- the calls on entries, as in papr.h. If a call is busy, the words and receipts so far are filled in,
 * and of H_BULK_REMOVE the eight words with the responses so far. */

struct papr_reply papr_try_h_enter(struct papr_pass *pass, const struct papr_grants *grants,
                                   uint64_t flags, uint64_t ptex, uint64_t pteh, uint64_t ptel,
                                   uint64_t *words, size_t words_room, struct papr_receipt *receipts,
                                   size_t receipts_room);
struct papr_reply papr_try_h_remove(struct papr_pass *pass, uint64_t flags, uint64_t ptex,
                                    uint64_t avpn, uint64_t *words, size_t words_room,
                                    struct papr_receipt *receipts, size_t receipts_room);
struct papr_reply papr_try_h_protect(struct papr_pass *pass, uint64_t flags, uint64_t ptex,
                                     uint64_t avpn, uint64_t *words, size_t words_room,
                                     struct papr_receipt *receipts, size_t receipts_room);
struct papr_reply papr_try_h_read(struct papr_pass *pass, uint64_t flags, uint64_t ptex,
                                  uint64_t *words, size_t words_room, struct papr_receipt *receipts,
                                  size_t receipts_room);
struct papr_reply papr_try_h_clear_ref(struct papr_pass *pass, uint64_t flags, uint64_t ptex,
                                       uint64_t *words, size_t words_room,
                                       struct papr_receipt *receipts, size_t receipts_room);
struct papr_reply papr_try_h_clear_mod(struct papr_pass *pass, uint64_t flags, uint64_t ptex,
                                       uint64_t *words, size_t words_room,
                                       struct papr_receipt *receipts, size_t receipts_room);

struct papr_reply papr_try_h_bulk_remove(struct papr_pass *pass, const uint64_t *pairs,
                                         size_t pairs_count, uint64_t *words, size_t words_room,
                                         struct papr_receipt *receipts, size_t receipts_room);

/* A call by its number, as papr_hcall. If it is busy, papr_again takes `args` as its `words`. */
struct papr_reply papr_try_hcall(struct papr_pass *pass, const struct papr_grants *grants,
                                 uint64_t number, uint64_t args[8], struct papr_receipt *receipts,
                                 size_t receipts_room);

/* Goes on with the call of this pass that was busy. The words and receipts of the whole call, those of
 * earlier tries too, are filled in from the first element on. PAPR_H_PARAMETER: there is no such call. */
struct papr_reply papr_again(struct papr_pass *pass, uint64_t *words, size_t words_room,
                             struct papr_receipt *receipts, size_t receipts_room);

/* ---- the walk, as papr_walk */

struct papr_walk papr_try_walk(struct papr_pass *pass, const struct papr_access *access,
                               struct papr_receipt *receipts, size_t receipts_room);

/* Goes on with the walk of this pass that was busy. */
struct papr_walk papr_walk_again(struct papr_pass *pass, struct papr_receipt *receipts,
                                 size_t receipts_room);

/* ---- a call that is held up */

enum papr_hold {
    PAPR_NOT_HELD_UP = 0,       /* the pass has nothing to go on with, or is closed */
    PAPR_HELD = 1,              /* another thread holds the lock of the entry */
    PAPR_CHANGING = 2           /* another thread changes the entry's control word (a walk) */
};

struct papr_busy {
    uint64_t looked;            /* the control word that the try noted */
    uint64_t found;             /* .. and the one that its last step found */
    uint32_t entry;             /* the entry of the next operation */
    uint32_t done;              /* how many operations of the call are made */
    uint32_t hold;              /* an enum papr_hold */
};

/* Why the call of this pass is busy. */
struct papr_busy papr_held_up(struct papr_pass *pass);

/* Gives up the call that is busy. What it has made stays made. For a processor that is reset. */
void papr_give_up(struct papr_pass *pass);

/* ---- the layout of the structs, as the library for x86-64 has it: asserted from C11 and from C++11
 * on */

#if defined(__cplusplus) && __cplusplus >= 201103L
#define PAPR_TEST static_assert
#elif !defined(__cplusplus) && defined(__STDC_VERSION__) && __STDC_VERSION__ >= 201112L
#define PAPR_TEST _Static_assert
#endif

#ifdef PAPR_TEST
#define PAPR_SIZE(name, bytes) PAPR_TEST(sizeof(struct name) == (bytes), "the size of " #name)
#define PAPR_AT(name, field, bytes) \
    PAPR_TEST(offsetof(struct name, field) == (bytes), "the place of " #name "." #field)

PAPR_SIZE(papr_pass, 16);
PAPR_AT(papr_pass, at, 0);
PAPR_AT(papr_pass, live, 8);
PAPR_SIZE(papr_busy, 32);
PAPR_AT(papr_busy, looked, 0);
PAPR_AT(papr_busy, found, 8);
PAPR_AT(papr_busy, entry, 16);
PAPR_AT(papr_busy, done, 20);
PAPR_AT(papr_busy, hold, 24);

#undef PAPR_AT
#undef PAPR_SIZE
#undef PAPR_TEST
#endif

#ifdef __cplusplus
}
#endif

#endif
