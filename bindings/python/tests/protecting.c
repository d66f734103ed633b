/* Protects an entry of a shared table over and over, with no Python in between, until it is over. The caller has the
 * library already, and gives its functions. */
#include <papr_shared.h>

#include <stdatomic.h>

typedef struct papr_reply protecting(struct papr_pass *pass, uint64_t flags, uint64_t ptex, uint64_t avpn,
                                     uint64_t *words, size_t words_room, struct papr_receipt *receipts,
                                     size_t receipts_room);
typedef struct papr_reply going_on(struct papr_pass *pass, uint64_t *words, size_t words_room,
                                   struct papr_receipt *receipts, size_t receipts_room);

void protect_until(const atomic_bool *is_over, struct papr_pass *pass, uint64_t ptex, protecting *protect,
                   going_on *again)
{
    while (!atomic_load(is_over)) {
        struct papr_reply reply = protect(pass, 2, ptex, 0, NULL, 0, NULL, 0);
        while (reply.rc == PAPR_H_BUSY)
            reply = again(pass, NULL, 0, NULL, 0);
    }
}
