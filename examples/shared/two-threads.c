/* Two processors of a guest, a thread each: both enter pages of their own into one group of eight entries, until it is
 * full. In the end the table is the caller's again. */
#include <papr_shared.h>

#include <pthread.h>
#include <sched.h>
#include <stdio.h>
#include <stdlib.h>

enum { ORDER = 18, COUNT = 1 << 14, GROUP = 0x20, CALLS = 16 };

struct processor {
    struct papr_pass pass;
    uint64_t vsid;              /* of its first page */
    int entered;
};

static struct papr_grants grants;

static void *run(void *given)
{
    struct processor *processor = given;
    uint64_t words[8];
    struct papr_receipt receipts[16];
    for (uint64_t i = 0; i < CALLS; i++) {
        struct papr_reply reply = papr_try_h_enter(&processor->pass, &grants, 0, GROUP, (processor->vsid + i) << 12 | 1,
                                                   0x3012, words, 8, receipts, 16);
        while (reply.rc == PAPR_H_BUSY) {
            sched_yield();
            reply = papr_again(&processor->pass, words, 8, receipts, 16);
        }
        processor->entered += reply.rc == PAPR_H_SUCCESS;
    }
    return NULL;
}

int main(void)
{
    struct papr_grant ram = {0, UINT64_C(0x2000000000), 0x40000000, false};
    struct papr_entry *table = calloc(COUNT, sizeof *table);
    struct processor first = {.vsid = 1}, second = {.vsid = 1 + CALLS};
    pthread_t thread;
    papr_make_grants(&ram, 1, UINT64_C(0x1000000000), 24, &grants);
    if (!table || papr_open(table, COUNT, ORDER, 2, &first.pass) || papr_split(&first.pass, &second.pass) ||
        pthread_create(&thread, NULL, run, &second))
        return 1;
    run(&first);
    pthread_join(thread, NULL);
    if (papr_join(&first.pass, &second.pass) || papr_close(&first.pass, table, COUNT))
        return 1;
    for (int i = GROUP; i < GROUP + 8; i++)
        printf("entry %#x: %s\n", i, table[i].valid ? "valid" : "empty");
    printf("%d of %d calls entered a page\n", first.entered + second.entered, 2 * CALLS);
    free(table);
    return 0;
}
