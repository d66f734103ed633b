/* Lists of grants that say that they have more than there is room for, each at the end of memory that may be read. They grant
 * nothing: the calls that ask for granted memory refuse, and change nothing. Writes a line for each difference. */
#define _GNU_SOURCE
#include <papr.h>
#include <stdio.h>
#include <string.h>
#include <sys/mman.h>
#include <unistd.h>

enum { ORDER = 18, ENTRIES = 1 << 14, WINDOW = 4 };

static int failures;

static void is(int line, const char *what, uint64_t got, uint64_t wanted)
{
    if (got != wanted && failures++ < 20)
        printf("line %d: %s is %#llx, not %#llx\n", line, what, (unsigned long long)got, (unsigned long long)wanted);
}
#define IS(got, wanted) is(__LINE__, #got, (uint64_t)(got), (uint64_t)(wanted))

static struct papr_entry entries[ENTRIES], before[ENTRIES], window[WINDOW], window_before[WINDOW];

/* A list of 64 grants of 16 MB each, just before memory that may not be read. */
static struct papr_grants *list_at_the_end(void)
{
    size_t page = (size_t)sysconf(_SC_PAGESIZE);
    char *memory = mmap(NULL, 2 * page, PROT_READ | PROT_WRITE, MAP_PRIVATE | MAP_ANONYMOUS, -1, 0);
    if (memory == MAP_FAILED || mprotect(memory + page, page, PROT_NONE) || page < sizeof(struct papr_grants))
        return NULL;
    struct papr_grants *list = (struct papr_grants *)(void *)(memory + page - sizeof *list);
    struct papr_grant given[64];
    for (uint64_t i = 0; i < 64; i++)
        given[i] = (struct papr_grant){.logical = i << 24, .machine = (i << 24) + (UINT64_C(1) << 40), .length = 1 << 24};
    IS(papr_make_grants(given, 64, UINT64_C(1) << 50, ORDER, list).refusal, PAPR_GRANTED);
    return list;
}

/* The calls that look at grants, by a list with this count. */
static void call(struct papr_grants *list, uint32_t count)
{
    uint64_t words[8], args[8] = {0, 0x20, 0x1001, 0x3012};
    struct papr_receipt receipts[16];
    list->count = count;
    IS(papr_machine_of(list, 0, 1).granted, 0);
    IS(papr_machine_of(list, UINT64_C(63) << 24, 1).granted, 0);
    IS(papr_h_enter(entries, ENTRIES, ORDER, list, 0, 0x20, 0x1001, 0x3012, words, 8, receipts, 16).rc, PAPR_H_PARAMETER);
    IS(papr_hcall(entries, ENTRIES, ORDER, list, 0x08, args, receipts, 16).rc, PAPR_H_PARAMETER);
    IS(papr_put_tce(window, WINDOW, 0, list, 0x1000, 0x3003, receipts, 16).rc, PAPR_H_PARAMETER);
    IS(memcmp(entries, before, sizeof entries), 0);
    IS(memcmp(window, window_before, sizeof window), 0);
}

int main(void)
{
    struct papr_grants *list = list_at_the_end();
    struct papr_receipt receipts[16];
    uint64_t words[8];
    if (!list)
        return 2;
    const uint32_t counts[] = {65, 66, 128, 1 << 16, UINT32_C(1) << 31, UINT32_MAX};
    for (size_t i = 0; i < sizeof counts / sizeof *counts; i++)
        call(list, counts[i]);
    list->count = 64;
    IS(papr_h_enter(entries, ENTRIES, ORDER, list, 0, 0x20, 0x1001, 0x3012, words, 8, receipts, 16).rc, PAPR_H_SUCCESS);
    return failures ? 1 : 0;
}
