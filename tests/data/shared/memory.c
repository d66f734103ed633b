/* Each allocation of papr_open and papr_split refused in turn, and that no other call allocates. To be linked with
 * --wrap for malloc, calloc, realloc, aligned_alloc and free, so that all that the library takes is counted. */
#include "expect.h"

#include <stdlib.h>

void *__real_malloc(size_t size), *__real_calloc(size_t count, size_t size), *__real_realloc(void *old, size_t size);
void *__real_aligned_alloc(size_t alignment, size_t size);
void __real_free(void *block);
void *__wrap_malloc(size_t size), *__wrap_calloc(size_t count, size_t size), *__wrap_realloc(void *old, size_t size);
void *__wrap_aligned_alloc(size_t alignment, size_t size);
void __wrap_free(void *block);

enum { MOST = 100 };

static struct papr_grants grants;
static struct papr_entry table[COUNT], closing[COUNT];
static long asked, refused, held;   /* allocations so far, the one that is refused if it isn't 0, blocks that are held */

static bool is_refused(void)
{
    return ++asked == refused;
}

static void *counted(void *block)
{
    held += block != NULL;
    return block;
}

void *__wrap_malloc(size_t size)
{
    return is_refused() ? NULL : counted(__real_malloc(size));
}

void *__wrap_calloc(size_t count, size_t size)
{
    return is_refused() ? NULL : counted(__real_calloc(count, size));
}

void *__wrap_realloc(void *old, size_t size)
{
    if (is_refused())
        return NULL;
    held -= old != NULL;
    return counted(__real_realloc(old, size));
}

void *__wrap_aligned_alloc(size_t alignment, size_t size)
{
    return is_refused() ? NULL : counted(__real_aligned_alloc(alignment, size));
}

void __wrap_free(void *block)
{
    held -= block != NULL;
    __real_free(block);
}

/* From the next one on, the allocation of this number is refused. */
static void refuse(long number)
{
    asked = 0;
    refused = number;
}

/* Opens with one allocation refused after the other, until none is. */
static void opens(struct papr_pass *pass)
{
    long number = 0;
    int64_t rc = PAPR_H_NO_MEM;
    while (rc == PAPR_H_NO_MEM && number < MOST) {
        refuse(++number);
        rc = papr_open(table, COUNT, ORDER, 2, pass);
        if (rc == PAPR_H_NO_MEM)
            HOLDS(is_closed(pass) && held == 0);
    }
    IS(rc, PAPR_H_SUCCESS);
    HOLDS(number > 1);
    printf("open: %ld allocations\n", number - 1);
}

static void splits(struct papr_pass *pass, struct papr_pass *other)
{
    long number = 0, before = held;
    int64_t rc = PAPR_H_NO_MEM;
    struct papr_pass was = *pass;
    while (rc == PAPR_H_NO_MEM && number < MOST) {
        refuse(++number);
        rc = papr_split(pass, other);
        if (rc == PAPR_H_NO_MEM)
            HOLDS(is_same_pass(pass, &was) && is_closed(other) && held == before);
    }
    IS(rc, PAPR_H_SUCCESS);
    HOLDS(number > 1);
    printf("split: %ld allocations\n", number - 1);
}

/* Calls on both passes; then they are joined and the table is closed, and nothing was asked for. */
static void without_memory(struct papr_pass *pass, struct papr_pass *other)
{
    const struct papr_access access = {.ea = 0x5000, .vsid = 1, .shift = 12, .want = 1};
    refuse(1);
    ANSWERS(papr_try_h_enter(pass, &grants, 0, 0x20, 0x1001, 0x3012, ROOM), PAPR_H_SUCCESS, 1, 1, false);
    IS(papr_try_walk(other, &access, receipts, RECEIPTS).outcome, PAPR_WALK_AT);
    ANSWERS(papr_try_h_read(other, PAPR_READ_4, 0x20, ROOM), PAPR_H_SUCCESS, 8, 4, false);
    ANSWERS(papr_try_h_clear_mod(pass, 0, 0x20, ROOM), PAPR_H_SUCCESS, 1, 1, true);
    ANSWERS(papr_try_h_protect(other, 3, 0x20, 0, ROOM), PAPR_H_SUCCESS, 0, 1, true);
    REFUSES(papr_again(other, ROOM));
    papr_give_up(other);
    IS(papr_join(pass, other), PAPR_H_SUCCESS);
    IS(papr_close(pass, closing, COUNT), PAPR_H_SUCCESS);
    IS(asked, 0);
    IS(held, 0);
    IS(closing[0x20].stamp, 3);
    IS(closing[0x20].referenced, true);
}

int main(void)
{
    struct papr_pass pass = {0}, other = {0}, more = {0};
    grant(&grants);
    opens(&pass);
    splits(&pass, &other);
    refuse(0);
    IS(papr_split(&pass, &more), PAPR_H_RESOURCE);
    IS(papr_split(&other, &more), PAPR_H_RESOURCE);
    without_memory(&pass, &other);
    return failures ? 1 : 0;
}
