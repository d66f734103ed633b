/*
 * Refuses the allocation whose number REFUSED has, and then writes a byte to the descriptor TOLD. To be loaded before
 * the program and its C library, whose calls of malloc, calloc, realloc and the aligned ones it counts.
 */
#include <errno.h>
#include <stdatomic.h>
#include <stdlib.h>
#include <unistd.h>

void *__libc_malloc(size_t), *__libc_calloc(size_t, size_t), *__libc_realloc(void *, size_t);
void *__libc_memalign(size_t, size_t);

static atomic_long made;
static long refused = -1, told = -1;

__attribute__((constructor)) static void begin(void)
{
    const char *number = getenv("REFUSED"), *descriptor = getenv("TOLD");
    if (descriptor)
        told = atol(descriptor);
    if (number)
        refused = atol(number);
}

static int is_refused(void)
{
    if (refused < 0 || atomic_fetch_add(&made, 1) + 1 != refused)
        return 0;
    if (write((int)told, "x", 1) != 1)
        abort();
    errno = ENOMEM;
    return 1;
}

void *malloc(size_t n)
{
    return is_refused() ? 0 : __libc_malloc(n);
}

void *calloc(size_t n, size_t m)
{
    return is_refused() ? 0 : __libc_calloc(n, m);
}

void *realloc(void *p, size_t n)
{
    return is_refused() ? 0 : __libc_realloc(p, n);
}

void *memalign(size_t a, size_t n)
{
    return is_refused() ? 0 : __libc_memalign(a, n);
}

void *aligned_alloc(size_t a, size_t n)
{
    return is_refused() ? 0 : __libc_memalign(a, n);
}

int posix_memalign(void **p, size_t a, size_t n)
{
    if (is_refused())
        return ENOMEM;
    *p = __libc_memalign(a, n);
    return *p ? 0 : ENOMEM;
}
