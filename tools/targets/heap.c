/*
 * The heap of the Rattle toolchain over the C library's, for a processor for which the toolchain brings none. These are
 * the three functions that it calls. A block of no bytes is asked for with as many as its alignment, and no type of papr
 * wants another alignment than malloc's.
 */
#include <stdbool.h>
#include <stddef.h>
#include <stdlib.h>

/* A block, or none: `ok` says which. */
struct tried {
    bool ok;
    void *at;
};

struct tried rattle_alloc(size_t bytes, size_t alignment);
struct tried rattle_realloc(void *at, size_t kept, size_t bytes, size_t alignment);
void rattle_dealloc(void *at);

static char nothing;

static struct tried tried(void *at)
{
    return (struct tried){at != NULL, at != NULL ? at : &nothing};
}

struct tried rattle_alloc(size_t bytes, size_t alignment)
{
    return tried(malloc(bytes != 0 ? bytes : alignment));
}

struct tried rattle_realloc(void *at, size_t kept, size_t bytes, size_t alignment)
{
    (void)kept;
    return tried(realloc(at, bytes != 0 ? bytes : alignment));
}

void rattle_dealloc(void *at)
{
    free(at);
}
