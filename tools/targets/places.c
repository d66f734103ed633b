/*
 * What the toolchain brings for the tests of a crate on x86-64, over the C library. A thread keeps the name of the place
 * where a test may end, and it is written where a test does end the process.
 */
#include <stddef.h>
#include <string.h>
#include <unistd.h>

const char *__rattle_keep_place(const char *place);
void __rattle_write_place(void);

static _Thread_local const char *kept;

/* Keeps a place, and answers the one before. */
const char *__rattle_keep_place(const char *place)
{
    const char *before = kept;
    kept = place;
    return before;
}

void __rattle_write_place(void)
{
    size_t length = kept != NULL ? strlen(kept) : 0;
    ssize_t written = write(STDOUT_FILENO, kept, length);
    (void)written; /* the process ends, whatever came of it */
}
