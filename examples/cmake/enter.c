/* Enters a page as a guest does, and walks the table for it. CMake finds the library by pkg-config:
 *
 *   cmake -S examples/cmake -B build && cmake --build build && build/enter
 */
#include <inttypes.h>
#include <papr.h>
#include <stdio.h>
#include <stdlib.h>

enum { ORDER = 18, COUNT = 1 << (ORDER - 4) };

int main(void)
{
    const struct papr_grant ram = {0, 0x2000000000, 0x40000000, false};
    const struct papr_access load = {.ea = 0x5678, .vsid = 1, .shift = 12, .want = 0};
    struct papr_entry *table = calloc(COUNT, sizeof *table);
    struct papr_grants grants = {0};
    uint64_t words[8];

    if (table == NULL)
        return 1;
    papr_make_grants(&ram, 1, 0x1000000000, 24, &grants);
    struct papr_reply reply = papr_h_enter(table, COUNT, ORDER, &grants, 0, 0x20, 0x1001, 0x3012, words, 8, NULL, 0);
    struct papr_walk walk = papr_walk(table, COUNT, ORDER, &load, NULL, 0);
    printf("H_ENTER %" PRId64 ", entry 0x%" PRIx64 "; ", reply.rc, words[0]);
    printf("0x%" PRIx64 " is at 0x%" PRIx64 "\n", load.ea, walk.logical);
    free(table);
    return 0;
}
