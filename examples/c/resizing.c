/* The tables of a guest, and the two calls by which it changes their size (docs/FORMATS.md). */
#include "replay.h"

#include <stdlib.h>
#include <string.h>

static bool meets(uint64_t place, uint64_t size, const struct table *t)
{
    return t->entries && place < t->place + (UINT64_C(1) << t->order) && t->place < place + size;
}

bool open_table(const struct guest *guest, struct table *table, uint8_t order)
{
    uint64_t size = UINT64_C(1) << order, end = guest->pool_base + (UINT64_C(1) << guest->pool_order);
    for (uint64_t place = guest->pool_base; place + size <= end; place += size) {
        if (meets(place, size, &guest->current) || meets(place, size, &guest->pending))
            continue;
        *table = (struct table){.order = order, .count = (size_t)1 << (order - 4), .place = place};
        table->entries = calloc(table->count, sizeof *table->entries);
        return table->entries != NULL;
    }
    return false;
}

static void close_table(struct table *table)
{
    free(table->entries);
    *table = (struct table){0};
}

void close_tables(struct guest *guest)
{
    close_table(&guest->current);
    close_table(&guest->pending);
}

/* The pending table is in the library's hands while it is prepared: here is its memory alone. */
int64_t prepare(struct guest *guest, uint64_t flags, uint64_t shift)
{
    struct table *pending = &guest->pending, none = {0};
    bool is_order = !flags && shift >= 18 && shift <= guest->limit;
    if (is_order && pending->order != shift) {
        close_table(pending);
        open_table(guest, pending, (uint8_t)shift);
    }
    struct table *lent = is_order ? pending : &none;
    int64_t rc = papr_resize_prepare(&guest->resize, (uint8_t)guest->limit, flags, shift, lent->entries,
                                     lent->count);
    if (!guest->resize.pending)
        close_table(pending);
    return rc;
}

int64_t commit(struct guest *guest, uint64_t flags, uint64_t shift)
{
    struct table *current = &guest->current, *pending = &guest->pending;
    struct papr_rehash r = papr_resize_commit(&guest->resize, current->entries, current->count, current->order,
                                              pending->entries, pending->count, flags, shift);
    if (r.rc == PAPR_H_SUCCESS) {
        close_table(current);
        *current = *pending;
        *pending = (struct table){0};
        guest->number++;
        memset(guest->cache, 0, sizeof guest->cache);
    } else if (!guest->resize.pending) {
        close_table(pending);
    }
    return r.rc;
}
