/* The DMA windows of a guest (docs/FORMATS.md, "DMA windows"). */
#include "replay.h"

#include <stdlib.h>

bool open_window(struct guest *guest, uint64_t liobn, uint64_t base, uint64_t pages)
{
    struct window w = {.liobn = liobn, .base = base, .pages = pages};
    w.entries = calloc(w.pages, sizeof *w.entries);
    if (w.entries)
        guest->window[guest->window_count++] = w;
    return w.entries != NULL;
}

void close_windows(struct guest *guest)
{
    for (size_t i = 0; i < guest->window_count; i++)
        free(guest->window[i].entries);
    guest->window_count = 0;
}

static struct window *window_of(struct guest *guest, uint64_t liobn)
{
    for (size_t i = 0; i < guest->window_count; i++)
        if (guest->window[i].liobn == liobn)
            return &guest->window[i];
    return NULL;
}

struct papr_reply call_window(struct guest *guest, uint64_t number, const uint64_t *a, uint64_t *words,
                              struct papr_receipt *made)
{
    struct window *w = window_of(guest, a[0]);
    if (!w)
        return (struct papr_reply){.rc = PAPR_H_PARAMETER};
    if (number == H_PUT_TCE)
        return papr_put_tce(w->entries, w->pages, w->base, &guest->grants, a[1], a[2], made, 16);
    return papr_get_tce(w->entries, w->pages, w->base, a[1], words, 8, made, 16);
}

struct papr_device access_device(struct guest *guest, uint64_t liobn, uint64_t ioba, bool write,
                                 struct papr_receipt *made)
{
    struct window *w = window_of(guest, liobn);
    if (!w)
        return (struct papr_device){.outcome = PAPR_DEVICE_NO_WINDOW};
    return papr_device(w->entries, w->pages, w->base, &guest->grants, ioba, write, made, 16);
}
