/* A processor's cache of translations. A line is dropped when its page is walked anew: it is found to be one no
 * more by its entry's stamp, which each change of the entry raises. */
#include "replay.h"

#include <string.h>

static uint64_t index_of(const struct papr_slot *segment, uint64_t ea)
{
    return (ea & ((UINT64_C(1) << (segment->one_tb ? 40 : 28)) - 1)) >> segment->shift;
}

static bool is_of(const struct cached *line, const struct papr_slot *segment, uint64_t index)
{
    return line->index == index && line->page_of.vsid == segment->vsid &&
           line->page_of.shift == segment->shift && line->page_of.one_tb == segment->one_tb;
}

const struct cached *find_cached(const struct cache *cache, const struct papr_slot *segment, uint64_t ea,
                                 const struct papr_entry *entries)
{
    uint64_t index = index_of(segment, ea), set = index % 32;
    for (int i = 0; i < cache->count[set]; i++) {
        const struct cached *line = &cache->line[set][i];
        if (is_of(line, segment, index)) {
            const struct papr_entry *now = &entries[line->entry];
            return now->valid && now->stamp == line->stamp ? line : NULL;
        }
    }
    return NULL;
}

void after_walk(struct cache *cache, const struct papr_slot *segment, uint64_t ea, bool allowed,
                uint32_t entry, uint32_t stamp)
{
    uint64_t index = index_of(segment, ea), set = index % 32;
    struct cached *line = cache->line[set];
    uint8_t kept = 0;
    for (uint8_t i = 0; i < cache->count[set]; i++)
        if (!is_of(&line[i], segment, index))
            line[kept++] = line[i];
    if (allowed) {
        if (kept == 4)
            memmove(line, line + 1, --kept * sizeof *line);
        line[kept++] = (struct cached){.page_of = *segment, .index = index, .entry = entry, .stamp = stamp};
    }
    cache->count[set] = kept;
}
