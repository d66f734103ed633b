/* Recording: papr-record.h has the format. */
#include "qemu/osdep.h"
#include "qemu/atomic.h"
#include "qemu/error-report.h"
#include "qemu/timer.h"
#include "cpu.h"
#include "hw/ppc/spapr.h"
#include "papr-record.h"

#define BUFFER (1 << 20)
#define MOST_WORDS (12 + 8 + PAPR_MOST_RECEIPTS)
#define PLANT_AFTER 1000        /* calls of an actor before an error is planted */
#define COUNTED_AT_ONCE 256     /* records of an actor */

enum kind { CALL = 1, WALK = 2, MASKS = 3, MARK = 4, PART = 5, THE_END = 6 };

struct actor {
    FILE *file;
    uint64_t made;              /* in this part */
    uint64_t calls;
    uint64_t amr, iamr;         /* as they are recorded */
    uint64_t stale[MOST_WORDS]; /* a walk, to be repeated when its entry has changed */
    int stale_count;
} QEMU_ALIGNED(64);
static struct actor actors[PAPR_MOST_ACTORS];
static unsigned actor_count;
static uint64_t part, mark;
static uint64_t all_made;       /* by all actors in this part, as far as it is counted */
static bool is_due;             /* a part has been asked for */
static bool is_paused;          /* nothing of this part is recorded */
static uint8_t limit_of_part;

/* ---- words */

static void fail(void)
{
    error_report("papr: the recording can't be written: %s", strerror(errno));
    exit(1);
}

static void put(struct actor *a, const uint64_t *words, size_t count)
{
    if (fwrite_unlocked(words, sizeof *words, count, a->file) != count)
        fail();
}

static void put_two(struct actor *a, enum kind kind, uint64_t first, uint64_t second)
{
    uint64_t words[] = {kind, cpu_get_host_ticks(), first, second};
    put(a, words, kind == MASKS ? 4 : 3);
}

static uint64_t word_of(const struct papr_receipt *r)
{
    return (uint64_t)r->answer << 60 | (uint64_t)r->bits << 56 | (uint64_t)r->stamp << 24 | r->entry;
}

static int put_receipts(uint64_t *words, const struct papr_receipt *made, unsigned count)
{
    for (unsigned i = 0; i < count; i++)
        words[i] = word_of(&made[i]);
    return count;
}

/* Counts a record of an actor; whether the part has as many as it may have. */
static bool is_full(struct actor *a)
{
    if (++a->made % COUNTED_AT_ONCE)
        return false;
    return qatomic_add_fetch(&all_made, COUNTED_AT_ONCE) >= papr_options.part && !qatomic_xchg(&is_due, true);
}

/* ---- while no actor works */

static void mark_all(enum kind kind, uint64_t number)
{
    for (unsigned i = 0; i < actor_count; i++)
        put_two(&actors[i], kind, number, 0);
}

/* So that what was recorded so far can be read, however QEMU ends. */
static void flush_all(void)
{
    for (unsigned i = 0; i < actor_count; i++)
        if (fflush(actors[i].file) != 0)
            fail();
}

static FILE *open_file(const char *name)
{
    g_autofree char *path = g_build_filename(papr_options.record, name, NULL);
    FILE *file = fopen(path, "w");
    if (!file) {
        error_report("papr: %s: %s", path, strerror(errno));
        exit(1);
    }
    return file;
}

static void open_actors(unsigned wanted)
{
    for (; actor_count < wanted; actor_count++) {
        g_autofree char *name = g_strdup_printf("actor-%u", actor_count);
        struct actor *a = &actors[actor_count];
        a->file = open_file(name);
        setvbuf(a->file, NULL, _IOFBF, BUFFER);
    }
}

/* Where each actor's records of the part begin. */
static void write_places(FILE *head)
{
    fprintf(head, "# begins at");
    for (unsigned i = 0; i < actor_count; i++)
        fprintf(head, " %" PRIu64, (uint64_t)ftello(actors[i].file) / sizeof(uint64_t));
    fprintf(head, "\n");
}

static void write_head(FILE *head, const struct papr_rest *rest, const struct papr_grants *grants)
{
    fprintf(head, "order %d\nlimit %d\ncpus %u\n", rest->order, limit_of_part, actor_count);
    for (uint32_t i = 0; i < grants->count; i++) {
        const struct papr_grant *g = &grants->grants[i];
        fprintf(head, "%s 0x%" PRIx64 " 0x%" PRIx64 " 0x%" PRIx64 "\n", g->is_io ? "io" : "ram", g->logical,
                g->machine, g->length);
    }
    for (size_t p = 0; p < rest->count; p++) {
        const struct papr_entry *e = &rest->entries[p];
        if (e->valid)
            fprintf(head, "entry old 0x%zx %016" PRIx64 "%016" PRIx64 "\n", p, e->dword0,
                    e->dword1 | (e->referenced ? 0x100 : 0) | (e->changed ? 0x80 : 0));
    }
    fprintf(head, "begin\n");
}

static FILE *begin_head(unsigned wanted)
{
    open_actors(wanted);
    g_autofree char *name = g_strdup_printf("part-%" PRIu64 ".head", ++part);
    FILE *head = open_file(name);
    write_places(head);
    return head;
}

static void begin_part(FILE *head)
{
    if (fclose(head) != 0)
        error_report("papr: part %" PRIu64 " of the recording can't be written: %s", part, strerror(errno));
    mark_all(PART, part);
    flush_all();
    for (unsigned i = 0; i < actor_count; i++)
        actors[i].made = actors[i].amr = actors[i].iamr = actors[i].stale_count = 0;
    qatomic_set(&all_made, 0);
    qatomic_set(&is_due, false);
}

void papr_record_part(struct papr_rest *rest, const struct papr_grants *grants, unsigned wanted, uint8_t limit)
{
    FILE *head = begin_head(wanted);
    is_paused = false;
    limit_of_part = MIN(PAPR_HIGHEST_IN_TRACE, MAX(limit, rest->order));
    write_head(head, rest, grants);
    begin_part(head);
    for (size_t p = 0; p < rest->count; p++)
        rest->entries[p].stamp = 0;
}

void papr_record_pause(unsigned wanted, uint64_t order)
{
    if (is_paused)
        return;
    FILE *head = begin_head(wanted);
    is_paused = true;
    fprintf(head, "unrecorded %" PRIu64 "\n", order);
    begin_part(head);
}

bool papr_record_is_paused(void)
{
    return is_paused;
}

bool papr_record_has(uint64_t number, uint64_t shift, int64_t rc)
{
    return number != H_RESIZE_HPT_PREPARE || rc == PAPR_H_PARAMETER ||
           (rc == PAPR_H_RESOURCE) == (shift > limit_of_part);
}

void papr_record_later(void)
{
    qatomic_set(&is_due, false);
}

void papr_record_quiet(unsigned actor, uint64_t number, uint64_t flags, uint64_t shift, int64_t rc)
{
    const uint64_t asked[8] = {flags, shift};
    const struct papr_reply reply = {.rc = rc};
    if (is_paused)
        return;
    mark_all(MARK, ++mark);
    if (papr_record_call(actor, number, asked, &reply, NULL, NULL))
        papr_record_later();
    mark_all(MARK, ++mark);
}

/* ---- errors that are planted */

/* A walk that found an entry is kept, and repeated when the same actor has removed or changed the entry. */
static void plant_stale(struct actor *a, const uint64_t *words, int count, const struct papr_receipt *last)
{
    bool is_walk = (words[0] & 0xff) == WALK;
    if (is_walk && last->answer == PAPR_AT && !a->stale_count && a->calls > PLANT_AFTER) {
        memcpy(a->stale, words, count * sizeof *words);
        a->stale_count = count;
    } else if (!is_walk && a->stale_count && last->entry == (a->stale[a->stale_count - 1] & 0xffffff) &&
               (last->answer == PAPR_REMOVED || last->answer == PAPR_PROTECTED)) {
        put(a, a->stale, a->stale_count);
        papr_options.plant = PAPR_NO_PLANT;
        info_report("papr: a stale walk of entry 0x%" PRIx32 " is planted", last->entry);
    }
}

/* The words of an H_REMOVE of one actor stand in the answer of another actor's. */
static void plant_exchange(unsigned actor, uint64_t *words, const uint64_t *answer)
{
    static uint64_t kept[2];
    static int from = -1;
    static QemuSpin lock;
    qemu_spin_lock(&lock);
    if (from < 0) {
        memcpy(kept, answer, sizeof kept);
        from = actor;
    } else if ((unsigned)from != actor && memcmp(kept, answer, sizeof kept) && papr_options.plant != PAPR_NO_PLANT) {
        memcpy(words, kept, sizeof kept);
        papr_options.plant = PAPR_NO_PLANT;
        info_report("papr: processor %u has the words of processor %d", actor, from);
    }
    qemu_spin_unlock(&lock);
}

static bool is_planted(enum papr_plant plant, const struct actor *a)
{
    return papr_options.plant == plant && a->calls > PLANT_AFTER;
}

/* ---- each actor on its own thread */

bool papr_record_call(unsigned actor, uint64_t number, const uint64_t *asked, const struct papr_reply *reply,
                      const uint64_t *answer, const struct papr_receipt *made)
{
    struct actor *a = &actors[actor];
    uint64_t words[MOST_WORDS];
    unsigned receipts = reply->receipts;
    bool is_removal = number == H_REMOVE && reply->rc == PAPR_H_SUCCESS;
    if (is_paused)
        return false;
    a->calls++;
    if (is_removal && is_planted(PAPR_PLANT_DROP, a)) {
        receipts = 0;
        papr_options.plant = PAPR_NO_PLANT;
        info_report("papr: a receipt of entry 0x%" PRIx32 " is dropped", made[0].entry);
    }
    words[0] = CALL | receipts << 8 | reply->words << 16;
    words[1] = cpu_get_host_ticks();
    words[2] = number;
    words[3] = reply->rc;
    memcpy(words + 4, asked, 8 * sizeof *asked);
    if (reply->words)
        memcpy(words + 12, answer, reply->words * sizeof *answer);
    if (is_removal && is_planted(PAPR_PLANT_EXCHANGE, a))
        plant_exchange(actor, words + 12, answer);
    int size = 12 + reply->words;
    size += put_receipts(words + size, made, receipts);
    put(a, words, size);
    if (papr_options.plant == PAPR_PLANT_STALE && receipts == 1)
        plant_stale(a, words, size, made);
    return is_full(a);
}

bool papr_record_walk(unsigned actor, uint64_t slb, enum papr_record_flags flags, const struct papr_access *access,
                      const struct papr_walk *walk, const struct papr_receipt *made)
{
    struct actor *a = &actors[actor];
    uint64_t words[MOST_WORDS];
    if (is_paused)
        return false;
    if (a->amr != access->amr || a->iamr != access->iamr) {
        a->amr = access->amr;
        a->iamr = access->iamr;
        put_two(a, MASKS, a->amr, a->iamr);
    }
    words[0] = WALK | walk->receipts << 8 | walk->outcome << 16 | (uint64_t)access->want << 24 |
               (uint64_t)access->shift << 32 | (uint64_t)flags << 40;
    words[1] = cpu_get_host_ticks();
    words[2] = access->ea;
    words[3] = slb;
    words[4] = walk->logical;
    int size = 5 + put_receipts(words + 5, made, walk->receipts);
    put(a, words, size);
    if (papr_options.plant == PAPR_PLANT_STALE && walk->receipts)
        plant_stale(a, words, size, &made[walk->receipts - 1]);
    return is_full(a);
}

void papr_record_end(bool is_at_rest)
{
    if (is_at_rest)
        mark_all(THE_END, 0);
    for (unsigned i = 0; i < actor_count; i++)
        if (fflush(actors[i].file) != 0)
            error_report("papr: the recording can't be written: %s", strerror(errno));
}
