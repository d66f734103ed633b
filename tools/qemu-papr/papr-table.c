/* papr's table in mode answer: papr-table.h says what each function is for. */
#include "qemu/osdep.h"
#include "qemu/error-report.h"
#include "qemu/thread.h"
#include "cpu.h"
#include "papr-table.h"

#define TRIES_BEFORE_YIELD 64
#define TRIES_BEFORE_SLEEP 4096

static struct {
    struct papr_entry *entries;         /* in the running table's form as it was opened */
    size_t count;
    uint8_t order;
    struct papr_grants grants;
    unsigned actors;
    uint64_t tries[PAPR_MOST_ACTORS];
#if PAPR_HAS_PASSES
    struct papr_pass passes[PAPR_MOST_ACTORS];
#endif
} t;

/* Round each call and walk in the locked form, and round those of the last actor in the other. */
static QemuMutex lock;

/* The places for receipts: none if nothing reads them. */
static size_t room(void)
{
    return papr_options.record ? PAPR_MOST_RECEIPTS : 0;
}

void papr_table_grant(const struct papr_grant *given, size_t count)
{
    struct papr_making made = papr_make_grants(given, count, 1ULL << 40, 24, &t.grants);
    if (made.refusal != PAPR_GRANTED) {
        error_report("papr: grant %zu is refused: %" PRIu32, made.index, made.refusal);
        exit(1);
    }
}

const struct papr_grants *papr_table_grants(void)
{
    return &t.grants;
}

bool papr_table_is_there(void)
{
    return t.entries != NULL;
}

uint64_t papr_table_tries(void)
{
    uint64_t all = 0;
    for (int i = 0; i < PAPR_MOST_ACTORS; i++)
        all += t.tries[i];
    return all;
}

#if PAPR_HAS_PASSES
/* ---- the running table */

static void must(int64_t rc, const char *deed)
{
    if (rc != PAPR_H_SUCCESS) {
        error_report("papr: the running table can't be %s: %" PRId64, deed, rc);
        exit(1);
    }
}

static void open_table(void)
{
    must(papr_open(t.entries, t.count, t.order, t.actors, &t.passes[0]), "opened");
    for (unsigned i = 1; i < t.actors; i++)
        must(papr_split(&t.passes[0], &t.passes[i]), "split");
}

static void close_table(void)
{
    for (unsigned i = 1; i < t.actors; i++)
        must(papr_join(&t.passes[0], &t.passes[i]), "joined");
    must(papr_close(&t.passes[0], t.entries, t.count), "closed");
}

/* Another thread is at the entry: it may have been put aside. */
static void wait_for_entry(unsigned actor, unsigned tries)
{
    t.tries[actor]++;
    if (tries >= TRIES_BEFORE_SLEEP)
        g_usleep(50);
    else if (tries >= TRIES_BEFORE_YIELD)
        sched_yield();
}

static struct papr_reply pass_call(unsigned actor, uint64_t number, uint64_t args[8],
                                   struct papr_receipt *made)
{
    struct papr_pass *pass = &t.passes[actor];
    struct papr_reply reply = papr_try_hcall(pass, &t.grants, number, args, made, room());
    for (unsigned tries = 0; reply.rc == PAPR_H_BUSY; tries++) {
        wait_for_entry(actor, tries);
        reply = papr_again(pass, args, 8, made, room());
    }
    return reply;
}

static struct papr_walk pass_walk(unsigned actor, const struct papr_access *access,
                                  struct papr_receipt *made)
{
    struct papr_pass *pass = &t.passes[actor];
    struct papr_walk walk = papr_try_walk(pass, access, made, room());
    for (unsigned tries = 0; walk.outcome == PAPR_WALK_BUSY; tries++) {
        wait_for_entry(actor, tries);
        walk = papr_walk_again(pass, made, room());
    }
    return walk;
}
#else
static void open_table(void)
{
}

static void close_table(void)
{
}

static struct papr_reply pass_call(unsigned actor, uint64_t number, uint64_t args[8],
                                   struct papr_receipt *made)
{
    g_assert_not_reached();
}

static struct papr_walk pass_walk(unsigned actor, const struct papr_access *access,
                                  struct papr_receipt *made)
{
    g_assert_not_reached();
}
#endif

/* ---- while no actor works */

void papr_table_put(struct papr_entry *entries, uint8_t order, unsigned actors)
{
    static bool is_begun;
    if (!is_begun)
        qemu_mutex_init(&lock);
    is_begun = true;
    if (actors > PAPR_MOST_ACTORS) {
        error_report("papr: a table is for at most %d processors", PAPR_MOST_ACTORS - 1);
        exit(1);
    }
    qemu_mutex_lock(&lock);
    if (t.entries && !papr_options.is_locked)
        close_table();
    g_free(t.entries);
    t.entries = entries;
    t.count = entries ? (size_t)1 << (order - 4) : 0;
    t.order = order;
    t.actors = actors;
    if (entries && !papr_options.is_locked)
        open_table();
    qemu_mutex_unlock(&lock);
}

struct papr_rest papr_table_take(void)
{
    qemu_mutex_lock(&lock);
    if (!papr_options.is_locked)
        close_table();
    return (struct papr_rest){t.entries, t.count, t.order};
}

void papr_table_give(const struct papr_rest *rest)
{
    t.entries = rest->entries;
    t.count = rest->count;
    t.order = rest->order;
    if (!papr_options.is_locked)
        open_table();
    qemu_mutex_unlock(&lock);
}

/* ---- each actor on its own thread */

struct papr_reply papr_table_call(unsigned actor, uint64_t number, uint64_t args[8],
                                  struct papr_receipt *made)
{
    if (!papr_options.is_locked)
        return pass_call(actor, number, args, made);
    qemu_mutex_lock(&lock);
    struct papr_reply reply = papr_hcall(t.entries, t.count, t.order, &t.grants, number, args, made,
                                         room());
    qemu_mutex_unlock(&lock);
    return reply;
}

struct papr_walk papr_table_walk(unsigned actor, const struct papr_access *access,
                                 struct papr_receipt *made)
{
    bool is_guarded = papr_options.is_locked || actor == t.actors - 1;
    if (is_guarded)
        qemu_mutex_lock(&lock);
    struct papr_walk walk = papr_options.is_locked
        ? papr_walk(t.entries, t.count, t.order, access, made, room())
        : pass_walk(actor, access, made);
    if (is_guarded)
        qemu_mutex_unlock(&lock);
    return walk;
}
