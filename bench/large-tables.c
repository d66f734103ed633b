/*
 * Measures calls of papr.h on tables of several orders in one run: on one group over and over, which the caches hold,
 * and on groups at random, which they don't. Each table's memory is touched before. Then the memory and the time that
 * opening and closing a shared table takes, in a process of its own for each order. `bench/large-tables` builds and
 * runs it.
 */
#define _GNU_SOURCE
#include <papr.h>
#include <papr_shared.h>

#include <stdio.h>
#include <stdlib.h>
#include <string.h>
#include <sys/mman.h>
#include <sys/resource.h>
#include <sys/wait.h>
#include <time.h>
#include <unistd.h>

enum { TABLES = 3, CALLS = 200000, TURNS = 7, PAGE = 12, MILLION = 1000000 };

static const uint8_t orders[TABLES] = {18, 24, 30}, opened[] = {18, 22, 24, 26};

struct table {
    uint8_t order;
    size_t count;
    struct papr_entry *entries;
};

static struct papr_grants grants;
static uint64_t drawn = 1, sum;

static void stop_if(bool failed, const char *what)
{
    if (!failed)
        return;
    fprintf(stderr, "%s\n", what);
    exit(1);
}

static uint64_t draw(uint64_t below)
{
    drawn ^= drawn << 13, drawn ^= drawn >> 7, drawn ^= drawn << 17;
    return drawn % below;
}

static double now(void)
{
    struct timespec it;
    clock_gettime(CLOCK_MONOTONIC, &it);
    return it.tv_sec * 1e9 + it.tv_nsec;
}

static struct papr_entry *entries_of(size_t count)
{
    void *at = mmap(NULL, count * sizeof(struct papr_entry), PROT_READ | PROT_WRITE,
                    MAP_PRIVATE | MAP_ANONYMOUS | MAP_POPULATE, -1, 0);
    stop_if(at == MAP_FAILED, "there is no memory for a table");
    return at;
}

/* ---- the calls: each on a group, with what it needs there */

/* The page of this number, in a segment of which only the number's low bits count, has this group. */
static void enter_remove(const struct table *t, uint64_t group)
{
    uint64_t words[8], ptex = group * 8 + 7;
    struct papr_receipt r[16];
    sum += papr_h_enter(t->entries, t->count, t->order, &grants, PAPR_EXACT, ptex, group << 12 | 1, 0x12, words, 8, r,
                        16).rc;
    sum += papr_h_remove(t->entries, t->count, t->order, 0, ptex, 0, words, 8, r, 16).rc;
}

static void read_entry(const struct table *t, uint64_t group)
{
    uint64_t words[8];
    struct papr_receipt r[16];
    sum += papr_h_read(t->entries, t->count, t->order, 0, group * 8, words, 8, r, 16).rc;
}

static void walk(const struct table *t, uint64_t group)
{
    struct papr_access a = {.vsid = group, .shift = PAGE};
    struct papr_receipt r[16];
    sum += papr_walk(t->entries, t->count, t->order, &a, r, 16).receipts;
}

static const struct {
    const char *name;
    void (*run)(const struct table *, uint64_t);
} kinds[] = {{"H_ENTER and H_REMOVE", enter_remove}, {"H_READ", read_entry}, {"walk of sixteen entries", walk}};

/* Nanoseconds a call. */
static double turn(const struct table *t, void (*run)(const struct table *, uint64_t), bool is_cold)
{
    uint64_t groups = t->count / 8, group = draw(groups);
    double begun = now();
    for (int i = 0; i < CALLS; i++)
        run(t, is_cold ? draw(groups) : group);
    return (now() - begun) / CALLS;
}

static void measure(const struct table *tables)
{
    printf("| call | order | on one group, ns | times | on groups at random, ns | times |\n|---|---|---|---|---|---|\n");
    for (size_t kind = 0; kind < sizeof kinds / sizeof *kinds; kind++) {
        double best[TABLES][2];
        for (int i = 0; i < TABLES * 2; i++)
            best[i / 2][i % 2] = 1e12;
        for (int i = 0; i < TURNS; i++)
            for (int k = 0; k < TABLES * 2; k++) {
                double it = turn(&tables[k / 2], kinds[kind].run, k % 2);
                best[k / 2][k % 2] = it < best[k / 2][k % 2] ? it : best[k / 2][k % 2];
            }
        for (int k = 0; k < TABLES; k++)
            printf("| %s | %d | %.0f | %.2f | %.0f | %.2f |\n", kinds[kind].name, tables[k].order, best[k][0],
                   best[k][0] / best[0][0], best[k][1], best[k][1] / best[0][1]);
    }
}

/* ---- opening and closing */

/* In a process of its own: the greatest memory that it had beside its entries, and its time. */
static void open_and_close(uint8_t order)
{
    size_t count = (size_t)1 << (order - 4);
    struct papr_entry *entries = entries_of(count);
    struct papr_pass pass = {0};
    struct rusage before, after;
    getrusage(RUSAGE_SELF, &before);
    double begun = now();
    stop_if(papr_open(entries, count, order, 1, &pass) != PAPR_H_SUCCESS, "a table doesn't open");
    double between = now();
    stop_if(papr_close(&pass, entries, count) != PAPR_H_SUCCESS, "a table doesn't close");
    double ended = now();
    getrusage(RUSAGE_SELF, &after);
    printf("| %d | %.1f | %.1f | %.2f | %.2f |\n", order, count * sizeof *entries / 1e6,
           (after.ru_maxrss - before.ru_maxrss) / 1e3, (between - begun) / MILLION, (ended - between) / MILLION);
    fflush(stdout);
}

int main(void)
{
    struct papr_grant all = {0, UINT64_C(1) << 37, UINT64_C(1) << 28, false};
    struct table tables[TABLES];
    stop_if(papr_make_grants(&all, 1, UINT64_C(1) << 36, 24, &grants).refusal, "no grants");
    printf("| order | entries, MB | more at most, MB | open, ms | close, ms |\n|---|---|---|---|---|\n");
    fflush(stdout);
    for (size_t i = 0; i < sizeof opened; i++) {
        int status = 0;
        pid_t child = fork();
        if (!child) {
            open_and_close(opened[i]);
            _exit(0);
        }
        stop_if(child < 0 || waitpid(child, &status, 0) < 0 || status, "a table doesn't open and close");
    }
    puts("");
    for (int i = 0; i < TABLES; i++) {
        size_t count = (size_t)1 << (orders[i] - 4);
        tables[i] = (struct table){orders[i], count, entries_of(count)};
    }
    measure(tables);
    return sum == 1;
}
