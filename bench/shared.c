/*
 * Measures calls and walks of threads on the shared table against the same ones on a table behind a mutex. The calls are
 * those of examples/shared. With the name of a call it makes that one by one thread, on both tables in turn, so that a
 * profiler can count. `bench/shared` builds and runs it.
 */
#include "calls.h"

#include <pthread.h>
#include <stdio.h>
#include <stdlib.h>
#include <string.h>
#include <time.h>

enum { CALLS = 400000, TURNS = 9, MOST_THREADS = 4 };

/* Where the table for single calls has entries: the middle half of its groups is empty, so that both groups of a page
 * are full or both empty. */
enum { FIRST_EMPTY = COUNT / 4, FIRST_FULL = COUNT / 4 * 3 };

/* Each has cache lines of its own, since a call writes its pass. */
struct worker {
    _Alignas(128) struct papr_pass pass;
    pthread_t thread;
    uint64_t seed, busy;
    bool is_far;
};

static struct papr_grants grants;
static struct papr_entry table[COUNT];
static struct worker workers[MOST_THREADS];
static pthread_mutex_t lock = PTHREAD_MUTEX_INITIALIZER;

static void stop_if(bool failed, const char *what)
{
    if (!failed)
        return;
    fprintf(stderr, "%s\n", what);
    exit(1);
}

static void *work_shared(void *given)
{
    struct worker *worker = given;
    struct answer answer = {.is_watched = false};
    for (int i = 0; i < CALLS; i++) {
        struct call call = draw_call(&worker->seed, worker->is_far);
        call_pass(&worker->pass, &grants, &call, &answer);
        worker->busy += answer.busy;
    }
    return NULL;
}

static void *work_mutex(void *given)
{
    struct worker *worker = given;
    struct answer answer;
    for (int i = 0; i < CALLS; i++) {
        struct call call = draw_call(&worker->seed, worker->is_far);
        pthread_mutex_lock(&lock);
        call_table(table, &grants, &call, &answer);
        pthread_mutex_unlock(&lock);
    }
    return NULL;
}

/* Millions of calls a second that the threads make together. */
static double rate(void *(*work)(void *), int threads, bool is_far)
{
    struct timespec begun, ended;
    for (int i = 0; i < threads; i++) {
        workers[i].seed = UINT64_C(88172645463325252) + 7919 * (uint64_t)i;
        workers[i].is_far = is_far;
    }
    clock_gettime(CLOCK_MONOTONIC, &begun);
    for (int i = 0; i < threads; i++)
        stop_if(pthread_create(&workers[i].thread, NULL, work, &workers[i]), "a thread isn't started");
    for (int i = 0; i < threads; i++)
        pthread_join(workers[i].thread, NULL);
    clock_gettime(CLOCK_MONOTONIC, &ended);
    double seconds = (double)(ended.tv_sec - begun.tv_sec) + (double)(ended.tv_nsec - begun.tv_nsec) / 1e9;
    return threads * (double)CALLS / seconds / 1e6;
}

static double rate_shared(int threads, bool is_far)
{
    stop_if(papr_open(table, COUNT, ORDER, (uint32_t)threads, &workers[0].pass), "the table isn't opened");
    for (int i = 1; i < threads; i++)
        stop_if(papr_split(&workers[0].pass, &workers[i].pass), "a pass isn't split");
    double found = rate(work_shared, threads, is_far);
    for (int i = 1; i < threads; i++)
        stop_if(papr_join(&workers[0].pass, &workers[i].pass), "a pass isn't joined");
    stop_if(papr_close(&workers[0].pass, table, COUNT), "the table isn't closed");
    return found;
}

/* The best of several turns of both, which take turns, so that a machine that slows down for a while slows both. */
static void measure(int threads, bool is_far)
{
    double shared = 0, mutex = 0;
    for (int i = 0; i < threads; i++)
        workers[i].busy = 0;
    for (int i = 0; i < TURNS; i++) {
        double one = rate_shared(threads, is_far), other = rate(work_mutex, threads, is_far);
        shared = one > shared ? one : shared;
        mutex = other > mutex ? other : mutex;
    }
    uint64_t busy = 0;
    for (int i = 0; i < threads; i++)
        busy += workers[i].busy;
    printf("| %d | %s | %.2f | %.2f | %.2f | %.2f |\n", threads, is_far ? "16,384" : "8", shared, mutex, shared / mutex,
           1000 * (double)busy / threads / CALLS / TURNS);
}

/* A table whose full entries are of segments 1 to 8, one for each slot of a group. */
static void fill_table(void)
{
    for (size_t i = 0; i < COUNT; i++)
        if (i < FIRST_EMPTY || i >= FIRST_FULL)
            table[i] = (struct papr_entry){.dword0 = (1 + i % 8) << 12 | 1, .dword1 = (3 + i) << 12 | 0x12, .valid = true,
                                           .referenced = true};
}

static struct call walk_of(uint64_t segment, uint64_t group)
{
    struct papr_access access = {.ea = (segment ^ group) << 12, .vsid = segment, .shift = 12};
    return (struct call){.kind = WALK, .access = access};
}

/* The call with this name, for the i-th time, of at most 1,024. */
static struct call named_call(const char *name, uint64_t i)
{
    struct call call = {.kind = READ, .args = {0, i}};
    if (!strcmp(name, "enter"))
        return (struct call){.kind = ENTER, .args = {PAPR_EXACT, FIRST_EMPTY + i, 0x1001, 0x3012}};
    if (!strcmp(name, "enter-full"))
        return (struct call){.kind = ENTER, .args = {0, i, 0x1001, 0x3012}};
    if (!strcmp(name, "walk-first"))
        return walk_of(1, i % (FIRST_EMPTY / 8));
    if (!strcmp(name, "walk-none"))
        return walk_of(9, i % (FIRST_EMPTY / 8));
    if (!strcmp(name, "walk-empty"))
        return walk_of(9, FIRST_EMPTY / 8 + i % (FIRST_EMPTY / 8));
    if (!strcmp(name, "bulk-remove")) {
        call.kind = BULK_REMOVE;
        for (uint64_t pair = 0; pair < 4; pair++) {
            call.args[2 * pair] = UINT64_C(1) << 62 | (4 * i + pair);
            call.args[2 * pair + 1] = 0;
        }
        return call;
    }
    static const struct { const char *name; enum kind kind; } kinds[] = {
        {"remove", REMOVE}, {"protect", PROTECT}, {"read", READ}, {"clear-ref", CLEAR_REF}, {"clear-mod", CLEAR_MOD},
    };
    for (size_t k = 0; k < sizeof kinds / sizeof *kinds; k++)
        if (!strcmp(name, kinds[k].name)) {
            call.kind = kinds[k].kind;
            return call;
        }
    stop_if(true, "there is no such call");
    return call;
}

static bool is_same(const struct answer *one, const struct answer *other)
{
    const struct papr_reply *a = &one->reply, *b = &other->reply;
    return a->rc == b->rc && a->words == b->words && a->receipts == b->receipts &&
           one->walk.outcome == other->walk.outcome && one->walk.dword1 == other->walk.dword1;
}

/* Makes one call so often on both tables. */
static void make_calls(const char *name, uint64_t calls)
{
    struct papr_pass *pass = &workers[0].pass;
    struct answer shared = {.is_watched = false}, serial = {.is_watched = false};
    stop_if(calls == 0 || calls > COUNT / 16, "from 1 to 1,024 calls can be counted");
    fill_table();
    stop_if(papr_open(table, COUNT, ORDER, 1, pass), "the table isn't opened");
    for (uint64_t i = 0; i < calls; i++) {
        struct call call = named_call(name, i);
        call_pass(pass, &grants, &call, &shared);
        call_table(table, &grants, &call, &serial);
        stop_if(!is_same(&shared, &serial), "the two tables answer differently");
    }
    stop_if(papr_close(pass, table, COUNT), "the table isn't closed");
}

int main(int count, char **words)
{
    stop_if(!make_grants(&grants), "no grants");
    if (count == 3) {
        make_calls(words[1], strtoull(words[2], NULL, 10));
        return 0;
    }
    puts("| threads | entries | shared | mutex | shared / mutex | busy in 1,000 calls |\n|---|---|---|---|---|---|");
    for (int threads = 1; threads <= MOST_THREADS; threads *= 2)
        measure(threads, true);
    for (int threads = 1; threads <= MOST_THREADS; threads *= 2)
        measure(threads, false);
    return 0;
}
