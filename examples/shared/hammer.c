/*
 * Threads that call one shared table at once, and a check that what they did is a legal history of each entry.
 *
 *     hammer THREADS CALLS check [drop]   on one group of eight entries, with the check
 *     hammer THREADS CALLS near           on the same, and no receipt is kept
 *     hammer THREADS CALLS far            on all entries, and no receipt is kept
 *
 * Each thread makes so many random calls and walks on a pass of its own. In the end the passes are joined and the table
 * is closed. Put in order of stamp and bits, the receipts of each entry have to be those of one caller: each shows the
 * state that the one before left, from the entry's opening to its closing state, and says what an entry in this state
 * answers. With `drop` the receipt of one change is left out, and the check has to say so. The last line names the
 * machine: it is for papr's authors, if yours is no x86-64. The status is 0 if all is well, 1 if the check or the table
 * says otherwise, and 2 for other arguments.
 */
#include "history.h"

#include <inttypes.h>
#include <pthread.h>
#include <stdio.h>
#include <stdlib.h>
#include <string.h>
#include <sys/utsname.h>
#include <time.h>
#include <unistd.h>

enum { MOST_THREADS = 64, OPENING_CALLS = 64 };

/* Each has cache lines of its own, since a call writes its pass. */
struct worker {
    _Alignas(128) struct papr_pass pass;
    pthread_t thread;
    struct log log;
    uint64_t seed, receipts, busy, longest;
    uint32_t number;
    bool is_well;
};

static struct papr_grants grants;
static struct worker workers[MOST_THREADS];
static struct papr_entry opening[COUNT], closing[COUNT];
static uint64_t calls;
static bool is_checked, is_far;

static bool fail(const char *why)
{
    printf("%s\n", why);
    return false;
}

/* ---- the threads */

static void *work(void *given)
{
    struct worker *worker = given;
    struct answer answer = {.is_watched = is_checked};
    worker->is_well = true;
    for (uint64_t i = 0; i < calls && worker->is_well; i++) {
        struct call call = draw_call(&worker->seed, is_far);
        call_pass(&worker->pass, &grants, &call, &answer);
        worker->receipts += answer.reply.receipts;
        worker->busy += answer.busy;
        worker->longest = answer.busy > worker->longest ? answer.busy : worker->longest;
        if (is_checked)
            worker->is_well = is_of_its_receipts(&call, &answer) &&
                              keep(&worker->log, worker->number, &call, &answer);
    }
    return NULL;
}

/* Runs the threads, and gives the seconds that they took, or a negative number if one could not be started. */
static double run(uint32_t threads)
{
    struct timespec begun, ended;
    clock_gettime(CLOCK_MONOTONIC, &begun);
    for (uint32_t i = 0; i < threads; i++)
        if (pthread_create(&workers[i].thread, NULL, work, &workers[i]))
            return -1;
    for (uint32_t i = 0; i < threads; i++)
        pthread_join(workers[i].thread, NULL);
    clock_gettime(CLOCK_MONOTONIC, &ended);
    return (double)(ended.tv_sec - begun.tv_sec) + (double)(ended.tv_nsec - begun.tv_nsec) / 1e9;
}

/* ---- the table */

/* Some entries are there when the table is opened. */
static void fill_opening(void)
{
    uint64_t seed = 1;
    struct answer answer;
    for (int i = 0; i < OPENING_CALLS; i++) {
        struct call call = draw_call(&seed, is_far);
        call_table(opening, &grants, &call, &answer);
    }
}

static bool open_table(uint32_t threads)
{
    if (papr_open(opening, COUNT, ORDER, threads, &workers[0].pass))
        return fail("the table isn't opened");
    for (uint32_t i = 0; i < threads; i++) {
        workers[i].number = i;
        workers[i].seed = UINT64_C(88172645463325252) + 7919 * i;
        if (i && papr_split(&workers[0].pass, &workers[i].pass))
            return fail("a pass isn't split");
    }
    return true;
}

static bool close_table(uint32_t threads)
{
    for (uint32_t i = 1; i < threads; i++)
        if (papr_join(&workers[0].pass, &workers[i].pass))
            return fail("a pass isn't joined");
    return !papr_close(&workers[0].pass, closing, COUNT) || fail("the table isn't closed");
}

/* ---- what is said of it */

static void say(const char *mode, uint32_t threads, double seconds)
{
    uint64_t receipts = 0, busy = 0, longest = 0;
    for (uint32_t i = 0; i < threads; i++) {
        receipts += workers[i].receipts;
        busy += workers[i].busy;
        longest = workers[i].longest > longest ? workers[i].longest : longest;
    }
    printf("%s: %" PRIu32 " threads, %" PRIu64 " calls, %" PRIu64 " receipts in %.2f s; busy %" PRIu64
           " times, at most %" PRIu64 " in one call\n", mode, threads, threads * calls, receipts, seconds, busy, longest);
}

/* What one tells of a run on a machine that others don't have. */
static void say_where(const char *mode, uint32_t threads, bool is_well)
{
    struct utsname of;
    uint32_t version = papr_version();
    if (uname(&of) == 0)
        printf("hammer of papr %u.%u.%u on %s with %ld processors, %s %s: %" PRIu32 " threads, %" PRIu64 " calls, %s: %s\n",
               (unsigned)(version >> 16), (unsigned)(version >> 8 & 0xff), (unsigned)(version & 0xff), of.machine,
               sysconf(_SC_NPROCESSORS_ONLN), of.sysname, of.release, threads, threads * calls, mode,
               is_well ? "well" : "NOT WELL");
}

static bool check(uint32_t threads, bool drop)
{
    struct log logs[MOST_THREADS];
    for (uint32_t i = 0; i < threads; i++) {
        if (!workers[i].is_well)
            return fail("a thread ended early");
        logs[i] = workers[i].log;
    }
    return is_legal(logs, threads, opening, closing, drop);
}

static bool hammer(const char *mode, uint32_t threads, bool drop)
{
    if (!make_grants(&grants))
        return fail("no grants");
    fill_opening();
    if (!open_table(threads))
        return false;
    double seconds = run(threads);
    if (seconds < 0)
        return fail("a thread isn't started");
    say(mode, threads, seconds);
    bool is_well = close_table(threads) && (!is_checked || check(threads, drop));
    for (uint32_t i = 0; i < threads; i++)
        free(workers[i].log.made);
    say_where(mode, threads, is_well);
    return is_well;
}

int main(int count, char **words)
{
    const char *mode = count > 3 ? words[3] : "";
    uint32_t threads = count > 3 ? (uint32_t)strtoul(words[1], NULL, 0) : 0;
    is_checked = !strcmp(mode, "check");
    is_far = !strcmp(mode, "far");
    bool drop = is_checked && count == 5 && !strcmp(words[4], "drop");
    if (threads < 1 || threads > MOST_THREADS || count > 4 + drop || !(is_checked || is_far || !strcmp(mode, "near"))) {
        fprintf(stderr, "usage: hammer THREADS CALLS check|near|far [drop]\n");
        return 2;
    }
    calls = strtoull(words[2], NULL, 0);
    return hammer(mode, threads, drop) ? 0 : 1;
}
