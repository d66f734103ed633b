/* A thread that a signal stops inside a call, at a moment when a try on its entry is busy; there it stays until it is
 * let go, and so the entry is busy for certain. */
#ifndef STOPPING_H
#define STOPPING_H

#include "expect.h"

#include <pthread.h>
#include <signal.h>
#include <stdatomic.h>
#include <stdlib.h>
#include <time.h>

enum { ENTRY = 0x22, GROUP = 0x20, PASSES = 4, SECONDS = 60 };

static struct papr_grants grants;
static struct papr_entry table[COUNT];
static struct papr_pass pass, their_pass;
static pthread_t other;
static atomic_bool is_over, is_stopped, may_go_on;

/* ---- the other thread */

static inline void nap(void)
{
    nanosleep(&(struct timespec){.tv_nsec = 50000}, NULL);
}

static inline void stop_here(int number)
{
    (void)number;
    atomic_store(&is_stopped, true);
    while (!atomic_load(&may_go_on))
        nap();
    atomic_store(&is_stopped, false);
}

/* Protects ENTRY over and over. Its own calls may be busy with those of the main thread. */
static inline void *protect(void *unused)
{
    uint64_t none;
    while (!atomic_load(&is_over)) {
        struct papr_reply reply = papr_try_h_protect(&their_pass, 2, ENTRY, 0, &none, 1, NULL, 0);
        while (reply.rc == PAPR_H_BUSY)
            reply = papr_again(&their_pass, &none, 1, NULL, 0);
    }
    return unused;
}

static inline void let_go(void)
{
    atomic_store(&may_go_on, true);
    while (atomic_load(&is_stopped))
        nap();
}

static inline void stop(void)
{
    atomic_store(&may_go_on, false);
    if (pthread_kill(other, SIGUSR1))
        abort();
    while (!atomic_load(&is_stopped))
        nap();
}

static inline bool is_call_busy(void)
{
    return papr_try_h_read(&pass, 0, ENTRY, NULL, 0, NULL, 0).rc == PAPR_H_BUSY;
}

/* Stops the other thread where this is so. */
static inline void stop_where(bool (*is_busy)(void))
{
    time_t end = time(NULL) + SECONDS;
    for (;;) {
        stop();
        if (is_busy()) {
            papr_give_up(&pass);
            return;
        }
        let_go();
        if (time(NULL) > end) {
            printf("no entry was busy in %d seconds\n", SECONDS);
            exit(1);
        }
    }
}

/* Opens a table with two entries in GROUP, of which the other thread uses ENTRY, and begins that thread. */
static inline bool begin(void)
{
    grant(&grants);
    papr_h_enter(table, COUNT, ORDER, &grants, PAPR_EXACT, GROUP, 0x1001, 0x3012, ROOM);
    papr_h_enter(table, COUNT, ORDER, &grants, PAPR_EXACT, ENTRY, 0x3001, 0x6012, ROOM);
    IS(papr_open(table, COUNT, ORDER, PASSES, &pass), PAPR_H_SUCCESS);
    IS(papr_split(&pass, &their_pass), PAPR_H_SUCCESS);
    return signal(SIGUSR1, stop_here) != SIG_ERR && !pthread_create(&other, NULL, protect, NULL);
}

#endif
