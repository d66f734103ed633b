/* What papr_shared.h says of a thread that ends inside a call, and of a child that is made while one is inside: its
 * entry stays busy, and each call returns. A table that is opened in the child is like any other. */
#include "stopping.h"

#include <sys/wait.h>
#include <unistd.h>

enum { TRIES = 10000, OTHER_ENTRY = 0x40 };

/* The entry is busy at each of many tries, and the others aren't. */
static void stays_busy(void)
{
    struct papr_reply reply = papr_try_h_read(&pass, 0, ENTRY, ROOM);
    for (int i = 0; i < TRIES && reply.rc == PAPR_H_BUSY; i++)
        reply = papr_again(&pass, ROOM);
    IS(reply.rc, PAPR_H_BUSY);
    IS(papr_held_up(&pass).entry, ENTRY);
    papr_give_up(&pass);
    ANSWERS(papr_try_h_read(&pass, 0, OTHER_ENTRY, ROOM), PAPR_H_SUCCESS, 2, 1, false);
    IS(papr_close(&pass, table, COUNT), PAPR_H_RESOURCE);
}

/* The child opens the same entries again. They are as they were when the lost table was opened. */
static void opens_another(void)
{
    struct papr_pass own = {0};
    IS(papr_open(table, COUNT, ORDER, 1, &own), PAPR_H_SUCCESS);
    ANSWERS(papr_try_h_read(&own, 0, ENTRY, ROOM), PAPR_H_SUCCESS, 2, 1, false);
    IS(words[0], 0x3001);
    IS(papr_close(&own, table, COUNT), PAPR_H_SUCCESS);
}

static void in_a_child(void)
{
    int status = -1;
    stop_where(is_call_busy);
    pid_t child = fork();
    if (child == 0) {
        stays_busy();
        opens_another();
        fflush(stdout);
        _exit(failures ? 1 : 0);
    }
    HOLDS(child > 0 && waitpid(child, &status, 0) == child);
    IS(status, 0);
    let_go();
}

/* Where the other thread is stopped, it waits in a call at which pthread_cancel ends it. */
static void of_an_ended_thread(void)
{
    void *left = NULL;
    stop_where(is_call_busy);
    IS(pthread_cancel(other), 0);
    IS(pthread_join(other, &left), 0);
    HOLDS(left == PTHREAD_CANCELED);
    stays_busy();
}

int main(void)
{
    if (!begin())
        return 1;
    in_a_child();
    of_an_ended_thread();
    return failures ? 1 : 0;
}
