/*
 * A thread waits for a word, and the main thread wakes it, by the functions of waiting.ll. The status is 0 if it was
 * woken, 1 if waiting for another value of the word doesn't end at once, and 2 if nothing was woken.
 */
#include <errno.h>
#include <pthread.h>
#include <stdint.h>
#include <unistd.h>

enum { TRIES = 30000, MICROSECONDS = 1000, VALUE = 7 };

int64_t papr_wait(const uint64_t *at, uint64_t value);
int64_t papr_wake(const uint64_t *at);

static const uint64_t word = VALUE;

static void *wait_for_word(void *answer)
{
    *(int64_t *)answer = papr_wait(&word, VALUE);
    return NULL;
}

int main(void)
{
    pthread_t thread;
    int64_t answer = -1, woken = 0;
    if (papr_wait(&word, VALUE + 1) != -1 || errno != EAGAIN)
        return 1;
    if (pthread_create(&thread, NULL, wait_for_word, &answer) != 0)
        return 2;
    for (int i = 0; i < TRIES && woken == 0; i++) {
        usleep(MICROSECONDS);
        woken = papr_wake(&word);
    }
    pthread_join(thread, NULL);
    return woken == 1 && answer == 0 ? 0 : 2;
}
