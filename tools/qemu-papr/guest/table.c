/*
 * Exercises the page table, and checks what it did by the contents of memory: forks with copy on write, maps,
 * soft-dirty bits, mprotect against writers, threads that map and unmap, and resizes. It ends with `DONE bad N`:
 * N things were found wrong.
 */
#include "guest.h"

#define MOST_THREADS 16
#define COUNT(array) (sizeof(array) / sizeof((array)[0]))

static int bad;
static size_t page;
static volatile int stop;

static void wrong(const char *what, long number)
{
    bad++;
    say("WRONG %s: %ld\n", what, number);
}

/* ---- forks: what the child writes stays the child's */

static void be_child(char *memory, size_t length)
{
    for (size_t k = 0; k < length; k += page) {
        if (memory[k] != 1)
            _exit(9);
        memory[k] = 2;
    }
    _exit(0);
}

static void forks(int count)
{
    double start = now();
    size_t length = 4 << 20;
    char *memory = map(length, MAP_PRIVATE);
    memset(memory, 1, length);
    for (int i = 0; i < count; i++) {
        int status = 0;
        pid_t child = fork();
        if (child == 0)
            be_child(memory, length);
        waitpid(child, &status, 0);
        if (status)
            wrong("status of a child", status);
        for (size_t k = 0; k < length; k += page)
            if (memory[k] != 1)
                wrong("page of the parent that its child wrote to", k / page);
    }
    munmap(memory, length);
    say("forks %d: %.3f s\n", count, now() - start);
}

/* ---- maps: new memory is zero, and keeps what is written */

static void maps(int count)
{
    double start = now();
    size_t words = (16 << 20) / 8, step = page / 8;
    for (int i = 0; i < count; i++) {
        uint64_t *memory = map(words * 8, MAP_PRIVATE);
        for (size_t k = 0; k < words; k += step) {
            if (memory[k])
                wrong("word of new memory", k);
            memory[k] = k * 3 + i;
        }
        for (size_t k = 0; k < words; k += step)
            if (memory[k] != k * 3 + i)
                wrong("word that was written", k);
        munmap(memory, words * 8);
    }
    say("maps %d of 16 MB: %.3f s\n", count, now() - start);
}

/* ---- soft-dirty bits: those of the pages that were written since they were cleared */

static void dirty(void)
{
    size_t pages = 64, set = 0;
    char *memory = map(pages * page, MAP_PRIVATE);
    memset(memory, 1, pages * page);
    int clear = open("/proc/self/clear_refs", O_WRONLY), map_of = open("/proc/self/pagemap", O_RDONLY);
    if (clear < 0 || map_of < 0 || write(clear, "4", 1) != 1) {
        say("soft dirty: not here (%d)\n", errno);
        return;
    }
    for (size_t k = 0; k < pages; k += 3)
        memory[k * page] = 5;
    for (size_t k = 0; k < pages; k++) {
        uint64_t word = 0;
        if (pread(map_of, &word, 8, ((uintptr_t)memory / page + k) * 8) != 8)
            wrong("pagemap", errno);
        set += word >> 55 & 1;
        if ((word >> 55 & 1) != (k % 3 == 0))
            wrong("soft-dirty bit of page", k);
    }
    say("soft dirty: %zu of %zu set\n", set, pages);
}

/* ---- protections: writers count what they wrote, while another thread takes the permission away and back */

static uint64_t *shared;
static const size_t shared_words = (1 << 20) / 8;
static __thread sigjmp_buf back;
static __thread volatile int is_in;

static void on_fault(int number)
{
    if (is_in)
        siglongjmp(back, 1);
    signal(number, SIG_DFL);
}

static void *writer(void *argument)
{
    uintptr_t own = (uintptr_t)argument, found = 0;
    volatile uintptr_t written = 0, faults = 0;
    while (!stop)
        for (size_t k = own; k < shared_words && !stop; k += page / 8) {
            is_in = 1;
            if (!sigsetjmp(back, 1)) {
                ((volatile uint64_t *)shared)[k]++;
                written++;
            } else {
                faults++;
            }
            is_in = 0;
        }
    mprotect(shared, shared_words * 8, PROT_READ | PROT_WRITE);
    for (size_t k = own; k < shared_words; k += page / 8)
        found += shared[k];
    if (found != written)
        wrong("words that a writer lost", written - found);
    return (void *)faults;
}

static void protects(int threads, double seconds)
{
    pthread_t thread[MOST_THREADS];
    long turns = 0, faults = 0;
    double start = now();
    struct sigaction action = {.sa_handler = on_fault, .sa_flags = SA_NODEFER};
    sigaction(SIGSEGV, &action, 0);
    shared = map(shared_words * 8, MAP_SHARED);
    stop = 0;
    for (intptr_t i = 0; i < threads; i++)
        pthread_create(&thread[i], 0, writer, (void *)i);
    for (; now() - start < seconds; turns++) {
        mprotect(shared, shared_words * 8, PROT_READ);
        mprotect(shared, shared_words * 8, PROT_READ | PROT_WRITE);
    }
    stop = 1;
    for (int i = 0; i < threads; i++) {
        void *result;
        pthread_join(thread[i], &result);
        faults += (intptr_t)result;
    }
    munmap(shared, shared_words * 8);
    say("protects against %d writers: %ld turns, %ld faults\n", threads, turns, faults);
}

/* ---- churn: threads that map, write, check and unmap memory of their own */

static void *churner(void *argument)
{
    uint64_t own = (uintptr_t)argument;
    size_t words = (1 << 20) / 8;
    intptr_t rounds = 0;
    for (; !stop; rounds++) {
        uint64_t *memory = map(words * 8, MAP_PRIVATE);
        for (size_t k = 0; k < words; k += page / 8) {
            if (memory[k])
                wrong("word of a thread's new memory", k);
            memory[k] = own << 32 | k;
        }
        for (size_t k = 0; k < words; k += page / 8)
            if (memory[k] != (own << 32 | k))
                wrong("word that a thread wrote", k);
        munmap(memory, words * 8);
    }
    return (void *)rounds;
}

static void churn(int threads, double seconds)
{
    pthread_t thread[MOST_THREADS];
    long rounds = 0;
    double start = now();
    stop = 0;
    for (intptr_t i = 0; i < threads; i++)
        pthread_create(&thread[i], 0, churner, (void *)(i + 1));
    while (now() - start < seconds)
        usleep(20000);
    stop = 1;
    for (int i = 0; i < threads; i++) {
        void *result;
        pthread_join(thread[i], &result);
        rounds += (intptr_t)result;
    }
    say("churn by %d threads: %ld MB, %.0f a second\n", threads, rounds, rounds / (now() - start));
}

int main(void)
{
    static const int orders[] = {20, 21, 22, 23, 19, 18, 22};
    page = sysconf(_SC_PAGESIZE);
    mount_all();
    int processors = sysconf(_SC_NPROCESSORS_ONLN);
    int threads = processors < MOST_THREADS ? processors : MOST_THREADS;
    say("INIT page size %zu, %d processors, a table of order %d, %.2f s after the start\n", page, processors,
        order_now(), now());
    double start = now();
    forks(100);
    maps(20);
    dirty();
    protects(threads > 1 ? threads : 2, 3);
    churn(1, 3);
    if (threads > 1)
        churn(threads, 3);
    for (size_t i = 0; i < COUNT(orders); i++) {
        double before = now();
        int error = resize_to(orders[i]);
        say("resize to %d: %s, %.3f s\n", orders[i], error ? strerror(error) : "done", now() - before);
    }
    maps(5);
    forks(20);
    say("DONE bad %d, %.2f s\n", bad, now() - start);
    switch_off();
}
