/*
 * Four threads call and walk on one table, as the processors of a QEMU do, and record what they did:
 *
 *     threads FOLDER LOCKED PLANT TURNS
 *
 * LOCKED is 1 for one lock, PLANT the number of an enum papr_plant, and TURNS how often each thread calls or walks
 * in each of five stretches. Between the first two the table is resized, and the others are parts of their own, of
 * which the second isn't recorded. With a fifth word it makes one part after another, until it is killed, and writes the
 * number of each that has begun.
 */
#include "qemu/osdep.h"
#include "papr-record.h"

#define THREADS 4
#define ORDER 18
#define ENTRIES (1 << (ORDER - 4))
#define PAGES 4
#define SEGMENT 0x1000          /* of 256 MB, with VSID 1 */

enum { H_ENTER = 0x08, H_READ = 0x0c, H_CLEAR_MOD = 0x10, H_CLEAR_REF = 0x14, H_PROTECT = 0x18, H_BULK_REMOVE = 0x124,
       PREPARE = 0x36c, COMMIT = 0x370 };

struct papr_options papr_options = {.mode = PAPR_ANSWER, .part = 1 << 30};
static int turns;
static uint64_t stretch;

static uint64_t drawn(uint64_t *state)
{
    *state ^= *state << 13;
    *state ^= *state >> 7;
    *state ^= *state << 17;
    return *state >> 16;
}

/* The one entry that a page is entered into: no page has two. */
static uint64_t entry_of(uint64_t page)
{
    return (1 ^ page) * 8 + page;
}

static void walk(unsigned actor, uint64_t page, uint64_t random)
{
    struct papr_receipt made[PAPR_MOST_RECEIPTS];
    bool problem = random >> 2 & 1;
    struct papr_access access = {.ea = page << 12 | (random & 0xff0), .vsid = 1, .shift = 12, .want = random % 3};
    struct papr_walk walk = papr_table_walk(actor, &access, made);
    papr_record_walk(actor, SEGMENT, problem, &access, &walk, made);
}

/* A call's number and its arguments. */
static uint64_t draw_call(uint64_t page, uint64_t random, uint64_t args[8])
{
    static const uint64_t numbers[] = {H_ENTER, H_ENTER, H_ENTER, H_REMOVE, H_REMOVE, H_PROTECT, H_READ, H_CLEAR_REF,
                                       H_CLEAR_MOD, H_BULK_REMOVE};
    uint64_t number = numbers[random % 10], entry = entry_of(page);
    args[1] = entry;
    if (number == H_ENTER) {
        args[0] = PAPR_EXACT;
        args[2] = SEGMENT | 1;
        args[3] = (0x10 + page) << 12 | 0x12 | (random >> 8 & 0x180);
    } else if (number == H_PROTECT) {
        args[0] = 2 + (random >> 8 & 1);
    } else if (number == H_BULK_REMOVE) {
        args[0] = 1ULL << 62 | entry;
        args[1] = 0;
        args[2] = 1ULL << 62 | entry_of(page ^ 1);
        args[4] = 3ULL << 62;
    }
    return number;
}

static void call(unsigned actor, uint64_t page, uint64_t random)
{
    struct papr_receipt made[PAPR_MOST_RECEIPTS];
    uint64_t args[8] = {0}, asked[8], number = draw_call(page, random, args);
    memcpy(asked, args, sizeof asked);
    struct papr_reply reply = papr_table_call(actor, number, args, made);
    papr_record_call(actor, number, asked, &reply, args, made);
}

static void *work(void *argument)
{
    unsigned actor = (uintptr_t)argument;
    uint64_t state = 0x9e3779b97f4a7c15 + actor * 7919 + stretch * 104729;
    for (int i = 0; i < turns; i++) {
        uint64_t random = drawn(&state), page = random % PAGES;
        if (random >> 4 & 1)
            walk(actor, page, random >> 8);
        else
            call(actor, page, random >> 8);
    }
    return NULL;
}

static void work_together(void)
{
    pthread_t threads[THREADS];
    for (uintptr_t i = 0; i < THREADS; i++)
        pthread_create(&threads[i], NULL, work, (void *)i);
    for (int i = 0; i < THREADS; i++)
        pthread_join(threads[i], NULL);
    stretch++;
}

static void begin_part(void)
{
    struct papr_rest rest = papr_table_take();
    papr_record_part(&rest, papr_table_grants(), THREADS + 1, ORDER);
    papr_table_give(&rest);
}

static void resize(void)
{
    struct papr_resize resize = {0};
    struct papr_entry *into = calloc(ENTRIES, sizeof *into);
    int64_t rc = papr_resize_prepare(&resize, ORDER, 0, ORDER, into, ENTRIES);
    papr_record_quiet(1, PREPARE, 0, ORDER, rc);
    struct papr_rest rest = papr_table_take();
    struct papr_rehash done = papr_resize_commit(&resize, rest.entries, rest.count, rest.order, into, ENTRIES, 0, ORDER);
    if (done.rc != PAPR_H_SUCCESS)
        exit(1);
    free(rest.entries);
    rest.entries = into;
    papr_table_give(&rest);
    papr_record_quiet(2, COMMIT, 0, ORDER, done.rc);
}

/* As if a table were prepared that no trace has. */
static void pause_part(void)
{
    if (papr_record_has(PREPARE, 23, PAPR_H_LONG_BUSY) || !papr_record_has(PREPARE, 23, PAPR_H_RESOURCE))
        exit(1);
    papr_record_pause(THREADS + 1, 23);
    papr_record_quiet(3, PREPARE, 0, 23, PAPR_H_LONG_BUSY);
    work_together();
}

static void make_parts(void)
{
    for (int number = 1;; number++) {
        begin_part();
        printf("%d\n", number);
        fflush(stdout);
        work_together();
    }
}

int main(int count, char **words)
{
    const struct papr_grant ram = {0, 1ULL << 58, 1 << 29, false};
    if (count < 5)
        return 2;
    papr_options.record = words[1];
    papr_options.is_locked = atoi(words[2]);
    papr_options.plant = atoi(words[3]);
    turns = atoi(words[4]);
    papr_table_grant(&ram, 1);
    papr_table_put(calloc(ENTRIES, sizeof(struct papr_entry)), ORDER, THREADS + 1);
    if (count > 5)
        make_parts();
    begin_part();
    work_together();
    resize();
    work_together();
    begin_part();
    work_together();
    pause_part();
    begin_part();
    work_together();
    papr_record_end(true);
    papr_table_put(NULL, 0, 0);
    return 0;
}
