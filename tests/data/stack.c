/* How much stack calls need: each is made by a thread whose stack was painted before, and may not reach further than
 * its header says. Writes a line for each that does. */
#include <papr_bytes.h>
#include <papr_shared.h>
#include <pthread.h>
#include <stdio.h>
#include <stdlib.h>
#include <string.h>

enum { ORDER = 18, COUNT = 1 << 14, LARGER = 19, LARGER_COUNT = 1 << 15, PLACE = 0x20, KB = 1024 };
enum { STACK = 256 * KB, PAINT = 0xa5, ROOM = 1 << 16 };

static struct papr_entry table[COUNT], into[LARGER_COUNT], window[1];
static struct papr_grants grants;
static struct papr_pass pass, other;
static struct papr_resize pending;
static uint64_t words[8];
static struct papr_receipt receipts[16];
static uint8_t bytes[16 * COUNT], out[ROOM];

/* ---- calls */

static bool nothing(void)
{
    return true;
}

static bool make_grants(void)
{
    struct papr_grant ram = {0, 0x2000000000, 0x40000000, false};
    return papr_make_grants(&ram, 1, 0x1000000000, 24, &grants).refusal == PAPR_GRANTED;
}

static bool enter(void)
{
    return papr_h_enter(table, COUNT, ORDER, &grants, 0, PLACE, 0x1011, 0x3012, words, 8, receipts, 16).rc ==
           PAPR_H_SUCCESS;
}

static bool bulk_remove(void)
{
    const uint64_t pairs[8] = {UINT64_C(1) << 62 | (PLACE + 1), 0, UINT64_C(3) << 62};
    return papr_h_bulk_remove(table, COUNT, ORDER, pairs, 8, words, 8, receipts, 16).rc == PAPR_H_SUCCESS;
}

static bool by_number(void)
{
    uint64_t args[8] = {0, PLACE};
    return papr_hcall(table, COUNT, ORDER, &grants, 0x0c, args, receipts, 16).rc == PAPR_H_SUCCESS;
}

static const struct papr_access access = {.ea = 0x5678, .vsid = 1, .shift = 12, .want = 1};

static bool walk(void)
{
    return papr_walk(table, COUNT, ORDER, &access, receipts, 16).outcome == PAPR_WALK_AT;
}

static bool put_tce(void)
{
    return papr_put_tce(window, 1, 0, &grants, 0, 0x3003, receipts, 16).rc == PAPR_H_SUCCESS;
}

static bool rehash(void)
{
    return papr_rehash(table, COUNT, ORDER, into, LARGER_COUNT, LARGER).rc == PAPR_H_SUCCESS;
}

static bool prepare(void)
{
    int64_t rc = papr_resize_prepare(&pending, LARGER, 0, LARGER, into, LARGER_COUNT);
    return rc == PAPR_H_SUCCESS || rc == PAPR_H_LONG_BUSY;
}

static bool commit(void)
{
    return papr_resize_commit(&pending, table, COUNT, ORDER, into, LARGER_COUNT, 0, LARGER).rc == PAPR_H_SUCCESS;
}

static bool export_all(void)
{
    return papr_export(table, COUNT, ORDER, PAPR_LAYOUT_OLD, 0, COUNT, bytes, sizeof bytes).refusal == PAPR_TRANSFERRED;
}

static bool import_all(void)
{
    return papr_import(table, COUNT, ORDER, &grants, PAPR_LAYOUT_OLD, 0, COUNT, bytes, sizeof bytes).refusal ==
           PAPR_TRANSFERRED;
}

static bool open_table(void)
{
    return papr_open(table, COUNT, ORDER, 64, &pass) == PAPR_H_SUCCESS;
}

static bool split(void)
{
    return papr_split(&pass, &other) == PAPR_H_SUCCESS;
}

static bool try_enter(void)
{
    return papr_try_h_enter(&pass, &grants, 0, PLACE, 0x2001, 0x3012, words, 8, receipts, 16).rc == PAPR_H_SUCCESS;
}

static bool try_walk(void)
{
    return papr_try_walk(&pass, &access, receipts, 16).outcome == PAPR_WALK_AT;
}

static bool join(void)
{
    return papr_join(&pass, &other) == PAPR_H_SUCCESS;
}

static bool close_table(void)
{
    return papr_close(&pass, table, COUNT) == PAPR_H_SUCCESS;
}

static bool run_trace(void)
{
    const char trace[] = "cpus 2\nram 0x0 0x2000000000 0x40000000\nwindow 1 0x0 1\nbegin\n0 H_READ 0 0\ndump\n";
    return papr_bytes("run", NULL, NULL, trace, sizeof trace - 1, out, ROOM).status == PAPR_BYTES_DONE;
}

static bool judge(void)
{
    const char text[] = "begin\n0 H_READ 0 0\nreplies\n2 0 H_READ 0 0x0 0x0 | 0x0.0.0.read\n";
    return papr_bytes("check", NULL, NULL, text, sizeof text - 1, out, ROOM).status == PAPR_BYTES_DONE;
}

static bool run_set(void)
{
    const char set[] = "shared 0x1000000000 24\n0 begin\n0 0 H_READ 0 0\n";
    return papr_bytes("set", NULL, NULL, set, sizeof set - 1, out, ROOM).status == PAPR_BYTES_DONE;
}

static bool image(void)
{
    const char trace[] = "begin\n0 H_READ 0 0\n";
    return papr_bytes("image", "new", NULL, trace, sizeof trace - 1, out, ROOM).status == PAPR_BYTES_DONE;
}

static bool drill(void)
{
    return papr_bytes("drill", "1", "100", NULL, 0, out, ROOM).status == PAPR_BYTES_DONE;
}

/* ---- what they need */

static const struct {
    const char *name;
    bool (*make)(void);
    size_t most; /* KB */
} calls[] = {
    {"papr_make_grants", make_grants, 12}, {"papr_h_enter", enter, 2},
    {"papr_h_bulk_remove", bulk_remove, 2}, {"papr_hcall", by_number, 2},
    {"papr_walk", walk, 2}, {"papr_put_tce", put_tce, 2},
    {"papr_rehash", rehash, 2}, {"papr_resize_prepare", prepare, 2},
    {"papr_resize_prepare again", prepare, 2}, {"papr_resize_commit", commit, 2},
    {"papr_export", export_all, 2}, {"papr_import", import_all, 2},
    {"papr_open", open_table, 12}, {"papr_split", split, 2},
    {"papr_try_h_enter", try_enter, 2}, {"papr_try_walk", try_walk, 2},
    {"papr_join", join, 2}, {"papr_close", close_table, 4},
    {"papr_bytes run", run_trace, 64}, {"papr_bytes check", judge, 64},
    {"papr_bytes set", run_set, 64}, {"papr_bytes image", image, 64},
    {"papr_bytes drill", drill, 64},
};

struct work {
    bool (*make)(void);
    bool is_made;
};

static void *begin(void *given)
{
    struct work *work = given;
    work->is_made = work->make();
    return NULL;
}

/* How many bytes of its stack a thread that does this work has written. */
static size_t written_by(struct work *work)
{
    static _Alignas(4096) uint8_t stack[STACK];
    pthread_attr_t attributes;
    pthread_t thread;
    size_t unused = 0;
    memset(stack, PAINT, STACK);
    if (pthread_attr_init(&attributes) || pthread_attr_setstack(&attributes, stack, STACK) ||
        pthread_create(&thread, &attributes, begin, work) || pthread_join(thread, NULL))
        abort();
    pthread_attr_destroy(&attributes);
    while (unused < STACK && stack[unused] == PAINT)
        unused++;
    return STACK - unused;
}

int main(void)
{
    int failures = 0;
    size_t alone = written_by(&(struct work){.make = nothing});
    for (size_t i = 0; i < sizeof calls / sizeof *calls; i++) {
        struct work work = {.make = calls[i].make};
        size_t needed = written_by(&work) - alone;
        if (!work.is_made || needed > calls[i].most * KB) {
            printf("%s: %s, %zu bytes, at most %zu KB\n", calls[i].name, work.is_made ? "made" : "refused", needed,
                   calls[i].most);
            failures++;
        }
    }
    return failures ? 1 : 0;
}
