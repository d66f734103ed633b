/*
 * The modes calls and walks: answers the guest's page table calls a second time, by the library over a
 * table of its own, and compares codes and words with QEMU's; in mode walks each walk of a processor too.
 * QEMU's answers alone go to the guest. Calls come under QEMU's global lock, walks don't: a lock of our
 * own holds QEMU's deed and papr's together, so that both see one order.
 *
 * What differs by design is masked, and counted (`known`); docs/QEMU.md has each of them. A group of
 * entries whose contents may differ lawfully is taken over anew from QEMU's table.
 */
#include "qemu/osdep.h"
#include "qemu/error-report.h"
#include "qemu/thread.h"
#include "qemu/bswap.h"
#include "sysemu/runstate.h"
#include "cpu.h"
#include "hw/ppc/spapr.h"
#include "papr-modes.h"

#define RPN     0x0ffffffffffff000ULL
#define MARK    0x40ULL                 /* QEMU's mark of a changed entry */
#define RC      0x180ULL                /* R and C of a second doubleword */
#define KEPT    0x4000000000000000ULL   /* a reserved bit of the second doubleword, which QEMU keeps */
#define BULK_RC 0x0c00000000000000ULL   /* R and C of a response of H_BULK_REMOVE */
#define INDEX   0x00ffffffffffffffULL   /* the index of a pair of H_BULK_REMOVE */
#define SWEEP_EVERY 100000              /* calls between two comparisons of the whole tables */
#define SHOWN 20                        /* differences that are reported one by one */

/* What differs by design. */
enum { K_MARK, K_MOVED, K_KEPT, K_TYPE, K_CLEAR, K_TAKEN, K_REFUSED, KNOWN };
static struct { const char *what; uint64_t seen; } known[KNOWN] = {
    [K_MARK] = {"words with bit 0x40, QEMU's mark, taken out", 0},
    [K_MOVED] = {"bulk responses with R and C 8 bits too low in QEMU, moved up", 0},
    [K_KEPT] = {"words with 0x4000000000000000 of the second doubleword, which QEMU keeps", 0},
    [K_TYPE] = {"bulk pairs of a type that is no request, which QEMU leaves", 0},
    [K_CLEAR] = {"H_ENTER with V clear: QEMU answers success and enters nothing", 0},
    [K_TAKEN] = {"H_ENTER that papr takes and QEMU refuses: W, I and M, or a large page", 0},
    [K_REFUSED] = {"entries that QEMU has and papr refuses", 0},
};

static struct { uint64_t code; const char *name; uint64_t calls, differ; } calls[] = {
    {H_ENTER, "H_ENTER", 0, 0},     {H_REMOVE, "H_REMOVE", 0, 0},
    {H_PROTECT, "H_PROTECT", 0, 0}, {H_READ, "H_READ", 0, 0},
    {H_BULK_REMOVE, "H_BULK_REMOVE", 0, 0},
};

static struct {
    struct papr_entry *table;
    size_t count;
    uint8_t order;
    uint64_t ram;
    const uint8_t *htab;                /* QEMU's table, 16 bytes an entry */
    bool *apart;                        /* by group: papr can't have what QEMU has there */
    struct papr_grant given[64];
    size_t given_count;
    struct papr_grants grants;
} s;

static struct {
    uint64_t compared, left_out, shown, tables, taken_over, sweeps, swept, resizes, resizes_differ;
    uint64_t walks, walks_differ, outcomes[4];
} n;

static QemuMutex one_at_a_time;

/* ---- reporting */

static void G_GNUC_PRINTF(1, 2) differ(const char *format, ...)
{
    if (n.shown++ < SHOWN) {
        va_list rest;
        va_start(rest, format);
        g_autofree char *text = g_strdup_vprintf(format, rest);
        va_end(rest);
        error_report("papr: %s", text);
    }
    if (papr_options.stop)
        vm_stop(RUN_STATE_PAUSED);
}

static char *totals_of_all(void)
{
    GString *text = g_string_new(NULL);
    uint64_t wrong = 0;
    for (size_t i = 0; i < ARRAY_SIZE(calls); i++)
        wrong += calls[i].differ;
    g_string_append_printf(text, "%" PRIu64 " calls compared, %" PRIu64 " differ, %" PRIu64 " left out; ",
                           n.compared, wrong, n.left_out);
    g_string_append_printf(text, "%" PRIu64 " walks compared, %" PRIu64 " differ (at %" PRIu64 ", denied %"
                           PRIu64 ", no page %" PRIu64 "); ", n.walks, n.walks_differ, n.outcomes[0],
                           n.outcomes[1], n.outcomes[2]);
    g_string_append_printf(text, "%" PRIu64 " resizes compared, %" PRIu64 " differ; %" PRIu64
                           " sweeps, %" PRIu64 " words differ; %" PRIu64 " tables, %" PRIu64
                           " groups taken over", n.resizes, n.resizes_differ, n.sweeps, n.swept, n.tables,
                           n.taken_over);
    for (size_t i = 0; i < ARRAY_SIZE(calls); i++)
        g_string_append_printf(text, "; %s %" PRIu64 ", %" PRIu64 " differ", calls[i].name,
                               calls[i].calls, calls[i].differ);
    for (size_t i = 0; i < KNOWN; i++)
        if (known[i].seen)
            g_string_append_printf(text, "; known: %" PRIu64 " %s", known[i].seen, known[i].what);
    return g_string_free(text, FALSE);
}

/* ---- papr's side */

static uint64_t htab_word(uint64_t ptex, int word)
{
    return ldq_be_p(s.htab + ptex * 16 + word * 8);
}

/* The range of a device that the guest maps with I is granted when it is first mapped: 16 MB of it. Where
 * the list is full it begins anew with the ram. */
static void grant_device(uint64_t frame)
{
    struct papr_grant range = {frame & ~0xffffffULL, 1ULL << 59 | (frame & ~0xffffffULL), 1 << 24, true};
    if (papr_machine_of(&s.grants, frame, 4096).granted)
        return;
    s.given_count = s.given_count < 64 ? s.given_count : 1;
    s.given[s.given_count] = range;
    if (papr_make_grants(s.given, s.given_count + 1, 1ULL << 40, 24, &s.grants).refusal == PAPR_GRANTED)
        s.given_count++;
}

static struct papr_reply make(uint64_t opcode, const uint64_t *a, uint64_t *w)
{
    struct papr_receipt made[16];
    switch (opcode) {
    case H_ENTER:
        if ((a[3] & RPN) >= s.ram && (a[3] & 0x20))
            grant_device(a[3] & RPN);
        return papr_h_enter(s.table, s.count, s.order, &s.grants, a[0], a[1], a[2], a[3], w, 8, made, 16);
    case H_REMOVE:
        return papr_h_remove(s.table, s.count, s.order, a[0], a[1], a[2], w, 8, made, 16);
    case H_PROTECT:
        return papr_h_protect(s.table, s.count, s.order, a[0], a[1], a[2], w, 8, made, 16);
    case H_READ:
        return papr_h_read(s.table, s.count, s.order, a[0], a[1], w, 8, made, 16);
    default:
        return papr_h_bulk_remove(s.table, s.count, s.order, a, 8, w, 8, made, 16);
    }
}

/* Makes papr's eight entries of a group those of QEMU's; what papr refuses leaves the group apart. */
static void take_over(uint64_t group)
{
    uint64_t w[8];
    s.apart[group] = false;
    for (uint64_t p = group * 8; p < group * 8 + 8; p++) {
        uint64_t remove[3] = {0, p, 0};
        uint64_t enter[4] = {PAPR_EXACT, p, htab_word(p, 0) & ~MARK, htab_word(p, 1)};
        make(H_REMOVE, remove, w);
        if ((enter[2] & 1) && make(H_ENTER, enter, w).rc != 0) {
            s.apart[group] = true;
            known[K_REFUSED].seen++;
        }
    }
    n.taken_over++;
}

/* Compares all entries of the two tables that aren't apart, papr's read by its own H_READ. */
static void sweep(void)
{
    uint64_t wrong = 0, w[8];
    for (uint64_t p = 0; s.table && p < s.count; p += 4) {
        uint64_t read[2] = {PAPR_READ_4, p};
        make(H_READ, read, w);
        for (int i = 0; i < 8; i++) {
            uint64_t q = htab_word(p + i / 2, i & 1), mask = i & 1 ? KEPT : MARK;
            if (papr_options.mode != PAPR_WALKS && (i & 1))
                mask |= RC & ~w[i];     /* set by a walk of QEMU's */
            bool valid = (w[i & 6] | htab_word(p + i / 2, 0)) & 1;
            wrong += !s.apart[p / 8] && valid && ((w[i] ^ q) & ~mask);
        }
    }
    n.sweeps += s.table != NULL;
    n.swept += wrong;
    if (wrong)
        differ("sweep: %" PRIu64 " words of the tables differ", wrong);
}

/* ---- tables */

static void drop_table(void)
{
    g_free(s.table);
    g_free(s.apart);
    s.table = NULL;
    s.apart = NULL;
}

/* Takes QEMU's table over, if the library can have one of its order. */
static void take_table(const void *htab, int order, uint64_t ram)
{
    drop_table();
    s.htab = htab;
    s.ram = ram;
    if (!htab)
        return;
    if (order < PAPR_LOWEST_ORDER || order > PAPR_HIGHEST_ORDER) {
        warn_report("papr: order %d is not from %d to %d, nothing is compared", order, PAPR_LOWEST_ORDER,
                    PAPR_HIGHEST_ORDER);
        return;
    }
    s.order = order;
    s.count = (size_t)1 << (order - 4);
    s.given[0] = (struct papr_grant){0, 1ULL << 58, ram, false};
    s.given_count = 1;
    papr_make_grants(s.given, 1, 1ULL << 40, 24, &s.grants);
    s.table = g_new0(struct papr_entry, s.count);
    s.apart = g_new0(bool, s.count / 8);
    n.tables++;
    for (uint64_t p = 0; p < s.count; p += 8)
        for (int i = 0; i < 8; i++)
            if (htab_word(p + i, 0) & 1) {
                take_over(p / 8);
                break;
            }
}

void papr_shadow_table(const void *htab, int order, uint64_t ram)
{
    qemu_mutex_lock(&one_at_a_time);
    if (!htab)
        sweep();
    take_table(htab, order, ram);
    qemu_mutex_unlock(&one_at_a_time);
}

/* How many entries of QEMU's new table aren't those of papr's rehash. */
static uint64_t wrong_entries(const void *htab, const struct papr_entry *into, size_t count)
{
    uint64_t wrong = 0;
    for (size_t p = 0; p < count; p++) {
        uint64_t q = ldq_be_p((const uint8_t *)htab + p * 16);
        wrong += (q & 1) != into[p].valid || ((q & 1) && ((q ^ into[p].dword0) & ~MARK));
    }
    return wrong;
}

/* papr's own rehash has to give the answer and the table that QEMU's gave. */
static void compare_resize(const void *htab, int order, int64_t rc)
{
    size_t count = (size_t)1 << (order - 4);
    struct papr_entry *into = g_new0(struct papr_entry, count);
    bool apart = memchr(s.apart, true, s.count / 8) != NULL;
    struct papr_rehash r = papr_rehash(s.table, s.count, s.order, into, count, order);
    uint64_t wrong = rc == PAPR_H_SUCCESS ? wrong_entries(htab, into, count) : 0;
    n.resizes++;
    if (!apart && (r.rc != rc || wrong)) {
        n.resizes_differ++;
        differ("resize to order %d: QEMU %" PRId64 ", papr %" PRId64 ", %" PRIu64 " entries differ", order,
               rc, r.rc, wrong);
    }
    g_free(into);
}

/* Called in the middle of a call that isn't compared, under QEMU's global lock. */
void papr_shadow_resized(const void *htab, int order, int64_t rc)
{
    qemu_mutex_lock(&one_at_a_time);
    if (s.table && order <= PAPR_HIGHEST_ORDER)
        compare_resize(htab, order, rc);
    if (rc == PAPR_H_SUCCESS)
        take_table(htab, order, s.ram);
    qemu_mutex_unlock(&one_at_a_time);
}

/* ---- calls */

/* The groups that a call may change. */
static int groups_of(uint64_t opcode, const uint64_t *a, uint64_t *groups)
{
    int count = 0;
    for (int i = 0; i < (opcode == H_BULK_REMOVE ? 8 : 2); i += 2) {
        uint64_t ptex = opcode == H_BULK_REMOVE ? a[i] & INDEX : a[1];
        if (opcode == H_BULK_REMOVE ? a[i] >> 62 == 1 : i == 0)
            if (ptex < s.count)
                groups[count++] = ptex / 8;
    }
    return count;
}

/* The words of a bulk response as they are compared. */
static void mask_bulk(const uint64_t *a, uint64_t *q, uint64_t *p)
{
    bool reached = true;
    for (int i = 0; i < 8; i += 2) {
        reached = reached && a[i] >> 62 == 1;
        if (reached && q[i] >> 60 == 8 && (q[i] & BULK_RC >> 8)) {
            q[i] = (q[i] & ~(BULK_RC >> 8)) | (q[i] & BULK_RC >> 8) << 8;
            known[K_MOVED].seen++;
        } else if (!reached && q[i] == a[i] && p[i] >> 60 == 10 && a[i] >> 62 != 3) {
            q[i] = p[i];
            known[K_TYPE].seen++;
        }
        if (papr_options.mode != PAPR_WALKS && reached && q[i] >> 60 == 8)
            q[i] &= ~(BULK_RC & ~p[i]);     /* set by a walk of QEMU's */
    }
}

/* The doublewords of entries as they are compared. */
static void mask_entries(uint64_t *q, uint64_t *p, int words)
{
    for (int i = 0; i < words; i++) {
        uint64_t bit = i & 1 ? KEPT : MARK;
        if (known[K_CLEAR].seen && !(i & 1) && !((q[i] | p[i]) & 1))
            q[i] = p[i], q[i + 1] = p[i + 1];   /* QEMU keeps the words of an entry with V clear */
        if ((q[i] & bit) && !(p[i] & bit)) {
            q[i] &= ~bit;
            known[i & 1 ? K_KEPT : K_MARK].seen++;
        }
        if (papr_options.mode != PAPR_WALKS && (i & 1))
            q[i] &= ~(RC & ~p[i]);          /* set by a walk of QEMU's */
    }
}

/* Whether the two answers to H_ENTER differ by design; then the group is to be taken over. */
static bool is_known_enter(const uint64_t *a, int64_t rc, int64_t ours)
{
    unsigned lp = a[2] & 4 ? a[3] >> 12 & 15 : 1;   /* 1: 64 KB; 7 and 8: pages in larger ones */
    bool refused = rc == -4 && ((a[3] & 0x78) == 0x70 || (lp != 1 && lp != 7));
    if (!(a[2] & 1) && rc == 0)
        known[K_CLEAR].seen++;
    else if ((ours == 0 || ours == -6) && refused)
        known[K_TAKEN].seen++;
    else
        return ours == -4 && (rc == 0 || rc == -6) &&
               (a[2] >> 63 || lp == 7 || lp == 8 || (a[3] & RPN) >= s.ram);
    return true;
}

static int words_of(uint64_t opcode, const uint64_t *a, int64_t rc)
{
    if (opcode == H_BULK_REMOVE)
        return 8;
    if (rc || opcode == H_PROTECT)
        return 0;
    return opcode == H_ENTER ? 1 : opcode == H_REMOVE ? 2 : a[0] & PAPR_READ_4 ? 8 : 2;
}

/* Makes the call a second time and compares. */
static void compare(size_t kind, const uint64_t *a, int64_t rc, const uint64_t *out)
{
    uint64_t opcode = calls[kind].code, q[8], p[8] = {0}, groups[4];
    int touched = groups_of(opcode, a, groups), words = words_of(opcode, a, rc);
    bool apart = false;
    for (int i = 0; i < touched; i++)
        apart |= s.apart[groups[i]];
    struct papr_reply r = make(opcode, a, p);
    memcpy(q, out, sizeof q);
    if (opcode == H_BULK_REMOVE)
        mask_bulk(a, q, p);
    else if (opcode == H_READ || opcode == H_REMOVE)
        mask_entries(q, p, words);
    bool lawful = apart || (opcode == H_ENTER && (r.rc != rc || !(a[2] & 1)) && is_known_enter(a, rc, r.rc));
    calls[kind].calls++;
    n.compared += !lawful;
    n.left_out += lawful;
    if (!lawful && (r.rc != rc || (int)r.words != words || memcmp(q, p, words * sizeof *q))) {
        calls[kind].differ++;
        lawful = true;                  /* the tables may differ now */
        differ("%s 0x%" PRIx64 " 0x%" PRIx64 " 0x%" PRIx64 " 0x%" PRIx64 ": QEMU %" PRId64 " 0x%" PRIx64
               " 0x%" PRIx64 ", papr %" PRId64 " 0x%" PRIx64 " 0x%" PRIx64, calls[kind].name, a[0], a[1],
               a[2], a[3], rc, q[0], q[1], r.rc, p[0], p[1]);
    }
    for (int i = 0; lawful && i < touched; i++)
        take_over(groups[i]);
    if ((n.compared + n.left_out) % SWEEP_EVERY == 0)
        sweep();
}

static size_t kind_of(uint64_t opcode)
{
    size_t kind = 0;
    while (kind < ARRAY_SIZE(calls) && calls[kind].code != opcode)
        kind++;
    return kind;
}

uint64_t papr_shadow_call(PowerPCCPU *cpu, SpaprMachineState *spapr, uint64_t number, uint64_t *args,
                          papr_hcall_fn *fn)
{
    uint64_t before[9], rc;
    size_t kind = kind_of(number);
    if (kind == ARRAY_SIZE(calls))
        return fn(cpu, spapr, number, args);
    qemu_mutex_lock(&one_at_a_time);
    memcpy(before, args, sizeof before);
    rc = fn(cpu, spapr, number, args);
    if (s.table)
        compare(kind, before, rc, args);
    qemu_mutex_unlock(&one_at_a_time);
    return rc;
}

/* ---- walks */

void papr_shadow_walk_begin(void)
{
    qemu_mutex_lock(&one_at_a_time);
}

void papr_shadow_walk(const struct papr_search *q)
{
    struct papr_receipt made[PAPR_MOST_RECEIPTS];
    if (s.table) {
        struct papr_access a = papr_access_of(q->slb, q->shift, q->ea, q->want, q->problem);
        struct papr_walk w = papr_walk(s.table, s.count, s.order, &a, made, PAPR_MOST_RECEIPTS);
        bool is_other = w.outcome != q->outcome || (q->outcome == PAPR_WALK_AT && w.logical != q->address);
        n.walks++;
        n.outcomes[q->outcome & 3]++;
        if (is_other && !known[K_REFUSED].seen) {
            n.walks_differ++;
            differ("walk: segment 0x%" PRIx64 " ea 0x%" PRIx64 " want %d; QEMU %u 0x%" PRIx64
                   ", papr %" PRIu32 " 0x%" PRIx64, q->slb, q->ea, q->want, q->outcome, q->address, w.outcome,
                   w.logical);
        }
    }
    qemu_mutex_unlock(&one_at_a_time);
}

/* ---- the beginning and the end */

void papr_shadow_init(void)
{
    qemu_mutex_init(&one_at_a_time);
}

void papr_shadow_end(void)
{
    sweep();
}

char *papr_shadow_totals(void)
{
    qemu_mutex_lock(&one_at_a_time);
    char *text = totals_of_all();
    qemu_mutex_unlock(&one_at_a_time);
    return text;
}
