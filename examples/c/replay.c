/*
 * Replays a trace through papr_c, and writes the replies that `papr run` writes.
 *
 *   replay <TRACE
 *
 * The library has the calls, the walk, the segments and the devices' accesses. What an emulator keeps
 * itself is kept here: the memory of the tables (resizing.c), and a cache of translations for each processor
 * (cache.c). Where papr writes `hit` this finds the translation in the cache.
 *
 * A trace is taken to be one that papr accepts: but for its numbers nothing is checked.
 */
#include "replay.h"

#include <inttypes.h>
#include <stdio.h>
#include <stdlib.h>
#include <string.h>

static const char *const answers[] = {"entered", "taken", "removed", "protected", "was", "read",
                                      "notfound", "nomatch", "denied", "at", "worn", "masked"};

/* What a run carries from line to line. */
static struct guest guest = {.current = {.order = 18}, .limit = 22, .pool_base = UINT64_C(1) << 36,
                             .pool_order = 24};

struct line {
    char *text;         /* the words lie in it */
    char *word[12];
    int words;
    uint64_t value[12]; /* of the words that are numbers */
};

/* ---- reading */

static char *read_all(void)
{
    size_t room = 1 << 20, length = 0, got;
    char *text = malloc(room + 1);
    while (text && (got = fread(text + length, 1, room - length, stdin)) > 0) {
        length += got;
        if (length == room)
            text = realloc(text, (room *= 2) + 1);
    }
    if (text)
        text[length] = 0;
    return text;
}

/* A word is a number where it begins with a digit; then all of it has to be one. Only the digits of an
 * entry's doublewords are none. */
static bool split(struct line *line)
{
    char *rest = line->text;
    for (char *word; line->words < 12 && (word = strtok_r(rest, " \t\r", &rest));) {
        char *end = word;
        bool is_digits = line->words == 3 && !strcmp(line->word[0], "entry");
        if (word[0] >= '0' && word[0] <= '9' && !is_digits)
            line->value[line->words] = strtoull(word, &end, 0);
        line->word[line->words++] = word;
        if (is_digits)
            continue;
        if (word[0] >= '0' && word[0] <= '9' && (*end || end[-1] == 'x'))
            return false;
    }
    return true;
}

/* ---- writing */

static void put_receipts(const struct papr_receipt *made, uint32_t count)
{
    if (count)
        printf(" |");
    for (uint32_t i = 0; i < count; i++)
        printf(" 0x%" PRIx32 ".%" PRIu32 ".%u.%s", made[i].entry, made[i].stamp, made[i].bits,
               answers[made[i].answer]);
    putchar('\n');
}

static void put_dump(void)
{
    const struct table *t = &guest.current;
    uint64_t valid = 0, words[8];
    struct papr_receipt made[16];
    for (size_t i = 0; i < t->count; i++)
        valid += t->entries[i].valid;
    printf("dump table %" PRIu32 " order %u place 0x%" PRIx64 " entries %" PRIu64 "\n", guest.number,
           t->order, t->place, valid);
    for (size_t i = 0; i < t->count; i++)
        if (t->entries[i].valid) {
            papr_h_read(t->entries, t->count, t->order, 0, i, words, 8, made, 16);
            printf(" 0x%zx 0x%" PRIx64 " 0x%" PRIx64 " %" PRIu32 "\n", i, words[0], words[1],
                   made[0].stamp);
        }
}

/* ---- the lines */

static const char *refusal_word(uint32_t outcome)
{
    switch (outcome) {
    case PAPR_WALK_DENIED: return "denied";
    case PAPR_WALK_AMR: return "masked amr";
    case PAPR_WALK_IAMR: return "masked iamr";
    default: return "nopage";
    }
}

/* The walk of an access. Where its translation is cached, what papr writes is the receipt of its entry, by
 * which this walk ends too: the walk is made here for what it leaves in R and C. */
static void access_line(uint64_t cpu, const char *want, uint64_t ea, bool problem)
{
    struct papr_receipt made[16];
    struct papr_slot segment = papr_slb_find(&guest.slb[cpu], ea);
    if (!segment.valid) {
        puts("nosegment");
        return;
    }
    struct papr_access access = {
        .ea = ea, .vsid = segment.vsid, .amr = guest.amr[cpu], .iamr = guest.iamr[cpu],
        .shift = segment.shift, .want = want[0] == 'l' ? 0 : want[0] == 's' ? 1 : 2,
        .one_tb = segment.one_tb, .key = problem ? segment.kp : segment.ks,
        .no_execute = segment.no_execute};
    struct table *t = &guest.current;
    struct cache *cache = &guest.cache[cpu];
    bool hit = find_cached(cache, &segment, ea, t->entries);
    const char *by = hit ? "hit" : "walk";
    struct papr_walk w = papr_walk(t->entries, t->count, t->order, &access, made, 16);
    struct papr_range at = papr_machine_of(&guest.grants, w.logical, 1);
    bool allowed = w.outcome == PAPR_WALK_AT && at.granted;
    if (allowed)
        printf("at 0x%" PRIx64 " %s", at.machine, by);
    else if (w.outcome == PAPR_WALK_AT)
        printf("ungranted 0x%" PRIx64 " %s", w.logical, by);
    else
        printf("%s %s", refusal_word(w.outcome), by);
    if (hit)
        put_receipts(made + w.receipts - 1, 1);
    else
        put_receipts(made, w.receipts);
    if (!hit)
        after_walk(cache, &segment, ea, allowed, w.entry, t->entries[w.entry].stamp);
}

static void device_line(uint64_t liobn, uint64_t ioba, bool write)
{
    struct papr_receipt made[16];
    struct papr_device d = access_device(&guest, liobn, ioba, write, made);
    if (d.outcome == PAPR_DEVICE_AT)
        printf("at 0x%" PRIx64, d.address);
    else if (d.outcome == PAPR_DEVICE_UNGRANTED)
        printf("ungranted 0x%" PRIx64, d.address);
    else
        printf("%s", d.outcome == PAPR_DEVICE_DENIED ? "denied" : "nowindow");
    put_receipts(made, d.receipts);
}

/* A call on entries by its number; false where the number is none of them. */
static bool call_entries(uint64_t number, const uint64_t *a, struct papr_reply *r, uint64_t *words,
                         struct papr_receipt *made)
{
    struct table *t = &guest.current;
    struct papr_entry *e = t->entries;
    switch (number) {
    case H_REMOVE:
        *r = papr_h_remove(e, t->count, t->order, a[0], a[1], a[2], words, 8, made, 16);
        return true;
    case H_ENTER:
        *r = papr_h_enter(e, t->count, t->order, &guest.grants, a[0], a[1], a[2], a[3], words, 8,
                          made, 16);
        return true;
    case H_READ:
        *r = papr_h_read(e, t->count, t->order, a[0], a[1], words, 8, made, 16);
        return true;
    case H_CLEAR_MOD:
        *r = papr_h_clear_mod(e, t->count, t->order, a[0], a[1], words, 8, made, 16);
        return true;
    case H_CLEAR_REF:
        *r = papr_h_clear_ref(e, t->count, t->order, a[0], a[1], words, 8, made, 16);
        return true;
    case H_PROTECT:
        *r = papr_h_protect(e, t->count, t->order, a[0], a[1], a[2], words, 8, made, 16);
        return true;
    case H_BULK_REMOVE:
        *r = papr_h_bulk_remove(e, t->count, t->order, a, 8, words, 8, made, 16);
        return true;
    default:
        return false;
    }
}

static void call_line(uint64_t number, const uint64_t *a)
{
    struct papr_reply r = {.rc = -2};
    struct papr_receipt made[16];
    uint64_t words[8];
    if (!call_entries(number, a, &r, words, made)) {
        if (number == H_RESIZE_HPT_PREPARE)
            r.rc = prepare(&guest, a[0], a[1]);
        else if (number == H_RESIZE_HPT_COMMIT)
            r.rc = commit(&guest, a[0], a[1]);
        else if (number == H_GET_TCE || number == H_PUT_TCE)
            r = call_window(&guest, number, a, words, made);
    }
    printf("%" PRId64, r.rc);
    for (uint32_t i = 0; i < r.words; i++)
        printf(" 0x%" PRIx64, words[i]);
    put_receipts(made, r.receipts);
}

static uint64_t number_of(const char *name)
{
    static const struct { const char *name; uint64_t number; } calls[] = {
        /* tests/check call-table: begin */
        {"H_ENTER", H_ENTER},
        {"H_REMOVE", H_REMOVE},
        {"H_PROTECT", H_PROTECT},
        {"H_READ", H_READ},
        {"H_CLEAR_REF", H_CLEAR_REF},
        {"H_CLEAR_MOD", H_CLEAR_MOD},
        {"H_BULK_REMOVE", H_BULK_REMOVE},
        {"H_PUT_TCE", H_PUT_TCE},
        {"H_GET_TCE", H_GET_TCE},
        {"H_RESIZE_HPT_PREPARE", H_RESIZE_HPT_PREPARE},
        {"H_RESIZE_HPT_COMMIT", H_RESIZE_HPT_COMMIT},
        /* tests/check call-table: end */
    };
    for (size_t i = 0; i < sizeof calls / sizeof *calls; i++)
        if (!strcmp(name, calls[i].name))
            return calls[i].number;
    return UINT64_MAX;
}

static void run_line(unsigned long n, const struct line *l)
{
    printf("%lu ", n);
    if (!strcmp(l->word[0], "dump")) {
        put_dump();
        return;
    }
    const char *name = l->word[1];
    uint64_t cpu = l->value[0];
    printf("%" PRIu64 " %s ", cpu, name);
    if (!strcmp(name, "slbmte"))
        puts(papr_slb_mte(&guest.slb[cpu], l->value[2], l->value[3]) ? "refused" : "ok");
    else if (!strcmp(name, "slbclear"))
        papr_slb_clear(&guest.slb[cpu]), puts("ok");
    else if (!strcmp(name, "amr"))
        guest.amr[cpu] = l->value[2], puts("ok");
    else if (!strcmp(name, "iamr"))
        guest.iamr[cpu] = l->value[2], puts("ok");
    else if (!strcmp(name, "load") || !strcmp(name, "store") || !strcmp(name, "fetch"))
        access_line(cpu, name, l->value[2], !strcmp(l->word[3], "user"));
    else if (!strcmp(name, "dmaread") || !strcmp(name, "dmawrite"))
        device_line(l->value[2], l->value[3], name[3] == 'w');
    else if (!strcmp(name, "hcall"))
        call_line(l->value[2], l->value + 3);
    else
        call_line(number_of(name), l->value + 2);
}

static bool open_current(void)
{
    return guest.current.entries || open_table(&guest, &guest.current, guest.current.order);
}

/* `entry LAYOUT INDEX DIGITS`: a valid entry of the opening table. */
static bool entry_line(const struct line *l)
{
    uint64_t dword0, dword1;
    if (!open_current() || sscanf(l->word[3], "%16" SCNx64 "%16" SCNx64, &dword0, &dword1) != 2)
        return false;
    if (!strcmp(l->word[1], "new")) {
        dword0 |= dword1 >> 58 << 62;
        dword1 &= ~(UINT64_C(3) << 58);
    }
    guest.current.entries[l->value[2]] = (struct papr_entry){
        .dword0 = dword0, .dword1 = dword1 & ~UINT64_C(0x180), .valid = true,
        .referenced = dword1 & 0x100, .changed = dword1 & 0x80};
    return true;
}

/* The lines before `begin`, and it; false where the library or the memory refuses. */
static bool set_line(const struct line *l)
{
    const char *name = l->word[0];
    const uint64_t *v = l->value + 1;
    if (!strcmp(name, "order"))
        guest.current.order = (uint8_t)v[0];
    else if (!strcmp(name, "limit"))
        guest.limit = v[0];
    else if (!strcmp(name, "pool"))
        guest.pool_base = v[0], guest.pool_order = (uint8_t)v[1];
    else if (!strcmp(name, "ram") || !strcmp(name, "io"))
        guest.given[guest.given_count++] = (struct papr_grant){v[0], v[1], v[2], name[0] == 'i'};
    else if (!strcmp(name, "entry"))
        return entry_line(l);
    else if (!strcmp(name, "window"))
        return open_window(&guest, v[0], v[1], v[2]);
    else if (!strcmp(name, "begin"))
        return papr_make_grants(guest.given, guest.given_count, guest.pool_base, guest.pool_order,
                                &guest.grants).refusal == PAPR_GRANTED &&
               open_current();
    return true;
}

/* The text's lines, with a pass over all of them before the first is run. */
static int replay(char *text)
{
    unsigned long count = 1, begin = 0;
    for (const char *at = text; *at; at++)
        count += *at == '\n';
    struct line *lines = calloc(count, sizeof *lines);
    if (!lines)
        return 5;
    for (unsigned long n = 0; n < count; n++) {
        lines[n].text = strsep(&text, "\n");
        if (lines[n].text[0] != '#' && !split(&lines[n])) {
            printf("papr: line %lu: number\n", n + 1);
            free(lines);
            return 2;
        }
    }
    int status = 0;
    for (unsigned long n = 0; n < count && !status; n++) {
        if (!lines[n].words)
            continue;
        if (begin)
            run_line(n + 1, &lines[n]);
        else if (!set_line(&lines[n]))
            status = 5;
        begin = begin || !strcmp(lines[n].word[0], "begin");
    }
    free(lines);
    return status;
}

int main(void)
{
    char *text = read_all();
    int status = text ? replay(text) : 5;
    close_tables(&guest);
    close_windows(&guest);
    free(text);
    return status;
}
