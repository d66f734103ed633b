/* The program on bytes at its limits: a trace of 2^24 bytes and as many lines as there may be, whose replies are the longest
 * that a load has, over 43 MB. What is written is compared with replies that are made here. Then a buffer that is a byte too
 * small, and a trace that is a byte too long. Writes a line for each difference. */
#include <papr_bytes.h>
#include <stdbool.h>
#include <stdio.h>
#include <stdlib.h>

enum { MOST_BYTES = 1 << 24, MOST_LINES = 1 << 17, GROUP = 8, A_REPLY = 400 };

/* The page of the load hashes to the first of these groups, and the other is its secondary one. */
static const unsigned groups[2] = {0x4005, 0x3ffa};
static int failures;

static void is(int line, const char *what, uint64_t got, uint64_t wanted)
{
    if (got != wanted && failures++ < 20)
        printf("line %d: %s is %llu, not %llu\n", line, what, (unsigned long long)got, (unsigned long long)wanted);
}
#define IS(got, wanted) is(__LINE__, #got, (uint64_t)(got), (uint64_t)(wanted))

/* The lines before the loads: both groups are full of entries of another page. Gives how many there are. */
static unsigned put_head(char *trace)
{
    unsigned lines = 5;
    trace += sprintf(trace, "order 22\ncpus 64\nram 0x0 0x2000000000 0x40000000\n");
    for (int group = 1; group >= 0; group--)
        for (unsigned slot = 0; slot < GROUP; slot++, lines++)
            trace += sprintf(trace, "entry old %#x 00000000000020010000000000003012\n", groups[group] * GROUP + slot);
    sprintf(trace, "begin\n63 slbmte 0x8000000 0x4000000\n");
    return lines;
}

/* Lines of one load, each with as many blanks as bring the trace to its length. */
static void put_loads(char *trace, unsigned lines)
{
    static const char load[] = "63 load 0x5000 priv";
    size_t length = strlen(trace), room = MOST_BYTES - length;
    memset(trace + length, ' ', room);
    for (unsigned i = 0; i < lines; i++) {
        size_t at = length + (size_t)((uint64_t)room * i / lines), end = length + (size_t)((uint64_t)room * (i + 1) / lines);
        memcpy(trace + at, load, sizeof load - 1);
        trace[end - 1] = '\n';
    }
}

/* The reply to a load: its page is in none of the sixteen entries. */
static int put_reply(char *text, unsigned line)
{
    int length = sprintf(text, "%u 63 load nopage walk |", line);
    for (int group = 0; group < 2; group++)
        for (unsigned slot = 0; slot < GROUP; slot++)
            length += sprintf(text + length, " %#x.0.0.nomatch", groups[group] * GROUP + slot);
    return length + sprintf(text + length, "\n");
}

/* The replies to the whole trace. Gives their length. */
static size_t put_replies(char *text, unsigned head)
{
    size_t length = (size_t)sprintf(text, "%u 63 slbmte ok\n", head);
    for (unsigned line = head + 1; line <= MOST_LINES; line++)
        length += (size_t)put_reply(text + length, line);
    return length;
}

int main(void)
{
    size_t room = (size_t)MOST_LINES * A_REPLY;
    char *trace = calloc(MOST_BYTES + 1, 1), *wanted = malloc(room), *got = malloc(room);
    if (!trace || !wanted || !got)
        return 2;
    unsigned head = put_head(trace);
    put_loads(trace, MOST_LINES - head);
    size_t length = put_replies(wanted, head);
    IS(length > 43000000, true);

    struct papr_bytes_end end = papr_bytes("run", NULL, NULL, trace, MOST_BYTES, got, room);
    IS(end.status, PAPR_BYTES_DONE);
    IS(end.length, length);
    IS(memcmp(got, wanted, length), 0);
    got[0] = '-';
    end = papr_bytes("run", NULL, NULL, trace, MOST_BYTES, got, length - 1);
    IS(end.status, PAPR_BYTES_NO_ROOM);
    IS(end.length, length);
    IS(got[0], '-');
    trace[MOST_BYTES] = '\n';
    end = papr_bytes("run", NULL, NULL, trace, MOST_BYTES + 1, got, room);
    IS(end.status, PAPR_BYTES_REFUSED);
    IS(end.length, strlen("papr: line 0: long\n"));
    IS(memcmp(got, "papr: line 0: long\n", end.length), 0);
    free(trace), free(wanted), free(got);
    return failures ? 1 : 0;
}
