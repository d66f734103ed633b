/* Runs a trace of standard input through papr_bytes, as `papr run` does: call <TRACE */
#include <papr_bytes.h>
#include <stdio.h>

static char trace[1 << 24], replies[1 << 26];

int main(void)
{
    size_t length = fread(trace, 1, sizeof trace, stdin);
    struct papr_bytes_end end = papr_bytes("run", NULL, NULL, trace, length, replies, sizeof replies);
    if (end.status == PAPR_BYTES_NO_ROOM)
        fprintf(stderr, "the replies want %llu bytes\n", (unsigned long long)end.length);
    else
        fwrite(replies, 1, end.length, stdout);
    return (int)end.status;
}
