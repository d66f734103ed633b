/*
 * papr on bytes: the program `papr` as one function. Its arguments, its input and its output are in the caller's memory.
 * docs/FORMATS.md describes what it reads and writes. The contract is proved: the call answers and writes what the
 * program's definitions say (docs/LIBRARY.md).
 *
 * A call allocates memory from the C library's heap while it runs, frees all of it, keeps no pointer and starts no thread.
 * Several calls may run at the same time, each in its own thread. A call needs at most 64 KB of stack on x86-64.
 *
 * The function can't check these conditions, so the caller has to ensure them: a pointer is to initialised memory of the
 * given length, and the buffer `output` doesn't overlap another parameter's memory. With a length of 0 a pointer may
 * be NULL.
 */
#ifndef PAPR_BYTES_H
#define PAPR_BYTES_H

#include <stdint.h>
#include <string.h>

#ifdef __cplusplus
extern "C" {
#endif

/* How a call ended. */
enum papr_bytes_status {
    PAPR_BYTES_DONE = 0,         /* the input was read to its end and answered, or the drill was run */
    PAPR_BYTES_USAGE = 1,        /* the arguments are no command; `par` isn't one here */
    PAPR_BYTES_REFUSED = 2,      /* the input is refused: "papr: line N: REASON", or under "image" "papr: entry N: layout" */
    PAPR_BYTES_READ_FAULT = 3,   /* never comes: an input in memory can be read */
    PAPR_BYTES_WRITE_FAULT = 4,  /* there is not enough memory for the output */
    PAPR_BYTES_NO_MEMORY = 5,    /* there is not enough memory; nothing is written */
    PAPR_BYTES_NOT_GOOD = 6,     /* under "check": the text is not that of a good run */
    PAPR_BYTES_NO_ROOM = 7       /* the buffer is too small: it is unchanged, and `length` is the size that is needed */
};

/* What a call answers, in 16 bytes. */
struct papr_bytes_end {
    uint32_t status;  /* one of the above */
    uint64_t length;  /* in bytes: of what was written, or the size that is needed */
};

/*
 * Calls the program with at most three arguments; an argument of length 0 is left out. Arguments are bytes of UTF-8; other
 * bytes are read as U+FFFD.
 *
 *   "run"                   the input is a trace: its replies
 *   "check"                 a trace, a line `replies` and a text: `good`, or `bad section K`
 *   "set"                   a set of partitions whose tables share one pool: their replies
 *   "image", "old" | "new"  a trace: the table at its end, in the layout of Power ISA 2.07 or 3.0
 *   "drill", SEED, LINES    no input; decimal numbers, LINES at most 100000: the summary of a generated trace
 *
 * An input of more than 2^24 bytes is refused. The output is written to `output`, which has `room` bytes, from its first byte
 * on, without a final NUL; the bytes after it are unchanged. A buffer of 24 bytes for each byte of a trace is mostly large
 * enough; if it isn't, `length` says how much is needed.
 */
struct papr_bytes_end papr_bytes_call(
    const uint8_t *first, size_t first_length, const uint8_t *second, size_t second_length,
    const uint8_t *third, size_t third_length, const uint8_t *input, size_t input_length,
    uint8_t *output, size_t room);

/* The same with arguments that end with a NUL; an argument that is NULL is left out. */
static inline struct papr_bytes_end papr_bytes(
    const char *first, const char *second, const char *third, const void *input, size_t input_length,
    void *output, size_t room)
{
    return papr_bytes_call(
        (const uint8_t *)first, first ? strlen(first) : 0, (const uint8_t *)second, second ? strlen(second) : 0,
        (const uint8_t *)third, third ? strlen(third) : 0, (const uint8_t *)input, input_length, (uint8_t *)output, room);
}

#ifdef __cplusplus
}
#endif

#endif
