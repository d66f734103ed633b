//! The function of `papr_bytes.h`: the whole program on bytes.
//! Written from it by `tests/check declarations --write`, with its comments: change nothing here.

use crate::bytes::papr_bytes_end;

extern "C" {
    /// Calls the program with at most three arguments; an argument of length 0 is left out.
    /// Arguments are bytes of UTF-8; other bytes are read as U+FFFD.
    ///
    /// ```text
    /// "run"                   the input is a trace: its replies
    /// "check"                 a trace, a line `replies` and a text: `good`, or `bad section K`
    /// "set"                   a set of partitions whose tables share one pool: their replies
    /// "image", "old" | "new"  a trace: the table at its end, in the layout of Power ISA 2.07 or 3.0
    /// "drill", SEED, LINES    no input; decimal numbers, LINES at most 100000: the summary of a generated trace
    /// ```
    ///
    /// An input of more than 2^24 bytes is refused. The output is written to `output`, which has
    /// `room` bytes, from its first byte on, without a final NUL; the bytes after it are unchanged.
    /// A buffer of 24 bytes for each byte of a trace is mostly large enough; if it isn't, `length`
    /// says how much is needed.
    pub fn papr_bytes_call(
        first: *const u8,
        first_length: usize,
        second: *const u8,
        second_length: usize,
        third: *const u8,
        third_length: usize,
        input: *const u8,
        input_length: usize,
        output: *mut u8,
        room: usize,
    ) -> papr_bytes_end;
}
