//! The struct and the numbers of `papr_bytes.h`, with its names.

/// What a call answers.
#[repr(C)]
#[derive(Clone, Copy, Debug, Default, PartialEq, Eq)]
pub struct papr_bytes_end {
    /// `PAPR_BYTES_DONE` and the following ones.
    pub status: u32,
    /// In bytes: of what was written, or the size that is needed.
    pub length: u64,
}

/// The input was read to its end and answered, or the drill was run.
pub const PAPR_BYTES_DONE: u32 = 0;
/// The arguments are no command; `par` isn't one here.
pub const PAPR_BYTES_USAGE: u32 = 1;
/// The input is refused: "papr: line N: REASON", or under "image" "papr: entry N: layout".
pub const PAPR_BYTES_REFUSED: u32 = 2;
/// Never comes: an input in memory can be read.
pub const PAPR_BYTES_READ_FAULT: u32 = 3;
/// There is not enough memory for the output.
pub const PAPR_BYTES_WRITE_FAULT: u32 = 4;
/// There is not enough memory; nothing is written.
pub const PAPR_BYTES_NO_MEMORY: u32 = 5;
/// Under "check": the text is not that of a good run.
pub const PAPR_BYTES_NOT_GOOD: u32 = 6;
/// The buffer is too small: it is unchanged, and `length` is the size that is needed.
pub const PAPR_BYTES_NO_ROOM: u32 = 7;
