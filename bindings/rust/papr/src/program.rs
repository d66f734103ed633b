//! The whole program on bytes: runs of traces, verdicts, images, sets of partitions, and drills.

use crate::errors::NoMemory;
use crate::memory::{copied, zeroed};
use crate::transfer::Layout;
use alloc::string::String;
use alloc::vec::Vec;
use core::fmt::{self, Write};
use papr_sys::papr_bytes_end;

const ARGUMENTS: usize = 3;
/// The most bytes of an input.
const LIMIT: usize = 1 << 24;
/// The most bytes that the program looks at: one more than it takes, by which it refuses a longer input.
const LOOKED_AT: usize = LIMIT + 1;
/// The most digits of a number.
const DIGITS: usize = 20;
const LEAST_ROOM: usize = 4_096;
/// Bytes of output for each byte of the input: mostly enough.
const ROOM_FOR_A_BYTE: usize = 24;

/// How a call of the program ends without what was asked for; each has what was written.
#[derive(Clone, Debug, PartialEq, Eq)]
pub enum ProgramError {
    /// The arguments are no command.
    Usage(String),
    /// The input is refused: `papr: line N: REASON`, or of an image `papr: entry N: layout`.
    Refused(String),
    /// There is not enough memory.
    Memory,
}

impl From<NoMemory> for ProgramError {
    fn from(_: NoMemory) -> ProgramError {
        ProgramError::Memory
    }
}

impl fmt::Display for ProgramError {
    fn fmt(&self, f: &mut fmt::Formatter<'_>) -> fmt::Result {
        f.write_str(match self {
            ProgramError::Usage(text) | ProgramError::Refused(text) => text.trim_end(),
            ProgramError::Memory => "there is not enough memory",
        })
    }
}

impl core::error::Error for ProgramError {}

/// Whether a text can be the replies to a trace.
#[derive(Clone, Copy, Debug, PartialEq, Eq)]
pub enum Verdict {
    /// It is the text of a good run.
    Good,
    /// It isn't: the first section that isn't good, counted from 1.
    BadSection(u64),
}

/// Calls the program, with so much room for what it writes.
fn call_with_room(arguments: [&str; ARGUMENTS], input: &[u8], place: &mut [u8]) -> papr_bytes_end {
    let [first, second, third] = arguments;
    // SAFETY: each pointer is to as many bytes as its length says, and only `place` is written.
    unsafe {
        papr_sys::papr_bytes_call(
            first.as_ptr(),
            first.len(),
            second.as_ptr(),
            second.len(),
            third.as_ptr(),
            third.len(),
            input.as_ptr(),
            input.len(),
            place.as_mut_ptr(),
            place.len(),
        )
    }
}

/// Room for what is written about an input of this length: about one that is too long a line. Where
/// there is no memory for what is mostly enough, the library will say how much is needed.
fn room(length: usize) -> Result<Vec<u8>, NoMemory> {
    let answered = if length > LIMIT { 0 } else { length };
    zeroed(LEAST_ROOM + ROOM_FOR_A_BYTE * answered).or_else(|NoMemory| zeroed(LEAST_ROOM))
}

/// The program with these arguments and this input: its status, and what it writes.
fn call(arguments: [&str; ARGUMENTS], input: &[u8]) -> Result<(u32, Vec<u8>), NoMemory> {
    let input = &input[..input.len().min(LOOKED_AT)];
    let mut place = room(input.len())?;
    loop {
        let ended = call_with_room(arguments, input, &mut place);
        let length = usize::try_from(ended.length).map_err(|_| NoMemory)?;
        if ended.status != papr_sys::PAPR_BYTES_NO_ROOM {
            place.truncate(length);
            return Ok((ended.status, place));
        }
        drop(place);
        place = zeroed(length)?;
    }
}

/// What the program writes, and whether it ended with `done`.
fn written(arguments: [&str; ARGUMENTS], input: &[u8]) -> Result<String, ProgramError> {
    let (status, bytes) = call(arguments, input)?;
    // A copy takes no more memory than the text needs.
    let bytes = copied(&bytes).unwrap_or(bytes);
    let text = String::from_utf8(bytes).expect("the program writes ASCII");
    match status {
        papr_sys::PAPR_BYTES_DONE | papr_sys::PAPR_BYTES_NOT_GOOD => Ok(text),
        papr_sys::PAPR_BYTES_USAGE => Err(ProgramError::Usage(text)),
        papr_sys::PAPR_BYTES_REFUSED => Err(ProgramError::Refused(text)),
        _ => Err(ProgramError::Memory),
    }
}

/// These texts, one after the other, as far as the program looks at them.
fn joined(texts: &[&str]) -> Result<Vec<u8>, NoMemory> {
    let length = texts
        .iter()
        .fold(0, |sum: usize, text| sum.saturating_add(text.len()));
    let mut made = Vec::new();
    made.try_reserve_exact(length.min(LOOKED_AT))
        .map_err(|_| NoMemory)?;
    for text in texts {
        let left = LOOKED_AT - made.len();
        made.extend_from_slice(&text.as_bytes()[..text.len().min(left)]);
    }
    Ok(made)
}

/// A number as the program reads it.
fn decimal(number: u64) -> Result<String, NoMemory> {
    let mut text = String::new();
    text.try_reserve_exact(DIGITS).map_err(|_| NoMemory)?;
    write!(text, "{number}").map_err(|_| NoMemory)?;
    Ok(text)
}

/// The replies of the serial run of a trace, as `papr run` writes them.
pub fn run(trace: &str) -> Result<String, ProgramError> {
    written(["run", "", ""], trace.as_bytes())
}

/// Whether a text, whatever program wrote it, can be the replies to a trace: that of a good run.
pub fn check(trace: &str, replies: &str) -> Result<Verdict, ProgramError> {
    let between = if trace.ends_with('\n') { "" } else { "\n" };
    let input = joined(&[trace, between, "replies\n", replies])?;
    let text = written(["check", "", ""], &input)?;
    let section = text
        .trim_end()
        .strip_prefix("bad section ")
        .and_then(|it| it.parse().ok());
    Ok(section.map_or(Verdict::Good, Verdict::BadSection))
}

/// The table at the end of a trace's run, as `papr image` writes it.
pub fn image(trace: &str, layout: Layout) -> Result<String, ProgramError> {
    let word = match layout {
        Layout::Old => "old",
        Layout::New => "new",
    };
    written(["image", word, ""], trace.as_bytes())
}

/// The replies of partitions whose tables share one pool, as `papr set` writes them.
pub fn run_set(partitions: &str) -> Result<String, ProgramError> {
    written(["set", "", ""], partitions.as_bytes())
}

/// The summary of a generated trace of at most 100,000 lines: words and numbers, a line each.
pub fn drill(seed: u64, lines: u32) -> Result<String, ProgramError> {
    let (seed, lines) = (decimal(seed)?, decimal(u64::from(lines))?);
    written(["drill", &seed, &lines], &[])
}
