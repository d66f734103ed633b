//! What a call answers.

use crate::answers::{ReceiptRoom, Receipts};
use crate::errors::Error;
use core::fmt;
use papr_sys::papr_reply;

/// The most words that a call gives.
pub(crate) const WORDS: usize = 8;

/// What a call answers: a code, words, and receipts.
#[derive(Clone, Copy, Debug, PartialEq, Eq)]
pub struct Reply {
    raw: papr_reply,
    words: [u64; WORDS],
    receipts: ReceiptRoom,
}

impl Reply {
    /// The answer of the library, with the words and receipts that it filled.
    pub(crate) fn new(raw: papr_reply, words: [u64; WORDS], receipts: ReceiptRoom) -> Reply {
        Reply {
            raw,
            words,
            receipts: receipts.with(raw.receipts),
        }
    }

    /// The code, as register 3 has it.
    pub fn code(&self) -> i64 {
        self.raw.rc
    }

    /// The words, as register 4 and the following ones have them, or why the call is refused.
    pub fn result(&self) -> Result<&[u64], Error> {
        Error::of_code(self.raw.rc).map_or(Ok(self.words()), Err)
    }

    /// The words; H_BULK_REMOVE may also give them when it is refused.
    pub fn words(&self) -> &[u64] {
        &self.words[..self.raw.words as usize]
    }

    /// What the call did to entries, in order.
    pub fn receipts(&self) -> Receipts<'_> {
        self.receipts.receipts()
    }

    /// Whether cached translations have to be dropped before the guest goes on.
    pub fn is_stale(&self) -> bool {
        self.raw.stale
    }
}

impl fmt::Display for Reply {
    /// As replies write it: the code, the words, and the receipts.
    fn fmt(&self, f: &mut fmt::Formatter<'_>) -> fmt::Result {
        write!(f, "{}", self.code())?;
        for word in self.words() {
            write!(f, " {word:#x}")?;
        }
        for (at, receipt) in self.receipts().enumerate() {
            write!(f, "{} {receipt}", if at == 0 { " |" } else { "" })?;
        }
        Ok(())
    }
}
