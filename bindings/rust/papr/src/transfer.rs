//! Entries as bytes.

use core::fmt;
use papr_sys::papr_transfer;

/// How an entry's 16 bytes are laid out: by two versions of the Power ISA.
#[derive(Clone, Copy, Debug, PartialEq, Eq, Hash)]
pub enum Layout {
    /// Version 2.07: B is in doubleword 0.
    Old = 0,
    /// Version 3.0: B is in doubleword 1.
    New = 1,
}

/// Why no entries are transferred.
#[derive(Clone, Copy, Debug, PartialEq, Eq, Hash)]
pub enum TransferRefusal {
    /// The range isn't in the table, or there are too few bytes for it.
    Arguments,
    /// The layout has no such entry.
    Unheld,
    /// H_ENTER would refuse it.
    Unentered,
    /// There is no memory for the bytes; the index is the first one of the range.
    NoMemory,
}

/// A transfer is refused, and nothing changed.
#[derive(Clone, Copy, Debug, PartialEq, Eq)]
pub struct TransferRefused {
    /// The first entry that is refused.
    pub index: usize,
    /// Why.
    pub refusal: TransferRefusal,
}

impl fmt::Display for TransferRefused {
    fn fmt(&self, f: &mut fmt::Formatter<'_>) -> fmt::Result {
        write!(
            f,
            "the transfer of entry {:#x} is refused: {:?}",
            self.index, self.refusal
        )
    }
}

impl core::error::Error for TransferRefused {}

/// What the answer of the library says.
pub(crate) fn result_of(it: papr_transfer) -> Result<(), TransferRefused> {
    let refusal = match it.refusal {
        papr_sys::PAPR_TRANSFERRED => return Ok(()),
        papr_sys::PAPR_TRANSFER_UNHELD => TransferRefusal::Unheld,
        papr_sys::PAPR_TRANSFER_UNENTERED => TransferRefusal::Unentered,
        _ => TransferRefusal::Arguments,
    };
    Err(TransferRefused {
        index: it.index,
        refusal,
    })
}
