//! Codes that refuse a call, and arguments that no call is made with.

use core::fmt;

/// Why a call is refused: the codes of register 3 other than success.
#[derive(Clone, Copy, Debug, PartialEq, Eq, Hash)]
pub enum Error {
    /// H_BUSY: not all entries of the pending table are ready; of a call on a shared table it is `Busy` instead.
    Busy,
    /// H_CLOSED: no table of the order is pending.
    Closed,
    /// H_HARDWARE: the entry has changed 2^32 - 1 times, and can't change again.
    Hardware,
    /// H_FUNCTION: the number isn't one of a call on entries.
    Function,
    /// H_PARAMETER: an argument is out of range.
    Parameter,
    /// H_PTEG_FULL: each entry that was tried is valid.
    PtegFull,
    /// H_NOT_FOUND: the entry is empty or fails the test.
    NotFound,
    /// H_NO_MEM: there is no memory for a table of the order.
    NoMem,
    /// H_RESOURCE: the order is above the highest that is allowed.
    Resource,
}

/// Each error with its code and its name.
const ERRORS: [(Error, i64, &str); 9] = [
    (Error::Busy, papr_sys::PAPR_H_BUSY, "H_BUSY"),
    (Error::Closed, papr_sys::PAPR_H_CLOSED, "H_CLOSED"),
    (Error::Hardware, papr_sys::PAPR_H_HARDWARE, "H_HARDWARE"),
    (Error::Function, papr_sys::PAPR_H_FUNCTION, "H_FUNCTION"),
    (Error::Parameter, papr_sys::PAPR_H_PARAMETER, "H_PARAMETER"),
    (Error::PtegFull, papr_sys::PAPR_H_PTEG_FULL, "H_PTEG_FULL"),
    (Error::NotFound, papr_sys::PAPR_H_NOT_FOUND, "H_NOT_FOUND"),
    (Error::NoMem, papr_sys::PAPR_H_NO_MEM, "H_NO_MEM"),
    (Error::Resource, papr_sys::PAPR_H_RESOURCE, "H_RESOURCE"),
];

impl Error {
    /// The code that register 3 has.
    pub fn code(self) -> i64 {
        self.row().1
    }

    /// The error of a code of the library; none of success.
    pub(crate) fn of_code(code: i64) -> Option<Error> {
        ERRORS.iter().find(|row| row.1 == code).map(|row| row.0)
    }

    fn row(self) -> &'static (Error, i64, &'static str) {
        &ERRORS[self as usize]
    }
}

impl fmt::Display for Error {
    fn fmt(&self, f: &mut fmt::Formatter<'_>) -> fmt::Result {
        f.write_str(self.row().2)
    }
}

impl core::error::Error for Error {}

/// There is not enough memory. Nothing has changed.
#[derive(Clone, Copy, Debug, PartialEq, Eq, Hash)]
pub struct NoMemory;

impl fmt::Display for NoMemory {
    fn fmt(&self, f: &mut fmt::Formatter<'_>) -> fmt::Result {
        f.write_str("there is not enough memory")
    }
}

impl core::error::Error for NoMemory {}

/// Why there is no new table.
#[derive(Clone, Copy, Debug, PartialEq, Eq, Hash)]
pub enum TableError {
    /// Its order isn't from 18 to 34.
    Order(u8),
    /// There is no memory for its entries.
    NoMemory,
}

impl From<NoMemory> for TableError {
    fn from(_: NoMemory) -> TableError {
        TableError::NoMemory
    }
}

impl fmt::Display for TableError {
    fn fmt(&self, f: &mut fmt::Formatter<'_>) -> fmt::Result {
        match self {
            TableError::Order(order) => {
                write!(f, "the order of a table is from 18 to 34, and not {order}")
            }
            TableError::NoMemory => f.write_str("there is no memory for the table"),
        }
    }
}

impl core::error::Error for TableError {}

/// Why there is no new window.
#[derive(Clone, Copy, Debug, PartialEq, Eq, Hash)]
pub enum WindowError {
    /// A window has 1 to 16,384 pages, begins at a multiple of 4,096, and doesn't end above 2^60.
    Range {
        /// The bus address of its first page.
        base: u64,
        /// How many pages were asked for.
        pages: usize,
    },
    /// There is no memory for its entries.
    NoMemory,
}

impl From<NoMemory> for WindowError {
    fn from(_: NoMemory) -> WindowError {
        WindowError::NoMemory
    }
}

impl fmt::Display for WindowError {
    fn fmt(&self, f: &mut fmt::Formatter<'_>) -> fmt::Result {
        match self {
            WindowError::Range { base, pages } => {
                write!(f, "there is no window of {pages} pages at {base:#x}")
            }
            WindowError::NoMemory => f.write_str("there is no memory for the window"),
        }
    }
}

impl core::error::Error for WindowError {}

/// Why no changed entries are named. No mark is taken then.
#[derive(Clone, Copy, Debug, PartialEq, Eq, Hash)]
pub enum TakeError {
    /// The index to begin at is above the number of entries.
    First(u32),
    /// There is no memory for so many indexes.
    NoMemory,
}

impl From<NoMemory> for TakeError {
    fn from(_: NoMemory) -> TakeError {
        TakeError::NoMemory
    }
}

impl fmt::Display for TakeError {
    fn fmt(&self, f: &mut fmt::Formatter<'_>) -> fmt::Result {
        match self {
            TakeError::First(first) => write!(f, "the table has no entry {first:#x} to begin at"),
            TakeError::NoMemory => f.write_str("there is no memory for the indexes"),
        }
    }
}

impl core::error::Error for TakeError {}
