//! Why a table isn't opened or closed, or a pass isn't split or joined.

use crate::errors::NoMemory;
use crate::shared::{Pass, SharedTable};
use crate::table::Table;
use core::fmt;

/// Why a table isn't opened.
#[derive(Clone, Copy, Debug, PartialEq, Eq, Hash)]
pub enum OpenError {
    /// The number of passes isn't from 1 to 63.
    Passes,
    /// H_NO_MEM: there is no memory for it.
    NoMemory,
}

impl From<NoMemory> for OpenError {
    fn from(_: NoMemory) -> OpenError {
        OpenError::NoMemory
    }
}

impl fmt::Display for OpenError {
    fn fmt(&self, f: &mut fmt::Formatter<'_>) -> fmt::Result {
        f.write_str(match self {
            OpenError::Passes => "a shared table has 1 to 63 passes",
            OpenError::NoMemory => "there is no memory for a shared table",
        })
    }
}

/// A table isn't opened, and is as it was.
#[derive(Debug)]
pub struct OpenRefused {
    /// The table.
    pub table: Table,
    /// Why it isn't opened.
    pub why: OpenError,
}

impl fmt::Display for OpenRefused {
    fn fmt(&self, f: &mut fmt::Formatter<'_>) -> fmt::Result {
        self.why.fmt(f)
    }
}

impl core::error::Error for OpenRefused {}

/// Why there is no other pass.
#[derive(Clone, Copy, Debug, PartialEq, Eq, Hash)]
pub enum SplitError {
    /// H_RESOURCE: as many passes are out as the table was opened for.
    NoShare,
    /// H_NO_MEM: there is no memory for it.
    NoMemory,
}

impl From<NoMemory> for SplitError {
    fn from(_: NoMemory) -> SplitError {
        SplitError::NoMemory
    }
}

impl fmt::Display for SplitError {
    fn fmt(&self, f: &mut fmt::Formatter<'_>) -> fmt::Result {
        f.write_str(match self {
            SplitError::NoShare => "all passes of the table are out",
            SplitError::NoMemory => "there is no memory for a pass",
        })
    }
}

impl core::error::Error for SplitError {}

/// Why a pass isn't joined.
#[derive(Clone, Copy, Debug, PartialEq, Eq, Hash)]
pub enum JoinError {
    /// H_BUSY: it has a call to go on with.
    Busy,
    /// It is of another table.
    OtherTable,
}

/// A pass isn't joined, and is as it was.
#[derive(Debug)]
pub struct JoinRefused {
    /// The pass.
    pub pass: Pass,
    /// Why it isn't joined.
    pub why: JoinError,
}

impl fmt::Display for JoinRefused {
    fn fmt(&self, f: &mut fmt::Formatter<'_>) -> fmt::Result {
        f.write_str(match self.why {
            JoinError::Busy => "the pass has a call to go on with",
            JoinError::OtherTable => "the pass is of another table",
        })
    }
}

impl core::error::Error for JoinRefused {}

/// H_RESOURCE: a table isn't closed while passes are out; it is as it was.
#[derive(Debug)]
pub struct StillShared {
    /// The table.
    pub shared: SharedTable,
}

impl fmt::Display for StillShared {
    fn fmt(&self, f: &mut fmt::Formatter<'_>) -> fmt::Result {
        f.write_str("passes of the table are out")
    }
}

impl core::error::Error for StillShared {}
