//! How the rehash and the resize calls end.

use crate::errors::Error;
use core::fmt;
use papr_sys::papr_rehash;

/// Two bolted entries would be carried to one index of the new table.
#[derive(Clone, Copy, Debug, PartialEq, Eq)]
pub struct Collision {
    /// The lower of their indices in the old table.
    pub first: u32,
    /// The higher one.
    pub second: u32,
    /// Their index in the new table.
    pub target: u32,
}

impl From<papr_rehash> for Collision {
    fn from(it: papr_rehash) -> Collision {
        Collision {
            first: it.first,
            second: it.second,
            target: it.target,
        }
    }
}

impl fmt::Display for Collision {
    fn fmt(&self, f: &mut fmt::Formatter<'_>) -> fmt::Result {
        let Collision {
            first,
            second,
            target,
        } = self;
        write!(
            f,
            "entries {first:#x} and {second:#x} would both go to {target:#x}"
        )
    }
}

impl core::error::Error for Collision {}

/// How H_RESIZE_HPT_PREPARE succeeds.
#[derive(Clone, Copy, Debug, PartialEq, Eq, Hash)]
pub enum Prepared {
    /// H_SUCCESS: all entries of the pending table are ready, or nothing is pending any more.
    Ready,
    /// H_LONG_BUSY: the next entries are ready. Call again for the rest.
    LongBusy,
}

/// Why H_RESIZE_HPT_COMMIT is refused. The current table stays.
#[derive(Clone, Copy, Debug, PartialEq, Eq)]
pub enum CommitRefused {
    /// H_PTEG_FULL: two entries would meet. The pending table is dropped.
    Collision(Collision),
    /// Another code; nothing changes.
    Error(Error),
}

impl fmt::Display for CommitRefused {
    fn fmt(&self, f: &mut fmt::Formatter<'_>) -> fmt::Result {
        match self {
            CommitRefused::Collision(collision) => collision.fmt(f),
            CommitRefused::Error(error) => error.fmt(f),
        }
    }
}

impl core::error::Error for CommitRefused {}
