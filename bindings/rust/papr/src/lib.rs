//! papr: the hypervisor side of the hashed page table of a paravirtual Power guest, proved.
//!
//! A [`Table`] owns its entries. Each call on it takes `&mut self`, so that one call at a time uses
//! a table; that, and all else that the C interface asks of its caller, is what this crate ensures.
//! The proof is that of the library below (`docs/LIBRARY.md` of the sources says what it states);
//! this crate itself is tested, not proved. It is `no_std`, and needs `alloc`.
//!
//! Where there is no memory for what a call needs, it answers so; none ends the process for it. That
//! holds also for H_RESIZE_HPT_PREPARE, whose guest says how large a table is to be.
//!
//! The feature `shared` has a `SharedTable`, on which several threads make calls at once, and `std` with
//! it waits for a thread that is at an entry; the feature `bytes` has the whole program. Both need the
//! heap of the C library.
//!
//! ```
//! use papr::{flags, Access, Answer, Error, Grant, Grants, Outcome, Table, Want};
//!
//! let ram = Grant { logical: 0, machine: 0x20_0000_0000, length: 0x4000_0000, is_io: false };
//! let mut table = Table::new(18, Grants::new(&[ram])?)?;
//! let entered = table.h_enter(flags::EXACT, 0x27, 0x1001, 0x3012);
//! assert_eq!(entered.result(), Ok(&[0x27][..]));
//! let again = table.h_enter(flags::EXACT, 0x27, 0x1001, 0x3012);
//! assert_eq!(again.result(), Err(Error::PtegFull));
//! assert!(again.receipts().all(|receipt| receipt.answer == Answer::Taken));
//! let walk = table.walk(&Access::new(0x5678, 1, Want::Store));
//! assert_eq!(walk.outcome(), Outcome::At { logical: 0x3678 });
//! # Ok::<(), Box<dyn std::error::Error>>(())
//! ```
#![no_std]

extern crate alloc;
#[cfg(feature = "std")]
extern crate std;

mod answers;
mod entry;
mod errors;
pub mod flags;
mod grants;
mod memory;
#[cfg(feature = "bytes")]
pub mod program;
mod reply;
mod resize;
mod segments;
#[cfg(feature = "shared")]
mod shared;
mod table;
mod transfer;
mod walk;
mod window;

pub use answers::{Answer, Receipt, Receipts};
pub use entry::{decode, protection_rights, Entry, NoPage, Page, Taken};
pub use errors::{Error, NoMemory, TableError, TakeError, WindowError};
pub use grants::{Grant, GrantRefusal, Grants, GrantsRefused, Range};
pub use reply::Reply;
pub use resize::{Collision, CommitRefused, Prepared};
pub use segments::{Segments, Slot, SlotRefusal};
#[cfg(all(feature = "shared", feature = "std"))]
pub use shared::give_way;
#[cfg(feature = "shared")]
pub use shared::{Busy, Ended, Hold, JoinError, JoinRefused, OpenError, OpenRefused, Pass};
#[cfg(feature = "shared")]
pub use shared::{SharedTable, SplitError, StillShared};
pub use table::Table;
pub use transfer::{Layout, TransferRefusal, TransferRefused};
pub use walk::{Access, Causes, Outcome, Rights, Translation, Walk, Want};
pub use window::{DeviceAccess, DeviceOutcome, Window};

/// The version of the library: major, minor and patch.
pub fn library_version() -> (u32, u32, u32) {
    // SAFETY: the function takes nothing.
    let number = unsafe { papr_sys::papr_version() };
    (number >> 16, number >> 8 & 0xFF, number & 0xFF)
}
