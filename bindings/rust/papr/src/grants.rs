//! Granted memory: a checked list of ranges of the guest's logical addresses.

use core::fmt;
use papr_sys::{papr_grant, papr_grants};

/// A range of the guest's logical addresses and the machine range that it maps to, in bytes.
pub type Grant = papr_grant;

/// The machine range of 2^24 bytes where a hypervisor keeps page tables by default.
const POOL: (u64, u8) = (0x10_0000_0000, 24);

/// Why a grant or the pool is refused.
#[derive(Clone, Copy, Debug, PartialEq, Eq, Hash)]
pub enum GrantRefusal {
    /// Its length is 0.
    Empty,
    /// An address or the length isn't a multiple of 4,096.
    Unaligned,
    /// It ends above 2^60.
    Past,
    /// There are 64 already.
    TooMany,
    /// Its logical or machine range overlaps another's.
    Overlap,
    /// Its machine range overlaps the pool of page tables.
    Pool,
    /// The order of the pool isn't from 18 to 34.
    PoolOrder,
    /// The base of the pool isn't a multiple of its size.
    PoolUnaligned,
    /// The pool ends above 2^60.
    PoolPast,
}

/// The refusals by the numbers of the library, from 1 on.
const REFUSALS: [GrantRefusal; 9] = [
    GrantRefusal::Empty,
    GrantRefusal::Unaligned,
    GrantRefusal::Past,
    GrantRefusal::TooMany,
    GrantRefusal::Overlap,
    GrantRefusal::Pool,
    GrantRefusal::PoolOrder,
    GrantRefusal::PoolUnaligned,
    GrantRefusal::PoolPast,
];

/// A list of grants is refused: the first grant that is, and why.
#[derive(Clone, Copy, Debug, PartialEq, Eq)]
pub struct GrantsRefused {
    /// The place of the grant in the given list.
    pub index: usize,
    /// Why it is refused.
    pub refusal: GrantRefusal,
}

impl fmt::Display for GrantsRefused {
    fn fmt(&self, f: &mut fmt::Formatter<'_>) -> fmt::Result {
        write!(f, "grant {} is refused: {:?}", self.index, self.refusal)
    }
}

impl core::error::Error for GrantsRefused {}

/// Where granted logical addresses begin in the machine's memory.
#[derive(Clone, Copy, Debug, PartialEq, Eq)]
pub struct Range {
    /// The machine address.
    pub machine: u64,
    /// A device's registers, not main storage.
    pub is_io: bool,
}

/// A list of grants, none of which overlaps another or the pool of page tables.
#[derive(Clone, Debug, Default, PartialEq, Eq)]
pub struct Grants {
    list: papr_grants,
}

impl Grants {
    /// The list of these grants, which may be in any order. Page tables are kept in the 16 MB from
    /// `0x1000000000` on; [`Grants::beside`] names another place.
    pub fn new(given: &[Grant]) -> Result<Grants, GrantsRefused> {
        Grants::beside(POOL.0, POOL.1, given)
    }

    /// The list of these grants, beside the machine range of 2^pool_order bytes from pool_base where
    /// the hypervisor keeps page tables.
    pub fn beside(
        pool_base: u64,
        pool_order: u8,
        given: &[Grant],
    ) -> Result<Grants, GrantsRefused> {
        let mut made = Grants::default();
        // SAFETY: the slice has as many grants as it says, and the list is another's memory: `made`.
        let ended = unsafe {
            papr_sys::papr_make_grants(
                given.as_ptr(),
                given.len(),
                pool_base,
                pool_order,
                &mut made.list,
            )
        };
        match (ended.refusal as usize).checked_sub(1) {
            None => Ok(made),
            Some(at) => Err(GrantsRefused {
                index: ended.index,
                refusal: REFUSALS[at],
            }),
        }
    }

    /// The grants, by their logical addresses.
    pub fn as_slice(&self) -> &[Grant] {
        &self.list.grants[..self.list.count as usize]
    }

    /// The machine range of so many bytes from a logical address, if one grant has all of them.
    pub fn machine_of(&self, logical: u64, length: u64) -> Option<Range> {
        // SAFETY: the list is as papr_make_grants left it.
        let found = unsafe { papr_sys::papr_machine_of(&self.list, logical, length) };
        found.granted.then_some(Range {
            machine: found.machine,
            is_io: found.is_io,
        })
    }

    /// What the library takes for the list.
    pub(crate) fn raw(&self) -> *const papr_grants {
        &self.list
    }
}
