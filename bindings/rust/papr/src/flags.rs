//! The flags of the calls on entries that have a name here; H_PROTECT also takes PP0, key, N and PP.

/// H_ENTER: the named entry, and no other.
pub const EXACT: u64 = papr_sys::PAPR_EXACT;
/// H_READ: the aligned group of four entries.
pub const READ_4: u64 = papr_sys::PAPR_READ_4;
/// Doubleword 0 without its low 7 bits has to be avpn.
pub const AVPN: u64 = papr_sys::PAPR_AVPN;
/// H_REMOVE: no bit of avpn may be set in doubleword 0.
pub const ANDCOND: u64 = papr_sys::PAPR_ANDCOND;
