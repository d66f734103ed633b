//! What the tests share: the memory that the guest is granted.

use papr::{Grant, Grants};

/// Main storage, and the registers of a device.
pub fn given() -> [Grant; 2] {
    let grant = |logical, machine, length, is_io| Grant {
        logical,
        machine,
        length,
        is_io,
    };
    [
        grant(0x4000_0000, 0x50_0000_0000, 0x3000, true),
        grant(0, 0x20_0000_0000, 0x10_0000, false),
    ]
}

/// The list of both.
pub fn grants() -> Grants {
    Grants::new(&given()).unwrap()
}
