//! The C interface of papr: `papr.h`, with the feature `shared` also `papr_shared.h`, and with the
//! feature `bytes` `papr_bytes.h`. The headers describe each function and say what its caller has to
//! ensure; the crate `papr` ensures it.
//!
//! The build links `libpapr.a`, or else `libpapr.so`, from the folder that `PAPR_LIB_DIR` names. If
//! that isn't set, it takes the library that `make library` built in the checkout of this crate,
//! or that which pkg-config finds; and if there is none, the linker looks for it by itself.
#![no_std]
#![allow(non_camel_case_types)]

#[cfg(feature = "bytes")]
mod bytes;
#[cfg(feature = "bytes")]
mod bytes_functions;
mod codes;
mod functions;
#[cfg(feature = "shared")]
mod shared;
#[cfg(feature = "shared")]
mod shared_functions;
mod structs;

#[cfg(feature = "bytes")]
pub use bytes::*;
#[cfg(feature = "bytes")]
pub use bytes_functions::*;
pub use codes::*;
pub use functions::*;
#[cfg(feature = "shared")]
pub use shared::*;
#[cfg(feature = "shared")]
pub use shared_functions::*;
pub use structs::*;
