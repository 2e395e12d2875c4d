//! The C interface of the proved archive, for the packages beside this one: `tropfenpfad` makes
//! safe calls of it, the conformance tests take its answers whole.

#![deny(missing_docs)]

mod ffi;

pub use ffi::*;

/// The path of the archive that is linked.
pub const ARCHIVE: &str = env!("TROPFENPFAD_ARCHIVE");
