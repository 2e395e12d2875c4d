//! The calls of the bus half.

use tropfenpfad_sys::{self as ffi, Access, Decoded, Latches, Written};

pub fn fresh_latches() -> Latches {
    // SAFETY: no pointer is handed over.
    unsafe { ffi::tropfenpfad_fresh_latches() }
}

pub fn decode(profile: u8, latches: Latches, address: u16) -> Decoded {
    // SAFETY: no pointer is handed over.
    unsafe { ffi::tropfenpfad_decode(profile, latches, address) }
}

pub fn read(memory: &[u8], profile: u8, latches: Latches, address: u16) -> Access {
    // SAFETY: the slice is valid for its length.
    unsafe { ffi::tropfenpfad_read(memory.as_ptr(), memory.len(), profile, latches, address) }
}

pub fn write(memory: &mut [u8], profile: u8, latches: Latches, address: u16, byte: u8) -> Written {
    let (start, length) = (memory.as_mut_ptr(), memory.len());
    // SAFETY: the slice is valid for its length and lent to be changed.
    unsafe { ffi::tropfenpfad_write(start, length, profile, latches, address, byte) }
}

pub fn write_in_place(
    memory: &mut [u8],
    profile: u8,
    latches: &mut Latches,
    address: u16,
    byte: u8,
) -> Access {
    let (start, length) = (memory.as_mut_ptr(), memory.len());
    // SAFETY: as for a write; the record is another exclusive loan.
    unsafe { ffi::tropfenpfad_write_in_place(start, length, profile, latches, address, byte) }
}
