//! The call of the search for a slip.

use tropfenpfad_sys::{self as ffi, Slip};

pub fn find_slip(reference: &[u8], grabbed: &[u8]) -> Slip {
    // SAFETY: both slices are valid for their lengths and only read.
    unsafe {
        ffi::tropfenpfad_find_slip(
            reference.as_ptr(),
            reference.len(),
            grabbed.as_ptr(),
            grabbed.len(),
        )
    }
}
