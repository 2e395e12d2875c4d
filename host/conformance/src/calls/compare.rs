//! The call of the comparison.

use tropfenpfad_sys::{self as ffi, Comparison};

pub fn compare(
    first: &[u8],
    second: &[u8],
    line_counts: &mut [u16],
    cells: &mut [u16],
) -> Comparison {
    // SAFETY: all slices are valid for their lengths, and the exclusive ones overlap no other.
    unsafe {
        ffi::tropfenpfad_compare(
            first.as_ptr(),
            first.len(),
            second.as_ptr(),
            second.len(),
            line_counts.as_mut_ptr(),
            line_counts.len(),
            cells.as_mut_ptr(),
            cells.len(),
        )
    }
}
