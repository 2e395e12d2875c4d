//! The call of the trace.

use tropfenpfad_sys::{self as ffi, Cycle, Latches, Traced};

pub fn trace(memory: &mut [u8], profile: u8, latches: Latches, cycles: &mut [Cycle]) -> Traced {
    // SAFETY: both slices are valid for their lengths, and as exclusive loans they do not overlap.
    unsafe {
        ffi::tropfenpfad_trace(
            memory.as_mut_ptr(),
            memory.len(),
            profile,
            latches,
            cycles.as_mut_ptr(),
            cycles.len(),
        )
    }
}
