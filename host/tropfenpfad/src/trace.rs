//! A list of accesses in one call.

use tropfenpfad_sys::{self as ffi, Cycle, Latches};

use crate::refusal::{check, Refusal};

/// Makes a list of accesses over the bus, from the first record to the last, and gives the latches
/// that hold from the next access on. Each record is filled in as a [`read`](crate::read) or a
/// [`write`](crate::write) would answer it, with the number of its [`Target`](crate::Target), under
/// the latches and from the memory that the records before it have left. The list has up to 1,024
/// records, or none. Refuses profile, memory, kind, controller, trace.
///
/// ```
/// use tropfenpfad::{fresh_latches, trace, Cycle, Latches, Target};
/// use tropfenpfad::{IMAGE_LENGTH, KIND_MICRODISC, PROFILE_48K};
///
/// let mut memory = vec![0; IMAGE_LENGTH];
/// let latches = Latches { kind: KIND_MICRODISC, ..fresh_latches() };
/// // The latch selects the overlay, so that the next access stores there; the last one reads it.
/// let mut cycles = [
///     Cycle { address: 0x0314, write: 1, byte: 0xFD, ..Cycle::default() },
///     Cycle { address: 0xE000, write: 1, byte: 0x42, ..Cycle::default() },
///     Cycle { address: 0xE000, ..Cycle::default() },
/// ];
/// let latches = trace(&mut memory, PROFILE_48K, latches, &mut cycles)?;
/// assert_eq!((latches.first, memory[0xE000]), (0xFD, 0x42));
/// assert_eq!(cycles.map(|cycle| cycle.target), [
///     Target::Controller as u8,
///     Target::OverlayRam as u8,
///     Target::OverlayRam as u8,
/// ]);
/// assert_eq!(cycles.map(|cycle| cycle.byte_read), [0, 0, 0x42]);
/// # Ok::<(), tropfenpfad::Refusal>(())
/// ```
pub fn trace(
    memory: &mut [u8],
    profile: u8,
    latches: Latches,
    cycles: &mut [Cycle],
) -> Result<Latches, Refusal> {
    // SAFETY: both slices are valid for their lengths, and as exclusive loans they do not overlap.
    let answer = unsafe {
        ffi::tropfenpfad_trace(
            memory.as_mut_ptr(),
            memory.len(),
            profile,
            latches,
            cycles.as_mut_ptr(),
            cycles.len(),
        )
    };
    check(answer.status).map(|()| answer.latches)
}
