//! The slip of a grabbed line.

use tropfenpfad_sys as ffi;

use crate::refusal::{check, Refusal};

/// By how many pixels a grabbed line stands beside its place, and what disagrees all the same.
#[derive(Clone, Copy, Debug, PartialEq, Eq)]
pub struct Slip {
    /// Pixels to the right, -12 to 12; below 0 to the left.
    pub pixels: i8,
    /// Pixels of the reference that disagree at this slip, up to 240.
    pub disagreements: u16,
}

/// Says by how many pixels a grabbed line stands beside its place: the slip from -12 to 12 with the
/// fewest disagreements. At slip s the reference's pixel x agrees if it is the same byte as pixel
/// x + s of the grabbed line; where that is below 0 or above 239 it disagrees. Among slips with
/// equally few it is the one nearest to 0, and -n if that could be -n or n. A pixel may be any byte.
/// Refuses output, for either line.
///
/// ```
/// use tropfenpfad::{find_slip, LINE_LENGTH};
///
/// let mut reference = [0; LINE_LENGTH];
/// reference[100..110].fill(7);
/// // The grabber starts three pixels early, so that all stands three pixels to the right.
/// let mut grabbed = [0; LINE_LENGTH];
/// grabbed[103..113].fill(7);
/// let slip = find_slip(&reference, &grabbed)?;
/// assert_eq!((slip.pixels, slip.disagreements), (3, 3));
/// # Ok::<(), tropfenpfad::Refusal>(())
/// ```
pub fn find_slip(reference: &[u8], grabbed: &[u8]) -> Result<Slip, Refusal> {
    // SAFETY: both slices are valid for their lengths and only read.
    let answer = unsafe {
        ffi::tropfenpfad_find_slip(
            reference.as_ptr(),
            reference.len(),
            grabbed.as_ptr(),
            grabbed.len(),
        )
    };
    check(answer.status).map(|()| Slip {
        pixels: answer.slip,
        disagreements: answer.disagreements,
    })
}
