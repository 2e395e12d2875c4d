//! Searches for a slip by the library and by the plain one that is measured beside it, and lines
//! that have slipped.

use tropfenpfad_sys::{Slip, FARTHEST_SLIP, LINE_LENGTH};

use crate::calls;
use crate::model::slip::plain;

/// A search by the C call's terms.
pub type FindSlip = fn(&[u8], &[u8]) -> Slip;

/// All that are held to the model by overlaps, with their names.
pub const HELD: [(&str, FindSlip); 2] =
    [("library", calls::find_slip), ("plain", plain::find_slip)];

/// The farthest slip, as a distance.
pub const FARTHEST: usize = FARTHEST_SLIP.unsigned_abs() as usize;

/// The reference as a grabber gives it that is off by some pixels, up to a whole line: to the right
/// or, below 0, to the left. The places that it leaves show `incoming`.
pub fn moved(reference: &[u8], pixels: i16, incoming: &[u8]) -> Vec<u8> {
    let distance = usize::from(pixels.unsigned_abs());
    let kept = LINE_LENGTH - distance;
    match pixels {
        ..0 => [&reference[distance..], &incoming[kept..]].concat(),
        _ => [&incoming[..distance], &reference[..kept]].concat(),
    }
}

/// Stripes of two colours, 0 first, each so many pixels wide.
pub fn stripes(width: usize) -> Vec<u8> {
    (0..LINE_LENGTH).map(|x| (x / width % 2) as u8).collect()
}
