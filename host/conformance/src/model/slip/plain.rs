//! A plain search, as a programmer would write it first: slip by slip and pixel by pixel, with both
//! ends tested at every pixel. It is the bar of the benchmark, so of the plain shapes it has the
//! fastest: whole lines as arrays, and a count that does not branch.

use tropfenpfad_sys::{Slip, LINE_LENGTH};

use super::SLIPS;

/// Finds the slip at which fewest pixels disagree; the lengths are known to be right.
pub fn find_slip(reference: &[u8], grabbed: &[u8]) -> Slip {
    let reference: &[u8; LINE_LENGTH] = reference.try_into().expect("the length is right");
    let grabbed: &[u8; LINE_LENGTH] = grabbed.try_into().expect("the length is right");
    let mut best = Slip {
        status: 0,
        slip: 0,
        disagreements: u16::MAX,
    };
    for slip in SLIPS {
        let mut disagreements = 0;
        for (x, pixel) in reference.iter().enumerate() {
            let place = x as isize + isize::from(slip);
            let inside = (0..LINE_LENGTH as isize).contains(&place);
            let agrees = inside && *pixel == grabbed[place as usize];
            disagreements += u16::from(!agrees);
        }
        // Slips rise, so that of -n and n the first is -n.
        let nearer = slip.abs() < best.slip.abs();
        if disagreements < best.disagreements || disagreements == best.disagreements && nearer {
            best.slip = slip;
            best.disagreements = disagreements;
        }
    }
    best
}
