//! The slip of a grabbed line: all slips are ranked, by disagreements, distance and side, and the
//! first is taken. Disagreements are what the agreements of the lines' overlap leave. Another search
//! stands beside it for the benchmark, which takes only what is not refused.

pub mod plain;

use std::ops::RangeInclusive;

use tropfenpfad_sys::{Slip, FARTHEST_SLIP, LINE_LENGTH};

use super::refusal::{first_of, of_output};

/// All slips that are tried.
pub const SLIPS: RangeInclusive<i8> = -FARTHEST_SLIP..=FARTHEST_SLIP;

/// Finds the slip at which fewest pixels disagree.
pub fn find_slip(reference: &[u8], grabbed: &[u8]) -> Slip {
    let status = first_of(&[
        of_output(reference, LINE_LENGTH),
        of_output(grabbed, LINE_LENGTH),
    ]);
    if status != 0 {
        return Slip {
            status,
            slip: 0,
            disagreements: 0,
        };
    }
    let ranked = SLIPS.map(|slip| {
        let disagreements = disagreements(reference, grabbed, slip);
        (disagreements, slip.unsigned_abs(), slip > 0, slip)
    });
    let (disagreements, _, _, slip) = ranked.min().expect("there are slips");
    Slip {
        status,
        slip,
        disagreements,
    }
}

/// How many pixels of the reference disagree at a slip.
pub fn disagreements(reference: &[u8], grabbed: &[u8], slip: i8) -> u16 {
    let distance = usize::from(slip.unsigned_abs());
    let (later, earlier) = match slip {
        ..0 => (reference, grabbed),
        _ => (grabbed, reference),
    };
    // The one line's pixels from the distance on are over the other's from the start on.
    let overlap = later[distance..].iter().zip(earlier);
    let agreements = overlap.filter(|(later, earlier)| later == earlier).count();
    (LINE_LENGTH - agreements) as u16
}
