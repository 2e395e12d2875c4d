//! Comparisons by the library and by the two models that are measured beside it.

use tropfenpfad_sys::{Comparison, LINES, LISTED_CELLS};

use crate::calls;
use crate::inputs::random_numbers;
use crate::model::compare::{fast, plain};

/// A comparison by the C call's terms.
pub type Compare = fn(&[u8], &[u8], &mut [u16], &mut [u16]) -> Comparison;

/// All that are held to the model by sets, with their names.
pub const HELD: [(&str, Compare); 3] = [
    ("library", calls::compare),
    ("plain", plain::compare),
    ("fast", fast::compare),
];

/// The two lists, as they are lent or as a call has left them.
#[derive(Clone, Copy, Debug, PartialEq)]
pub struct Lists {
    pub line_counts: [u16; LINES],
    pub cells: [u16; LISTED_CELLS],
}

impl Lists {
    /// The same number everywhere.
    pub fn of(number: u16) -> Self {
        Lists {
            line_counts: [number; LINES],
            cells: [number; LISTED_CELLS],
        }
    }

    /// Numbers at random.
    pub fn random(seed: u64) -> Self {
        let numbers = random_numbers(seed, LINES + LISTED_CELLS);
        let (line_counts, cells) = numbers.split_at(LINES);
        Lists {
            line_counts: line_counts.try_into().expect("the length is right"),
            cells: cells.try_into().expect("the length is right"),
        }
    }

    /// Lends them to a comparison.
    pub fn compare(&mut self, by: Compare, first: &[u8], second: &[u8]) -> Comparison {
        by(first, second, &mut self.line_counts, &mut self.cells)
    }
}
