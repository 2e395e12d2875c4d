//! The comparison, by the set of places at which the frames differ: all of the report is derived
//! from it. Two others stand beside it for the benchmark, which take only what is not refused.

pub mod fast;
pub mod plain;

use std::collections::BTreeSet;

use tropfenpfad_sys::{Comparison, FRAME_LENGTH, LINES, LINE_LENGTH, LISTED_CELLS, NO_CELL};

use super::refusal::{first_of, of_output};

/// Pixels in a cell.
pub const CELL_LENGTH: usize = 6;

/// Places in a frame, each 240 times the line plus x.
pub type Places = BTreeSet<usize>;

/// Says where two frames differ.
pub fn compare(
    first: &[u8],
    second: &[u8],
    line_counts: &mut [u16],
    cells: &mut [u16],
) -> Comparison {
    let status = first_of(&[
        of_output(first, FRAME_LENGTH),
        of_output(second, FRAME_LENGTH),
        of_output(line_counts, LINES),
        of_output(cells, LISTED_CELLS),
    ]);
    if status != 0 {
        return Comparison { status, ..NOTHING };
    }
    report(&differing(first, second), line_counts, cells)
}

/// Where two frames differ.
pub fn differing(first: &[u8], second: &[u8]) -> Places {
    let pairs = first.iter().zip(second).enumerate();
    pairs
        .filter(|(_, (first, second))| first != second)
        .map(|(place, _)| place)
        .collect()
}

/// The report on two frames that differ at these places and no others.
pub fn report(places: &Places, line_counts: &mut [u16], cells: &mut [u16]) -> Comparison {
    for (line, count) in line_counts.iter_mut().enumerate() {
        let start = LINE_LENGTH * line;
        *count = places.range(start..start + LINE_LENGTH).count() as u16;
    }
    // A line is forty whole cells, so the numbers of cells run on from line to line as places do.
    let differing: BTreeSet<usize> = places.iter().map(|place| place / CELL_LENGTH).collect();
    let numbers = differing.iter().map(|&cell| cell as u16);
    let unused = std::iter::repeat(NO_CELL);
    for (listed, number) in cells.iter_mut().zip(numbers.chain(unused)) {
        *listed = number;
    }
    let xs: BTreeSet<usize> = places.iter().map(|place| place % LINE_LENGTH).collect();
    let lines: BTreeSet<usize> = places.iter().map(|place| place / LINE_LENGTH).collect();
    let edge = |number: Option<&usize>| number.map_or(0, |&number| number as u8);
    Comparison {
        status: 0,
        empty: places.is_empty(),
        first_x: edge(xs.first()),
        last_x: edge(xs.last()),
        first_line: edge(lines.first()),
        last_line: edge(lines.last()),
        pixels: places.len() as u32,
        cells: differing.len() as u32,
    }
}

/// An answer in which every number is 0.
const NOTHING: Comparison = Comparison {
    status: 0,
    empty: false,
    first_x: 0,
    last_x: 0,
    first_line: 0,
    last_line: 0,
    pixels: 0,
    cells: 0,
};
