//! A plain comparison, as a programmer would write it first: line by line and cell by cell in one
//! pass. It is the bar of the benchmark.

use tropfenpfad_sys::{Comparison, COLUMNS, LINE_LENGTH, LISTED_CELLS, NO_CELL};

use super::{CELL_LENGTH, NOTHING};

/// Says where two frames differ; the lengths are known to be right.
pub fn compare(
    first: &[u8],
    second: &[u8],
    line_counts: &mut [u16],
    cells: &mut [u16],
) -> Comparison {
    cells.fill(NO_CELL);
    let (mut pixels, mut differing) = (0, 0);
    let (mut first_x, mut last_x) = (LINE_LENGTH, 0);
    let mut lines: Option<(usize, usize)> = None;
    let both = first
        .chunks_exact(LINE_LENGTH)
        .zip(second.chunks_exact(LINE_LENGTH));
    for (line, ((first, second), count)) in both.zip(line_counts).enumerate() {
        *count = 0;
        let both = first
            .chunks_exact(CELL_LENGTH)
            .zip(second.chunks_exact(CELL_LENGTH));
        for (column, (first, second)) in both.enumerate() {
            if first == second {
                continue;
            }
            if differing < LISTED_CELLS {
                cells[differing] = (COLUMNS * line + column) as u16;
            }
            differing += 1;
            for (place, (first, second)) in first.iter().zip(second).enumerate() {
                if first != second {
                    let x = CELL_LENGTH * column + place;
                    first_x = first_x.min(x);
                    last_x = last_x.max(x);
                    *count += 1;
                }
            }
        }
        if *count != 0 {
            let (first_line, _) = lines.unwrap_or((line, line));
            lines = Some((first_line, line));
            pixels += u32::from(*count);
        }
    }
    let Some((first_line, last_line)) = lines else {
        return Comparison {
            empty: true,
            ..NOTHING
        };
    };
    Comparison {
        status: 0,
        empty: false,
        first_x: first_x as u8,
        last_x: last_x as u8,
        first_line: first_line as u8,
        last_line: last_line as u8,
        pixels,
        cells: differing as u32,
    }
}
