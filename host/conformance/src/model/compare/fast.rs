//! A fast comparison: equal lines are passed over whole, and in the others pixels and cells are
//! counted by loops of their own, with no branch on the data.

use tropfenpfad_sys::{Comparison, COLUMNS, LINE_LENGTH, LISTED_CELLS, NO_CELL};

use super::{CELL_LENGTH, NOTHING};

/// Says where two frames differ; the lengths are known to be right.
pub fn compare(
    first: &[u8],
    second: &[u8],
    line_counts: &mut [u16],
    cells: &mut [u16],
) -> Comparison {
    cells.fill(NO_CELL);
    line_counts.fill(0);
    let mut found = Comparison {
        empty: true,
        first_x: LINE_LENGTH as u8,
        ..NOTHING
    };
    let both = first
        .chunks_exact(LINE_LENGTH)
        .zip(second.chunks_exact(LINE_LENGTH));
    for (line, ((first, second), count)) in both.zip(line_counts).enumerate() {
        if first != second {
            let pair = Pair {
                first: first.try_into().expect("chunks are lines"),
                second: second.try_into().expect("chunks are lines"),
            };
            *count = pair.pixels();
            pair.take_into(&mut found, line, cells);
            found.pixels += u32::from(*count);
        }
    }
    if found.empty {
        found.first_x = 0;
    }
    found
}

/// A line of each frame; they differ.
struct Pair<'a> {
    first: &'a [u8; LINE_LENGTH],
    second: &'a [u8; LINE_LENGTH],
}

impl Pair<'_> {
    fn differs_at(&self, x: usize) -> bool {
        self.first[x] != self.second[x]
    }

    fn pixels(&self) -> u16 {
        // A byte takes the count of a line.
        const _: () = assert!(LINE_LENGTH < 256);
        let bytes = self.first.iter().zip(self.second);
        u16::from(bytes.fold(0, |count, (first, second)| {
            count + u8::from(first != second)
        }))
    }

    fn cell_differs(&self, column: usize) -> bool {
        let pixels = CELL_LENGTH * column..CELL_LENGTH * (column + 1);
        self.first[pixels.clone()] != self.second[pixels]
    }

    /// Takes all but the number of pixels into what was found in the lines before.
    fn take_into(&self, found: &mut Comparison, line: usize, cells: &mut [u16]) {
        if found.empty {
            found.empty = false;
            found.first_line = line as u8;
        }
        found.last_line = line as u8;
        // Only what lies outside the rectangle so far can make it wider.
        let (left, right) = (found.first_x.into(), found.last_x.into());
        if let Some(x) = (0..left).find(|&x| self.differs_at(x)) {
            found.first_x = x as u8;
        }
        if let Some(x) = (right..LINE_LENGTH).rev().find(|&x| self.differs_at(x)) {
            found.last_x = x as u8;
        }
        if found.cells < LISTED_CELLS as u32 {
            let differing = (0..COLUMNS).filter(|&column| self.cell_differs(column));
            let places = &mut cells[found.cells as usize..];
            for (place, column) in places.iter_mut().zip(differing) {
                *place = (COLUMNS * line + column) as u16;
            }
        }
        let differing = (0..COLUMNS).map(|column| u32::from(self.cell_differs(column)));
        found.cells += differing.sum::<u32>();
    }
}
