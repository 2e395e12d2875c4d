//! The wrapper against the C call, right and wrong inputs alike.

use tropfenpfad::{Differences, Rectangle, Refusal};
use tropfenpfad_conformance::calls;
use tropfenpfad_conformance::random::Xorshift;
use tropfenpfad_conformance::refusals::{compared_lengths, lent_bytes, lent_numbers, result};
use tropfenpfad_sys::{Comparison, FRAME_LENGTH, LINES, LISTED_CELLS};

fn differences(answer: Comparison) -> Result<Differences, Refusal> {
    let rectangle = Rectangle {
        first_x: answer.first_x,
        last_x: answer.last_x,
        first_line: answer.first_line,
        last_line: answer.last_line,
    };
    result(answer.status).map(|()| Differences {
        rectangle: if answer.empty { None } else { Some(rectangle) },
        pixels: answer.pixels,
        cells: answer.cells,
    })
}

/// Lists for the C call and for the wrapper, equal before.
struct Both {
    line_counts: [Vec<u16>; 2],
    cells: [Vec<u16>; 2],
}

impl Both {
    fn new() -> Self {
        Both {
            line_counts: [lent_numbers(), lent_numbers()],
            cells: [lent_numbers(), lent_numbers()],
        }
    }

    /// Compares the same frames by both, with this much of the lists.
    #[track_caller]
    fn compare(&mut self, first: &[u8], second: &[u8], counted: usize, listed: usize) {
        let [counts, wrapper_counts] = self.line_counts.each_mut().map(|list| &mut list[..counted]);
        let [cells, wrapper_cells] = self.cells.each_mut().map(|list| &mut list[..listed]);
        let answer = calls::compare(first, second, counts, cells);
        let given = tropfenpfad::compare(first, second, wrapper_counts, wrapper_cells);
        assert_eq!(given, differences(answer));
        assert!(self.line_counts[0] == self.line_counts[1], "line counts");
        assert!(self.cells[0] == self.cells[1], "cells");
    }
}

#[test]
fn a_comparison_that_the_wrapper_gives_otherwise() {
    let mut both = Both::new();
    let frame = lent_bytes();
    let mut compared = 0;
    for ([first, second, counted, listed], _) in compared_lengths() {
        both.compare(&frame[..first], &frame[..second], counted, listed);
        compared += 1;
    }
    let first = &frame[..FRAME_LENGTH];
    let mut second = first.to_vec();
    let mut generator = Xorshift::new(1);
    for _ in 0..500 {
        second[generator.below(FRAME_LENGTH)] ^= 0x80;
        both.compare(first, &second, LINES, LISTED_CELLS);
        compared += 1;
    }
    println!("wrapper of compare: {compared} calls compared");
}
