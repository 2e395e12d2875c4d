//! Lent buffers against inaccessible pages.

use std::ptr;

use tropfenpfad_conformance::guarded::{lists, outputs, Lent, SIDES};
use tropfenpfad_conformance::inputs::{random_bytes, random_numbers};
use tropfenpfad_conformance::model::compare;
use tropfenpfad_conformance::random::Xorshift;
use tropfenpfad_sys::{self as ffi, Comparison, FRAME_LENGTH, LINES, LISTED_CELLS};

const FRAME_LENGTHS: [usize; 5] = [FRAME_LENGTH, 0, 4096, FRAME_LENGTH - 1, FRAME_LENGTH + 1];
const COUNT_LENGTHS: [usize; 5] = [LINES, 0, LINES - 1, LINES + 1, 2048];
const LIST_LENGTHS: [usize; 5] = [LISTED_CELLS, 0, LISTED_CELLS - 1, LISTED_CELLS + 1, 2048];

fn compare(first: &Lent, second: &Lent, counts: &Lent<u16>, cells: &Lent<u16>) -> Comparison {
    // SAFETY: all buffers are open for their lengths and lie in mappings of their own, and those
    // of numbers are aligned.
    unsafe {
        ffi::tropfenpfad_compare(
            first.pointer(),
            first.length(),
            second.pointer(),
            second.length(),
            counts.pointer(),
            counts.length(),
            cells.pointer(),
            cells.length(),
        )
    }
}

/// Compares in guarded buffers and by the model, and looks at both lists and all beside them.
#[track_caller]
fn check(first: &Lent, second: &Lent, counts: &mut Lent<u16>, cells: &mut Lent<u16>) -> Comparison {
    let answer = compare(first, second, counts, cells);
    let due = compare::compare(&first.copy, &second.copy, &mut counts.copy, &mut cells.copy);
    assert_eq!(answer, due);
    counts.check("line counts");
    cells.check("cells");
    answer
}

#[test]
fn a_comparison_that_leaves_its_buffers() {
    let (mut calls, mut refused) = (0, 0);
    let frames = outputs(&FRAME_LENGTHS);
    frames.iter().for_each(Lent::make_read_only);
    let [mut counts, mut cells] = [lists(&COUNT_LENGTHS), lists(&LIST_LENGTHS)];
    for first in &frames {
        for second in &frames {
            for counts in &mut counts {
                for cells in &mut cells {
                    let answer = check(first, second, counts, cells);
                    calls += 1;
                    refused += usize::from(answer.status != 0);
                }
            }
        }
    }
    frames.iter().for_each(|frame| frame.check("frame"));
    println!("comparisons in guarded buffers: {calls} compared, {refused} with bad inputs");
}

#[test]
fn a_difference_at_an_edge_that_leads_out_of_a_buffer() {
    let mut generator = Xorshift::new(2);
    let mut calls = 0;
    let content = random_bytes(2, FRAME_LENGTH);
    for side in SIDES {
        let first = Lent::new(side, content.clone());
        first.make_read_only();
        for other_side in SIDES {
            let mut second = Lent::new(other_side, content.clone());
            let mut counts = Lent::new(side, random_numbers(2, LINES));
            let mut cells = Lent::new(other_side, random_numbers(3, LISTED_CELLS));
            // More and more differences, from the ends of the frame on.
            for turn in 0..200 {
                let inside = generator.below(FRAME_LENGTH);
                for place in [turn, FRAME_LENGTH - 1 - turn, inside] {
                    second.copy[place] = !content[place];
                }
                second.restore();
                second.make_read_only();
                check(&first, &second, &mut counts, &mut cells);
                check(&second, &first, &mut counts, &mut cells);
                calls += 2;
            }
            second.check("second frame");
        }
        first.check("first frame");
    }
    println!("differences at the edges of guarded buffers: {calls} comparisons");
}

#[test]
fn a_refused_comparison_that_stores() {
    let mut calls = 0;
    let frames = outputs(&FRAME_LENGTHS);
    let [counts, cells] = [lists(&COUNT_LENGTHS), lists(&LIST_LENGTHS)];
    frames.iter().for_each(Lent::make_read_only);
    for list in counts.iter().chain(&cells) {
        list.make_read_only();
    }
    for first in &frames {
        for second in &frames {
            for counts in &counts {
                for cells in &cells {
                    let lengths = [
                        first.length(),
                        second.length(),
                        counts.length(),
                        cells.length(),
                    ];
                    if lengths != [FRAME_LENGTH, FRAME_LENGTH, LINES, LISTED_CELLS] {
                        let answer = compare(first, second, counts, cells);
                        assert_eq!((answer.status, answer.empty), (2, false), "{lengths:?}");
                        calls += 1;
                    }
                }
            }
        }
    }
    println!("refused comparisons with read-only pages: {calls} bad inputs compared");
}

#[test]
fn one_frame_in_both_places_that_is_written() {
    let mut calls = 0;
    for side in SIDES {
        let frame = Lent::new(side, random_bytes(4, FRAME_LENGTH));
        frame.make_read_only();
        let mut counts = Lent::new(side, random_numbers(4, LINES));
        let mut cells = Lent::new(side, random_numbers(5, LISTED_CELLS));
        assert!(check(&frame, &frame, &mut counts, &mut cells).empty);
        frame.check("frame");
        calls += 1;
    }
    println!("one frame in both places: {calls} comparisons");
}

#[test]
fn a_null_pointer_of_length_0_that_is_followed() {
    let frame = random_bytes(6, FRAME_LENGTH);
    let (from, length) = (frame.as_ptr(), FRAME_LENGTH);
    let (mut line_counts, mut cells) = ([7; LINES], [7; LISTED_CELLS]);
    let (counts, list) = (line_counts.as_mut_ptr(), cells.as_mut_ptr());
    let (no_frame, no_list) = (ptr::null::<u8>(), ptr::null_mut::<u16>());
    // SAFETY: a null pointer comes with the length 0 only.
    let answers = unsafe {
        [
            ffi::tropfenpfad_compare(no_frame, 0, from, length, counts, LINES, list, 64),
            ffi::tropfenpfad_compare(from, length, no_frame, 0, counts, LINES, list, 64),
            ffi::tropfenpfad_compare(from, length, from, length, no_list, 0, list, 64),
            ffi::tropfenpfad_compare(from, length, from, length, counts, LINES, no_list, 0),
            ffi::tropfenpfad_compare(no_frame, 0, no_frame, 0, no_list, 0, no_list, 0),
        ]
    };
    assert_eq!(answers.map(|answer| answer.status), [2; 5]);
    assert_eq!((line_counts, cells), ([7; LINES], [7; LISTED_CELLS]));
    println!("null pointers to compare: 5 bad inputs compared");
}
