//! Every mix of right and wrong lengths: which number is given, and what comes back with it. The
//! model is held to the same lists as the library.

use tropfenpfad_conformance::calls;
use tropfenpfad_conformance::comparisons::Compare;
use tropfenpfad_conformance::model::compare;
use tropfenpfad_conformance::refusals::{compared_lengths, lent_bytes, lent_numbers, Tally};
use tropfenpfad_sys::{Comparison, FRAME_LENGTH, LINES, LISTED_CELLS};

/// A comparison either is done or, refused, gives nothing but its number.
fn check(answer: Comparison, number: u8, what: &str) {
    if number == 0 {
        return assert_eq!(answer.status, 0, "{what}");
    }
    let refused = Comparison {
        status: number,
        empty: false,
        first_x: 0,
        last_x: 0,
        first_line: 0,
        last_line: 0,
        pixels: 0,
        cells: 0,
    };
    assert_eq!(answer, refused, "{what}");
}

/// Tries a comparison with every mix of lengths. What is lent differs or is the same memory.
fn refuse(name: &str, compare: Compare) {
    let frame = lent_bytes();
    let other: Vec<u8> = frame.iter().map(|byte| !byte).collect();
    let numbers = lent_numbers();
    let [mut line_counts, mut cells] = [numbers.clone(), numbers.clone()];
    let mut tally = Tally::default();
    for grabbed in [&frame, &other] {
        let untouched = [frame.clone(), grabbed.clone()];
        for (lengths, wrong) in compared_lengths() {
            let number = tally.due(&wrong.map(|bad| (2, bad)));
            let [first, second, counted, listed] = lengths;
            let answer = compare(
                &frame[..first],
                &grabbed[..second],
                &mut line_counts[..counted],
                &mut cells[..listed],
            );
            let what = format!("{name}: lengths {lengths:?}");
            check(answer, number, &what);
            if number == 0 {
                line_counts[..counted].copy_from_slice(&numbers[..counted]);
                cells[..listed].copy_from_slice(&numbers[..listed]);
            }
            assert!(line_counts == numbers, "{what}: line counts");
            assert!(cells == numbers, "{what}: cells");
            tally.count(answer.status);
        }
        assert!([&frame, grabbed] == untouched.each_ref(), "{name}: frames");
    }
    tally.finish(name);
}

#[test]
fn a_comparison_refused_wrongly_or_not_left_alone() {
    refuse("compare", calls::compare);
}

#[test]
fn a_model_that_refuses_otherwise() {
    refuse("model compare", compare::compare);
}

#[test]
fn a_frame_length_taken_wrongly() {
    let frame = lent_bytes();
    let right = &frame[..FRAME_LENGTH];
    let (mut line_counts, mut cells) = ([0; LINES], [0; LISTED_CELLS]);
    let mut tally = Tally::default();
    for length in 0..=frame.len() {
        let lent = &frame[..length];
        let number = 2 * u8::from(length != FRAME_LENGTH);
        for (first, second) in [(lent, right), (right, lent), (lent, lent)] {
            let answer = calls::compare(first, second, &mut line_counts, &mut cells);
            check(answer, number, &format!("{length} bytes of a frame"));
            tally.count(answer.status);
        }
    }
    tally.finish("frames of every length up to 131,072");
}

#[test]
fn a_list_length_taken_wrongly() {
    let frame = &lent_bytes()[..FRAME_LENGTH];
    let [mut line_counts, mut cells] = [lent_numbers(), lent_numbers()];
    let mut tally = Tally::default();
    for length in 0..=line_counts.len() {
        let mixes = [
            (length, LISTED_CELLS, length != LINES),
            (LINES, length, length != LISTED_CELLS),
            (length, length, true),
        ];
        for (counted, listed, wrong) in mixes {
            let lent = (&mut line_counts[..counted], &mut cells[..listed]);
            let answer = calls::compare(frame, frame, lent.0, lent.1);
            let what = format!("{counted} line counts, {listed} cells");
            check(answer, 2 * u8::from(wrong), &what);
            tally.count(answer.status);
        }
    }
    tally.finish("lists of every length up to 65,536");
}
