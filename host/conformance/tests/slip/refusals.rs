//! Every mix of right and wrong lengths: which number is given, and what comes back with it. The
//! model is held to the same lists as the library.

use tropfenpfad_conformance::calls;
use tropfenpfad_conformance::model::slip;
use tropfenpfad_conformance::refusals::{lent_bytes, searched_lengths, Tally};
use tropfenpfad_conformance::slips::{moved, FindSlip};
use tropfenpfad_sys::{Slip, LINE_LENGTH};

/// A search either is done or, refused, gives nothing but its number.
fn check(answer: Slip, number: u8, what: &str) {
    if number == 0 {
        return assert_eq!(answer.status, 0, "{what}");
    }
    let refused = Slip {
        status: number,
        slip: 0,
        disagreements: 0,
    };
    assert_eq!(answer, refused, "{what}");
}

/// Tries a search with every mix of lengths. What is lent is the same memory, or differs
/// everywhere, or has slipped to either side.
fn refuse(name: &str, find_slip: FindSlip) {
    let reference = lent_bytes();
    let opposite: Vec<u8> = reference.iter().map(|byte| !byte).collect();
    let mut tally = Tally::default();
    for grabbed in [
        &reference,
        &opposite,
        &slipped(&reference, 7),
        &slipped(&reference, -7),
    ] {
        let untouched = [reference.clone(), grabbed.clone()];
        for (lengths, wrong) in searched_lengths() {
            let number = tally.due(&wrong.map(|bad| (2, bad)));
            let answer = find_slip(&reference[..lengths[0]], &grabbed[..lengths[1]]);
            let what = format!("{name}: lengths {lengths:?}");
            check(answer, number, &what);
            assert!(
                [&reference, grabbed] == untouched.each_ref(),
                "{what}: lines"
            );
            tally.count(answer.status);
        }
    }
    tally.finish(name);
}

/// The bytes, the first line of them moved.
fn slipped(bytes: &[u8], pixels: i16) -> Vec<u8> {
    let (line, rest) = bytes.split_at(LINE_LENGTH);
    [&moved(line, pixels, &rest[..LINE_LENGTH])[..], rest].concat()
}

#[test]
fn a_search_refused_wrongly_or_not_left_alone() {
    refuse("find_slip", calls::find_slip);
}

#[test]
fn a_model_that_refuses_otherwise() {
    refuse("model find_slip", slip::find_slip);
}

#[test]
fn a_line_length_taken_wrongly() {
    let line = lent_bytes();
    let right = &line[..LINE_LENGTH];
    let mut tally = Tally::default();
    for length in 0..=line.len() {
        let lent = &line[..length];
        let number = 2 * u8::from(length != LINE_LENGTH);
        for (reference, grabbed) in [(lent, right), (right, lent), (lent, lent)] {
            let answer = calls::find_slip(reference, grabbed);
            check(answer, number, &format!("{length} bytes of a line"));
            tally.count(answer.status);
        }
    }
    tally.finish("lines of every length up to 131,072");
}
