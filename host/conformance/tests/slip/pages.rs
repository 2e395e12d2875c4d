//! Lent lines against inaccessible pages.

use std::ptr;

use tropfenpfad_conformance::guarded::{outputs, Lent, SIDES};
use tropfenpfad_conformance::inputs::random_bytes;
use tropfenpfad_conformance::model::slip::{self, SLIPS};
use tropfenpfad_conformance::slips::moved;
use tropfenpfad_sys::{self as ffi, Slip, LINE_LENGTH};

const LENGTHS: [usize; 7] = [
    LINE_LENGTH,
    0,
    1,
    LINE_LENGTH - 1,
    LINE_LENGTH + 1,
    2 * LINE_LENGTH,
    4096,
];

/// Searches in read-only pages and by the model, and looks at both lines and all beside them.
#[track_caller]
fn check(reference: &Lent, grabbed: &Lent) -> Slip {
    reference.make_read_only();
    grabbed.make_read_only();
    // SAFETY: both lines are open for their lengths, and nobody writes to them.
    let answer = unsafe {
        ffi::tropfenpfad_find_slip(
            reference.pointer(),
            reference.length(),
            grabbed.pointer(),
            grabbed.length(),
        )
    };
    assert_eq!(answer, slip::find_slip(&reference.copy, &grabbed.copy));
    reference.check("reference");
    grabbed.check("grabbed line");
    answer
}

#[test]
fn a_search_that_leaves_its_lines_or_stores() {
    let (mut calls, mut refused) = (0, 0);
    let lines = outputs(&LENGTHS);
    for reference in &lines {
        for grabbed in &lines {
            let answer = check(reference, grabbed);
            calls += 1;
            refused += usize::from(answer.status != 0);
        }
    }
    println!("searches in guarded lines: {calls} compared, {refused} with bad inputs");
}

#[test]
fn a_slip_that_leads_out_of_a_line() {
    let mut calls = 0;
    let [content, incoming] = [3, 4].map(|seed| random_bytes(seed, LINE_LENGTH));
    for side in SIDES {
        let reference = Lent::new(side, content.clone());
        for other_side in SIDES {
            for pixels in SLIPS {
                let line = moved(&content, pixels.into(), &incoming);
                let grabbed = Lent::new(other_side, line);
                assert_eq!(check(&reference, &grabbed).slip, pixels);
                assert_eq!(check(&grabbed, &reference).slip, -pixels);
                calls += 2;
            }
        }
    }
    println!("slips of guarded lines: {calls} searches");
}

#[test]
fn one_line_in_both_places_that_is_written() {
    for side in SIDES {
        let line = Lent::new(side, random_bytes(5, LINE_LENGTH));
        let answer = check(&line, &line);
        assert_eq!((answer.slip, answer.disagreements), (0, 0));
    }
    println!("one line in both places: {} searches", SIDES.len());
}

#[test]
fn a_null_pointer_of_length_0_that_is_followed() {
    let line = random_bytes(6, LINE_LENGTH);
    let (from, length) = (line.as_ptr(), LINE_LENGTH);
    let nowhere = ptr::null::<u8>();
    // SAFETY: a null pointer comes with the length 0 only.
    let answers = unsafe {
        [
            ffi::tropfenpfad_find_slip(nowhere, 0, from, length),
            ffi::tropfenpfad_find_slip(from, length, nowhere, 0),
            ffi::tropfenpfad_find_slip(nowhere, 0, nowhere, 0),
        ]
    };
    let refused = Slip {
        status: 2,
        slip: 0,
        disagreements: 0,
    };
    assert_eq!(answers, [refused; 3]);
    println!("null pointers to find_slip: 3 bad inputs compared");
}
