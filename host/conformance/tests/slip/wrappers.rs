//! The wrapper against the C call, right and wrong inputs alike.

use tropfenpfad::{Refusal, Slip};
use tropfenpfad_conformance::calls;
use tropfenpfad_conformance::inputs::random_bytes;
use tropfenpfad_conformance::model::slip::SLIPS;
use tropfenpfad_conformance::refusals::{lent_bytes, result, searched_lengths};
use tropfenpfad_conformance::slips::moved;
use tropfenpfad_sys::{self as ffi, LINE_LENGTH};

fn slip(answer: ffi::Slip) -> Result<Slip, Refusal> {
    result(answer.status).map(|()| Slip {
        pixels: answer.slip,
        disagreements: answer.disagreements,
    })
}

/// Searches the same lines by both.
#[track_caller]
fn compare(reference: &[u8], grabbed: &[u8]) -> Result<Slip, Refusal> {
    let given = tropfenpfad::find_slip(reference, grabbed);
    assert_eq!(given, slip(calls::find_slip(reference, grabbed)));
    given
}

#[test]
fn a_slip_that_the_wrapper_gives_otherwise() {
    let line = lent_bytes();
    let mut compared = 0;
    for ([reference, grabbed], wrong) in searched_lengths() {
        let given = compare(&line[..reference], &line[..grabbed]);
        assert_eq!(given.is_err(), wrong.contains(&true));
        compared += 1;
    }
    let [reference, incoming] = [1, 2].map(|seed| random_bytes(seed, LINE_LENGTH));
    for pixels in SLIPS {
        let grabbed = moved(&reference, pixels.into(), &incoming);
        let disagreements = pixels.unsigned_abs().into();
        let due = Slip {
            pixels,
            disagreements,
        };
        assert_eq!(compare(&reference, &grabbed), Ok(due));
        compared += 1;
    }
    println!("wrapper of find_slip: {compared} calls compared");
}
