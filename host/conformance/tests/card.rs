//! The printed card of line starts, held against the archive.

use tropfenpfad::{
    paint_frame, paint_line, screen_address, State, FRAME_LENGTH, LINES, LINE_LENGTH, PROFILE_16K,
    PROFILE_48K,
};
use tropfenpfad_conformance::files;
use tropfenpfad_conformance::inputs::image_length;

/// An attribute: white paper.
const WHITE_PAPER: u8 = 0x17;

/// Half of the card, as the proved program prints it from the constant.
fn printed(half: &str) -> Vec<u16> {
    let figures = files::text("crates/figures/stdout");
    let mut starts = Vec::new();
    for row in figures.lines() {
        let Some(row) = row.strip_prefix(&format!("card {half} ")) else {
            continue;
        };
        let (first, numbers) = row.split_once(": ").expect("a row names its first line");
        assert_eq!(first.parse(), Ok(starts.len()), "rows in order");
        let number = |digits| u16::from_str_radix(digits, 16).expect("hexadecimal");
        let row: Vec<u16> = numbers.split(' ').map(number).collect();
        assert_eq!(row.len(), 8, "eight to a row");
        starts.extend(row);
    }
    assert_eq!(starts.len(), LINES, "a start for each line");
    starts
}

/// Calls with each mode and profile, each line, and its start by the card.
fn each_start(check: impl Fn(State, usize, u16)) {
    let halves = [printed("text"), printed("hires")];
    for mode in 0..8 {
        for (line, &start) in halves[usize::from(mode) / 4].iter().enumerate() {
            for (profile, folded) in [(PROFILE_48K, start), (PROFILE_16K, start % 0x4000)] {
                let state = State {
                    mode,
                    counter: 0,
                    profile,
                };
                check(state, line, folded);
            }
        }
    }
}

#[test]
fn an_address_that_departs_from_the_card() {
    each_start(|state, line, start| {
        let given = screen_address(state.profile, line, 0, state.mode);
        assert_eq!(given, Ok(start), "line {line} of {state:?}");
    });
    println!("card: 448 line starts compared in both profiles");
}

#[test]
fn a_line_that_begins_elsewhere_than_on_the_card() {
    each_start(|state, line, start| {
        let mut memory = vec![0; image_length(state.profile)];
        memory[usize::from(start)] = WHITE_PAPER;
        let (mut output, mut frame) = ([0; LINE_LENGTH], vec![0; FRAME_LENGTH]);
        paint_line(&memory, state, line, &mut output).unwrap();
        assert_eq!(output, [7; LINE_LENGTH], "line {line} of {state:?}");
        paint_frame(&memory, state, &mut frame).unwrap();
        let painted = &frame[LINE_LENGTH * line..][..LINE_LENGTH];
        assert_eq!(painted, output, "line {line} of a frame from {state:?}");
    });
    println!("card: 448 lines and frames with one white line start, in both profiles");
}
