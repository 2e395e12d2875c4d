//! Every refusal, given by some wrapper under its own number and in words.

use tropfenpfad::Refusal;
use tropfenpfad_conformance::inputs::fresh_of_kind;
use tropfenpfad_sys::{
    Cycle, State, FRAME_LENGTH, IMAGE_LENGTH, IMAGE_LENGTH_16K, KIND_MICRODISC, LONGEST_TRACE,
    MAP_LENGTH, PROFILE_16K, PROFILE_48K,
};

#[test]
fn a_result_that_hides_the_number() {
    let state = tropfenpfad::fresh_state();
    let [kind, controller] = [3, KIND_MICRODISC].map(fresh_of_kind);
    let mut memory = vec![0; IMAGE_LENGTH];
    let mut cycles = [Cycle::default(); LONGEST_TRACE + 1];
    let mut frame = vec![0; FRAME_LENGTH];
    let mode = State { mode: 8, ..state };
    let counter = State {
        counter: 32,
        ..state
    };
    let profile = State {
        profile: 2,
        ..state
    };
    let given = [
        tropfenpfad::paint_frame(&memory[1..], state, &mut frame).map(|_| ()),
        tropfenpfad::paint_line(&memory, state, 0, &mut frame).map(|_| ()),
        tropfenpfad::paint_frame(&memory, mode, &mut frame).map(|_| ()),
        tropfenpfad::paint_frame(&memory, counter, &mut frame).map(|_| ()),
        tropfenpfad::paint_line(&memory, state, 224, &mut frame[..240]).map(|_| ()),
        tropfenpfad::screen_address(PROFILE_48K, 0, 40, 2).map(|_| ()),
        tropfenpfad::write(&mut memory, PROFILE_48K, kind, 0, 0).map(|_| ()),
        tropfenpfad::trace(&mut memory, PROFILE_48K, controller, &mut cycles).map(|_| ()),
        tropfenpfad::paint_frame(&memory, profile, &mut frame).map(|_| ()),
        tropfenpfad::read(&memory[..IMAGE_LENGTH_16K], PROFILE_16K, controller, 0).map(|_| ()),
    ];
    assert_eq!(given.len(), Refusal::ALL.len());
    for (result, refusal) in given.into_iter().zip(Refusal::ALL) {
        let error = result.unwrap_err();
        assert_eq!(error, refusal);
        let text = error.to_string();
        assert!(text.starts_with(&format!("refused {}: ", refusal.number())));
        assert_eq!(Refusal::from_number(refusal.number()), Some(refusal));
    }
    let named = (0..=u8::MAX).filter_map(Refusal::from_number).count();
    assert_eq!((Refusal::from_number(0), named), (None, Refusal::ALL.len()));
    println!("results: {} bad inputs compared", Refusal::ALL.len());
}

#[test]
fn a_length_that_the_words_leave_out() {
    let state = tropfenpfad::fresh_state();
    let memory = vec![0; IMAGE_LENGTH];
    let (mut frame, mut map) = (vec![0; FRAME_LENGTH], [0; MAP_LENGTH]);
    let short = &mut map[1..];
    let given = [
        tropfenpfad::paint_line_mapped(&memory, state, 0, &mut frame[..240], short),
        tropfenpfad::paint_frame_mapped(&memory, state, &mut frame, short),
    ];
    for result in given {
        let text = result.unwrap_err().to_string();
        for length in ["240", "53,760", "8,192", "224", "64"] {
            assert!(text.contains(length), "{length} in {text:?}");
        }
    }
    let text = Refusal::Trace.to_string();
    assert!(text.contains("1,024"), "the longest list in {text:?}");
    println!("words: 2 bad inputs compared");
}
