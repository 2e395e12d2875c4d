//! The wrappers against the C calls, right and wrong inputs alike.

use tropfenpfad::{Painting, Refusal};
use tropfenpfad_conformance::calls;
use tropfenpfad_conformance::refusals::{
    lent_bytes, mapped, memories, result, states, Mapped, COLUMNS, FRAME_OUTPUTS, LINES,
    LINE_OUTPUTS, MODES, NO_LINES, PROFILES,
};
use tropfenpfad_sys::Painted;

fn painting(answer: Painted) -> Result<Painting, Refusal> {
    result(answer.status).map(|()| Painting {
        state: answer.state,
        screen: answer.screen,
        character: answer.character,
    })
}

#[test]
fn a_line_that_the_wrapper_gives_otherwise() {
    let memory = lent_bytes();
    let [mut first, mut second] = [lent_bytes(), lent_bytes()];
    let mut compared = 0;
    for (state, _) in states() {
        for (length, _) in memories(state.profile) {
            for (room, _) in LINE_OUTPUTS.each() {
                for (line, _) in LINES.each() {
                    let lent = &memory[..length];
                    let answer = calls::paint_line(lent, state, line, &mut first[..room]);
                    let given = tropfenpfad::paint_line(lent, state, line, &mut second[..room]);
                    assert_eq!(given, painting(answer), "{state:?}, line {line}");
                    assert!(first[..room] == second[..room], "{state:?}, line {line}");
                    compared += 1;
                }
            }
        }
    }
    assert!(first == second);
    println!("wrapper of paint_line: {compared} calls compared");
}

#[test]
fn a_frame_that_the_wrapper_gives_otherwise() {
    let memory = lent_bytes();
    let [mut first, mut second] = [lent_bytes(), lent_bytes()];
    let mut compared = 0;
    for (state, _) in states() {
        for (length, _) in memories(state.profile) {
            for (room, _) in FRAME_OUTPUTS.each() {
                let lent = &memory[..length];
                let answer = calls::paint_frame(lent, state, &mut first[..room]);
                let given = tropfenpfad::paint_frame(lent, state, &mut second[..room]);
                assert_eq!(given, painting(answer), "{state:?}");
                assert!(first == second, "{state:?}");
                compared += 1;
            }
        }
    }
    println!("wrapper of paint_frame: {compared} calls compared");
}

/// Holds a wrapper of a painter with a map to its C call.
fn compare_mapped(
    name: &str,
    inputs: Vec<(Mapped, [bool; 7])>,
    call: impl Fn(&[u8], Mapped, &mut [u8], &mut [u8]) -> Painted,
    wrapper: impl Fn(&[u8], Mapped, &mut [u8], &mut [u8]) -> Result<Painting, Refusal>,
) {
    let memory = lent_bytes();
    let [mut pictures, mut maps] = [(); 2].map(|()| [lent_bytes(), lent_bytes()]);
    let mut compared = 0;
    for (lent, _) in inputs {
        let memory = &memory[..lent.memory];
        let [first, second] = pictures.each_mut().map(|bytes| &mut bytes[..lent.picture]);
        let [first_map, second_map] = maps.each_mut().map(|bytes| &mut bytes[..lent.map]);
        let answer = call(memory, lent, first, first_map);
        let given = wrapper(memory, lent, second, second_map);
        assert_eq!(given, painting(answer), "{lent:?}");
        assert!(pictures[0] == pictures[1], "{lent:?}: picture");
        assert!(maps[0] == maps[1], "{lent:?}: map");
        compared += 1;
    }
    println!("wrapper of {name}: {compared} calls compared");
}

#[test]
fn a_line_with_a_map_that_the_wrapper_gives_otherwise() {
    compare_mapped(
        "paint_line_mapped",
        mapped(LINE_OUTPUTS, LINES),
        |memory, lent, output, map| {
            calls::paint_line_mapped(memory, lent.state, lent.line, output, map)
        },
        |memory, lent, output, map| {
            tropfenpfad::paint_line_mapped(memory, lent.state, lent.line, output, map)
        },
    );
}

#[test]
fn a_frame_with_a_map_that_the_wrapper_gives_otherwise() {
    compare_mapped(
        "paint_frame_mapped",
        mapped(FRAME_OUTPUTS, NO_LINES),
        |memory, lent, frame, map| calls::paint_frame_mapped(memory, lent.state, frame, map),
        |memory, lent, frame, map| tropfenpfad::paint_frame_mapped(memory, lent.state, frame, map),
    );
}

#[test]
fn a_screen_address_that_the_wrapper_gives_otherwise() {
    let mut compared = 0;
    for (profile, _) in PROFILES.each() {
        for (mode, _) in MODES.each() {
            for (line, _) in LINES.each() {
                for (column, _) in COLUMNS.each() {
                    let answer = calls::screen_address(profile, line, column, mode);
                    let given = tropfenpfad::screen_address(profile, line, column, mode);
                    assert_eq!(given, result(answer.status).map(|()| answer.address));
                    compared += 1;
                }
            }
        }
    }
    println!("wrapper of screen_address: {compared} calls compared");
}

#[test]
fn a_fresh_state_that_the_wrapper_gives_otherwise() {
    assert_eq!(tropfenpfad::fresh_state(), calls::fresh_state());
    println!("wrapper of fresh_state: 1 call compared");
}
