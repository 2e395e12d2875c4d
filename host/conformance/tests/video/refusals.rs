//! Every entry point with every mix of right and wrong inputs: which number is given, and what
//! comes back with it. The model is held to the same lists as the library.

use tropfenpfad_conformance::calls;
use tropfenpfad_conformance::inputs::{self, fresh_of_profile, image_length, in_each_profile};
use tropfenpfad_conformance::model::Video;
use tropfenpfad_conformance::refusals::{
    lent_bytes, mapped, memories, states, status_with_memory_of, Mapped, Tally, COLUMNS,
    FRAME_OUTPUTS, LINES, LINE_OUTPUTS, MODES, NO_LINES, PROFILES,
};
use tropfenpfad_sys::{Address, Painted, State, FRAME_LENGTH, LINE_LENGTH, MAP_LENGTH};

/// The order of the refusals of a line with a map: the picture's 2 and then the map's.
const LINE_MAPPED: [u8; 7] = [12, 1, 2, 2, 3, 4, 5];
/// The same of a frame, which takes no line.
const FRAME_MAPPED: [u8; 6] = [12, 1, 2, 2, 3, 4];

/// A painting either gives all its answer, with the profile handed in, or, refused, nothing but the
/// state handed in.
fn check_painting(answer: Painted, number: u8, state: State, what: &str) {
    if number == 0 {
        assert_eq!(answer.status, 0, "{what}");
        assert_eq!(answer.state.profile, state.profile, "{what}");
        return assert!(answer.screen >= 40, "{what}");
    }
    let refused = Painted {
        status: number,
        state,
        screen: 0,
        character: 0,
    };
    assert_eq!(answer, refused, "{what}");
}

/// Tries a line painter with every mix of inputs.
fn refuse_lines(name: &str, paint: impl Fn(&[u8], State, usize, &mut [u8]) -> Painted) {
    let untouched = lent_bytes();
    let memory = untouched.clone();
    let mut output = untouched.clone();
    let mut tally = Tally::default();
    for (state, [bad_profile, bad_mode, bad_counter]) in states() {
        for (length, bad_memory) in memories(state.profile) {
            for (room, bad_output) in LINE_OUTPUTS.each() {
                for (line, bad_line) in LINES.each() {
                    let number = tally.due(&[
                        (12, bad_profile),
                        (1, bad_memory),
                        (2, bad_output),
                        (3, bad_mode),
                        (4, bad_counter),
                        (5, bad_line),
                    ]);
                    let answer = paint(&memory[..length], state, line, &mut output[..room]);
                    let what =
                        format!("{name}: {length} bytes, {room} lent, {state:?}, line {line}");
                    check_painting(answer, number, state, &what);
                    if number == 0 {
                        output[..room].copy_from_slice(&untouched[..room]);
                    }
                    assert_eq!(output[..FRAME_LENGTH], untouched[..FRAME_LENGTH], "{what}");
                    tally.count(answer.status);
                }
            }
        }
    }
    assert_eq!((memory, output), (untouched.clone(), untouched));
    tally.finish(name);
}

/// Tries a frame painter with every mix of inputs.
fn refuse_frames(name: &str, paint: impl Fn(&[u8], State, &mut [u8]) -> Painted) {
    let untouched = lent_bytes();
    let memory = untouched.clone();
    let mut output = untouched.clone();
    let mut tally = Tally::default();
    for (state, [bad_profile, bad_mode, bad_counter]) in states() {
        for (length, bad_memory) in memories(state.profile) {
            for (room, bad_output) in FRAME_OUTPUTS.each() {
                let number = tally.due(&[
                    (12, bad_profile),
                    (1, bad_memory),
                    (2, bad_output),
                    (3, bad_mode),
                    (4, bad_counter),
                ]);
                let answer = paint(&memory[..length], state, &mut output[..room]);
                let what = format!("{name}: {length} bytes, {room} lent, {state:?}");
                check_painting(answer, number, state, &what);
                if number == 0 {
                    output[..room].copy_from_slice(&untouched[..room]);
                }
                assert_eq!(output, untouched, "{what}");
                tally.count(answer.status);
            }
        }
    }
    assert_eq!(memory, untouched);
    tally.finish(name);
}

/// Tries a painter with a map with these inputs, whose refusals have this order.
fn refuse_mapped(
    name: &str,
    order: &[u8],
    inputs: Vec<(Mapped, [bool; 7])>,
    paint: impl Fn(&[u8], State, usize, &mut [u8], &mut [u8]) -> Painted,
) {
    let untouched = lent_bytes();
    let memory = untouched.clone();
    let [mut picture, mut map] = [untouched.clone(), untouched.clone()];
    let mut tally = Tally::default();
    for (lent, wrong) in inputs {
        let refusals: Vec<(u8, bool)> = order.iter().copied().zip(wrong).collect();
        let number = tally.due(&refusals);
        let what = format!("{name}: {lent:?}");
        let answer = paint(
            &memory[..lent.memory],
            lent.state,
            lent.line,
            &mut picture[..lent.picture],
            &mut map[..lent.map],
        );
        check_painting(answer, number, lent.state, &what);
        if number == 0 {
            picture[..lent.picture].copy_from_slice(&untouched[..lent.picture]);
            map[..lent.map].copy_from_slice(&untouched[..lent.map]);
        }
        assert!(picture == untouched, "{what}: picture");
        assert!(map == untouched, "{what}: map");
        tally.count(answer.status);
    }
    assert_eq!(memory, untouched);
    tally.finish(name);
}

/// Tries a line painter with a map with every one and every two wrong inputs.
fn refuse_mapped_lines(
    name: &str,
    paint: impl Fn(&[u8], State, usize, &mut [u8], &mut [u8]) -> Painted,
) {
    refuse_mapped(name, &LINE_MAPPED, mapped(LINE_OUTPUTS, LINES), paint);
}

/// The same with a frame painter.
fn refuse_mapped_frames(name: &str, paint: impl Fn(&[u8], State, &mut [u8], &mut [u8]) -> Painted) {
    let inputs = mapped(FRAME_OUTPUTS, NO_LINES);
    refuse_mapped(
        name,
        &FRAME_MAPPED,
        inputs,
        |memory, state, _, frame, map| paint(memory, state, frame, map),
    );
}

/// Tries a screen address lookup with every mix of inputs.
fn refuse_addresses(name: &str, look_up: impl Fn(u8, usize, usize, u8) -> Address) {
    let mut tally = Tally::default();
    for (profile, bad_profile) in PROFILES.each() {
        for (mode, bad_mode) in MODES.each() {
            for (line, bad_line) in LINES.each() {
                for (column, bad_column) in COLUMNS.each() {
                    let number = tally.due(&[
                        (12, bad_profile),
                        (3, bad_mode),
                        (5, bad_line),
                        (6, bad_column),
                    ]);
                    let answer = look_up(profile, line, column, mode);
                    let what = format!(
                        "{name}: profile {profile}, line {line}, column {column}, mode {mode}"
                    );
                    match number {
                        0 => assert_eq!(answer.status, 0, "{what}"),
                        status => assert_eq!(answer, Address { status, address: 0 }, "{what}"),
                    }
                    tally.count(answer.status);
                }
            }
        }
    }
    tally.finish(name);
}

#[test]
fn a_line_refused_wrongly_or_not_left_alone() {
    refuse_lines("paint_line", calls::paint_line);
}

#[test]
fn a_frame_refused_wrongly_or_not_left_alone() {
    refuse_frames("paint_frame", calls::paint_frame);
}

#[test]
fn a_line_with_a_map_refused_wrongly_or_not_left_alone() {
    refuse_mapped_lines("paint_line_mapped", calls::paint_line_mapped);
}

#[test]
fn a_frame_with_a_map_refused_wrongly_or_not_left_alone() {
    refuse_mapped_frames("paint_frame_mapped", calls::paint_frame_mapped);
}

#[test]
fn a_screen_address_refused_wrongly() {
    refuse_addresses("screen_address", calls::screen_address);
}

#[test]
fn a_model_that_refuses_otherwise() {
    let model = Video::new();
    refuse_lines("model paint_line", |memory, state, line, output| {
        model.paint_line(memory, state, line, output)
    });
    refuse_frames("model paint_frame", |memory, state, frame| {
        model.paint_frame(memory, state, frame)
    });
    refuse_mapped_lines(
        "model paint_line_mapped",
        |memory, state, line, output, map| {
            model.paint_line_mapped(memory, state, line, output, map)
        },
    );
    refuse_mapped_frames("model paint_frame_mapped", |memory, state, frame, map| {
        model.paint_frame_mapped(memory, state, frame, map)
    });
    refuse_addresses("model screen_address", |profile, line, column, mode| {
        model.screen_address(profile, line, column, mode)
    });
}

/// Line 0 and the frame, each without a map and with one.
fn paint_all(memory: &[u8], state: State, picture: &mut [u8], map: &mut [u8]) -> [Painted; 4] {
    let (line, frame) = (LINE_LENGTH, FRAME_LENGTH);
    [
        calls::paint_line(memory, state, 0, &mut picture[..line]),
        calls::paint_frame(memory, state, &mut picture[..frame]),
        calls::paint_line_mapped(memory, state, 0, &mut picture[..line], map),
        calls::paint_frame_mapped(memory, state, &mut picture[..frame], map),
    ]
}

fn try_memory_lengths(profile: u8) {
    let memory = lent_bytes();
    let (mut output, mut map) = (lent_bytes(), [0; MAP_LENGTH]);
    let state = fresh_of_profile(profile);
    let right = image_length(profile);
    let mut tally = Tally::default();
    for length in 0..=memory.len() {
        let answers = paint_all(&memory[..length], state, &mut output, &mut map);
        let statuses = answers.map(|answer| answer.status);
        let number = u8::from(length != right);
        assert_eq!(statuses, [number; 4], "{length} bytes of memory");
        tally.count_all(&statuses);
    }
    tally.finish(&format!(
        "profile {profile}, paintings of every length of memory up to 131,072"
    ));
}

#[test]
fn a_memory_length_taken_wrongly() {
    in_each_profile(try_memory_lengths);
}

#[test]
fn a_profile_taken_wrongly() {
    let memory = lent_bytes();
    let (mut output, mut map) = (lent_bytes(), [0; MAP_LENGTH]);
    let mut tally = Tally::default();
    for profile in 0..=u8::MAX {
        let state = fresh_of_profile(profile);
        for right in inputs::PROFILES {
            let lent = &memory[..image_length(right)];
            let number = status_with_memory_of(right, profile);
            for answer in paint_all(lent, state, &mut output, &mut map) {
                check_painting(answer, number, state, &format!("{state:?}"));
                tally.count(answer.status);
            }
        }
        let address = calls::screen_address(profile, 0, 0, 0).status;
        assert_eq!(address, 12 * u8::from(profile > 1), "profile {profile}");
        tally.count(address);
    }
    tally.finish("every profile");
}

fn try_output_lengths(profile: u8) {
    let memory = &lent_bytes()[..image_length(profile)];
    let (mut output, mut map) = (lent_bytes(), [0; MAP_LENGTH]);
    let state = fresh_of_profile(profile);
    let mut tally = Tally::default();
    for room in 0..=output.len() {
        let lent = &mut output[..room];
        let [line, frame] = [LINE_LENGTH, FRAME_LENGTH].map(|right| 2 * u8::from(room != right));
        let statuses = [
            calls::paint_line(memory, state, 0, lent).status,
            calls::paint_frame(memory, state, lent).status,
            calls::paint_line_mapped(memory, state, 0, lent, &mut map).status,
            calls::paint_frame_mapped(memory, state, lent, &mut map).status,
        ];
        assert_eq!(statuses, [line, frame, line, frame], "{room} lent");
        tally.count_all(&statuses);
    }
    tally.finish(&format!(
        "profile {profile}, every length of output up to 131,072"
    ));
}

#[test]
fn an_output_length_taken_wrongly() {
    in_each_profile(try_output_lengths);
}

fn try_map_lengths(profile: u8) {
    let memory = &lent_bytes()[..image_length(profile)];
    let (mut output, mut frame) = ([0; LINE_LENGTH], vec![0; FRAME_LENGTH]);
    let mut map = lent_bytes();
    let state = fresh_of_profile(profile);
    let mut tally = Tally::default();
    for room in 0..=map.len() {
        let lent = &mut map[..room];
        let statuses = [
            calls::paint_line_mapped(memory, state, 0, &mut output, lent).status,
            calls::paint_frame_mapped(memory, state, &mut frame, lent).status,
        ];
        let number = 2 * u8::from(room != MAP_LENGTH);
        assert_eq!(statuses, [number; 2], "{room} lent");
        tally.count_all(&statuses);
    }
    tally.finish(&format!(
        "profile {profile}, every length of a map up to 131,072"
    ));
}

#[test]
fn a_map_length_taken_wrongly() {
    in_each_profile(try_map_lengths);
}

fn try_states(profile: u8) {
    let memory = &lent_bytes()[..image_length(profile)];
    let (mut output, mut map) = ([0; LINE_LENGTH], [0; MAP_LENGTH]);
    let mut tally = Tally::default();
    for pair in 0..=u16::MAX {
        let [mode, counter] = pair.to_le_bytes();
        let state = State {
            mode,
            counter,
            profile,
        };
        let number = tally.due(&[(3, mode > 7), (4, counter > 31)]);
        let answers = [
            calls::paint_line(memory, state, 0, &mut output),
            calls::paint_line_mapped(memory, state, 0, &mut output, &mut map),
        ];
        for answer in answers {
            check_painting(answer, number, state, &format!("{state:?}"));
            tally.count(answer.status);
        }
    }
    tally.finish(&format!("profile {profile}, every mode and counter"));
}

#[test]
fn a_state_taken_wrongly() {
    in_each_profile(try_states);
}

fn try_lines_and_columns(profile: u8) {
    let memory = &lent_bytes()[..image_length(profile)];
    let (mut output, mut map) = ([0; LINE_LENGTH], [0; MAP_LENGTH]);
    let state = fresh_of_profile(profile);
    let mut tally = Tally::default();
    for place in 0..=0x1_0000 {
        let lines = [
            calls::paint_line(memory, state, place, &mut output).status,
            calls::paint_line_mapped(memory, state, place, &mut output, &mut map).status,
        ];
        let column = calls::screen_address(profile, 0, place, 0).status;
        assert_eq!(lines, [5 * u8::from(place > 223); 2], "line {place}");
        assert_eq!(column, 6 * u8::from(place > 39), "column {place}");
        tally.count_all(&lines);
        tally.count(column);
    }
    tally.finish(&format!(
        "profile {profile}, lines and columns up to 65,536"
    ));
}

#[test]
fn a_line_or_column_taken_wrongly() {
    in_each_profile(try_lines_and_columns);
}

#[test]
fn a_fresh_state_that_is_not_fresh() {
    let fresh = State {
        mode: 2,
        counter: 0,
        profile: 0,
    };
    let given = [calls::fresh_state(), Video::new().fresh_state()];
    assert_eq!(given, [fresh; 2]);
    println!("fresh states: 2 compared");
}
