//! Maps of images whose used addresses can be told by hand.

use std::collections::BTreeSet;
use std::ops::Range;

use tropfenpfad::{paint_frame_mapped, paint_line_mapped};
use tropfenpfad_conformance::images::{self, fill, with_bytes, Kind};
use tropfenpfad_conformance::inputs::{
    fresh_of_profile, image_length, in_each_profile, start_states,
};
use tropfenpfad_conformance::maps::{assert_same_marks, lent_maps, marked};
use tropfenpfad_sys::{State, COLUMNS, FRAME_LENGTH, LINES, LINE_LENGTH, MAP_LENGTH, PROFILE_16K};

const TEXT: u8 = 2;
const HIRES: u8 = 6;
/// The screen bytes of a frame in text.
const TEXT_SCREEN: Range<usize> = 0xBB80..0xBFE0;
/// Those of a frame in hires: lines 0 to 199, and the three rows below.
const BITMAP: Range<usize> = 0xA000..0xBF40;
const ROWS_BELOW: Range<usize> = 0xBF68..0xBFE0;
/// Those of the bottom row in either, in which no definition lies.
const BOTTOM_ROW: Range<usize> = 0xBFB8..0xBFE0;

/// A state with a mode, of a profile.
fn state_in(profile: u8, mode: u8) -> State {
    State {
        mode,
        ..fresh_of_profile(profile)
    }
}

/// The addresses that a line marks in a map without marks.
fn marked_by_line(memory: &[u8], state: State, line: usize) -> Vec<u16> {
    let (mut output, mut map) = ([0; LINE_LENGTH], [0; MAP_LENGTH]);
    paint_line_mapped(memory, state, line, &mut output, &mut map).unwrap();
    marked(&map)
}

/// The addresses that a frame marks in a map without marks.
fn marked_by_frame(memory: &[u8], state: State) -> Vec<u16> {
    let (mut frame, mut map) = (vec![0; FRAME_LENGTH], [0; MAP_LENGTH]);
    paint_frame_mapped(memory, state, &mut frame, &mut map).unwrap();
    marked(&map)
}

/// The bytes of RAM that these addresses reach, each once, from the lowest on.
fn reached(profile: u8, addresses: impl IntoIterator<Item = usize>) -> Vec<u16> {
    let folded = |address| (address % image_length(profile)) as u16;
    let bytes: BTreeSet<u16> = addresses.into_iter().map(folded).collect();
    bytes.into_iter().collect()
}

/// The same of one address and some others.
fn reached_with(profile: u8, address: usize, others: Range<usize>) -> Vec<u16> {
    reached(profile, others.chain([address]))
}

fn fill_with_attributes(profile: u8) {
    let mut paintings = 0;
    for byte in (0..=u8::MAX).filter(|byte| byte & 0x60 == 0) {
        let memory = vec![byte; image_length(profile)];
        let given = marked_by_frame(&memory, state_in(profile, TEXT));
        let (due, marks) = match byte & 0x1C {
            // The byte goes to hires, so that only the first cell of all is read in text.
            0x1C => (reached(profile, (0xA001..0xBF40).chain(ROWS_BELOW)), 8119),
            _ => (reached(profile, TEXT_SCREEN), 1120),
        };
        assert_eq!(given, due, "a screen of {byte:02x}");
        assert_eq!(given.len(), marks);
        paintings += 1;
    }
    println!("profile {profile}, screens of one attribute: {paintings} paintings compared");
}

#[test]
fn an_attribute_that_marks_a_character_byte() {
    in_each_profile(fill_with_attributes);
}

/// Every screen byte that is no attribute.
fn pictures() -> impl Iterator<Item = u8> {
    (0..=u8::MAX).filter(|byte| byte & 0x60 != 0)
}

fn fill_with_bitmaps(profile: u8) {
    let state = state_in(profile, HIRES);
    let mut memory = vec![0; image_length(profile)];
    let mut paintings = 0;
    for byte in pictures() {
        fill(&mut memory, BITMAP, byte);
        for line in (0..200).step_by(9) {
            let start = 0xA000 + COLUMNS * line;
            let due = reached(profile, start..start + COLUMNS);
            let given = marked_by_line(&memory, state, line);
            assert_eq!(given, due, "line {line} of {byte:02x}");
            paintings += 1;
        }
        let given = marked_by_frame(&memory, state);
        let due = reached(profile, BITMAP.chain(ROWS_BELOW));
        assert_eq!(given, due, "a bitmap of {byte:02x}");
        assert_eq!(due.len(), 8000 + 3 * 40);
        paintings += 1;
    }
    println!("profile {profile}, bitmaps of one byte: {paintings} paintings compared");
}

#[test]
fn a_bitmap_cell_that_marks_a_character_byte() {
    in_each_profile(fill_with_bitmaps);
}

fn fill_with_characters(profile: u8) {
    let mut memory = vec![0; image_length(profile)];
    let mut paintings = 0;
    for byte in pictures() {
        fill(&mut memory, 0xA000..0xBFE0, byte);
        let code = usize::from(byte % 128);
        let [text, hires] = [0xB400, 0x9800].map(|set| set + 8 * code..set + 8 * code + 8);
        let given = marked_by_frame(&memory, state_in(profile, TEXT));
        assert_eq!(given, reached(profile, text.chain(TEXT_SCREEN)));
        let given = marked_by_frame(&memory, state_in(profile, HIRES));
        let due = reached(profile, hires.chain(BITMAP).chain(ROWS_BELOW));
        assert_eq!((given.len(), given), (8 + 8000 + 3 * 40, due));
        paintings += 2;
    }
    println!("profile {profile}, screens of one character: {paintings} paintings compared");
}

#[test]
fn a_character_that_marks_more_or_less_than_its_eight_rows() {
    in_each_profile(fill_with_characters);
}

/// Paints lines of the bottom row from every mode and phase, with a style and then a picture in it,
/// which is the only cell that uses a definition.
fn mark_styled(profile: u8, style: u8, byte: u8) {
    let start = BOTTOM_ROW.start;
    let memory = with_bytes(profile, &[(start, 0x08 | style), (start + 1, byte)]);
    let [alternate, double] = [1, 2].map(|bit| style & bit != 0);
    let code = usize::from(byte % 128);
    let lines = (216..LINES).cycle().skip(code);
    for (state, line) in start_states(profile).zip(lines) {
        let set = if state.mode < 4 { 0xB400 } else { 0x9800 };
        let set = if alternate { set + 0x400 } else { set };
        let row = if double { line / 2 % 8 } else { line % 8 };
        let definition = set + 8 * code + row;
        let due = reached_with(profile, definition, BOTTOM_ROW);
        let given = marked_by_line(&memory, state, line);
        assert_eq!(given, due, "{definition:04x} on line {line} from {state:?}");
    }
}

fn mark_every_style(profile: u8) {
    for style in 0..8 {
        for byte in pictures() {
            mark_styled(profile, style, byte);
        }
    }
    println!("profile {profile}, styles and characters: 8 x 192 x 32 paintings compared");
}

#[test]
fn a_style_that_marks_another_byte() {
    in_each_profile(mark_every_style);
}

fn hide_a_character(profile: u8) {
    let memory = with_bytes(profile, &[(0xBB80, 0x0C), (0xBB81, 65), (0xB60B, 0x3F)]);
    for (counter, shown) in [(0, 7), (15, 7), (16, 0), (31, 0)] {
        let state = State {
            counter,
            ..state_in(profile, TEXT)
        };
        let (mut output, mut map) = ([0; LINE_LENGTH], [0; MAP_LENGTH]);
        paint_line_mapped(&memory, state, 3, &mut output, &mut map).unwrap();
        assert_eq!(output[6..12], [shown; 6], "counter {counter}");
        let due = reached_with(profile, 0xB60B, 0xBB80..0xBBA8);
        assert_eq!(marked(&map), due, "counter {counter}");
    }
    println!("profile {profile}, a flashing character: 4 paintings compared");
}

#[test]
fn a_hidden_character_left_unmarked() {
    in_each_profile(hide_a_character);
}

fn mark_figures(profile: u8) {
    let line = |bytes: &[(usize, u8)], mode, line| {
        let memory = with_bytes(profile, bytes);
        marked_by_line(&memory, state_in(profile, mode), line)
    };
    let due = |used, screen| reached_with(profile, used, screen..screen + COLUMNS);
    assert_eq!(line(&[(0xBB80, 65)], TEXT, 3), due(0xB60B, 0xBB80));
    let double = [(0xBB80, 0x0A), (0xBB81, 65)];
    assert_eq!(line(&double, TEXT, 3), due(0xB609, 0xBB80));
    let double = [(0xBBA8, 0x0A), (0xBBA9, 65)];
    assert_eq!(line(&double, TEXT, 11), due(0xB60D, 0xBBA8));
    let alternate = [(0xBF68, 0x09), (0xBF69, 32)];
    assert_eq!(line(&alternate, HIRES, 200), due(0x9D00, 0xBF68));
    let text_from_column_6 = reached(profile, (0xA000..0xA006).chain(0xBB86..0xBBA8));
    assert_eq!(line(&[(0xA005, 0x1A)], HIRES, 0), text_from_column_6);
    println!("profile {profile}, bench figures: 5 paintings compared");
}

#[test]
fn a_bench_figure_marked_elsewhere() {
    in_each_profile(mark_figures);
}

#[test]
fn a_bit_counted_from_the_other_end() {
    for (profile, screen, definition) in [(0, 0x1770, 0x16C1), (1, 0x0770, 0x06C1)] {
        let memory = with_bytes(profile, &[(0xBB80, 65)]);
        for line in 0..8 {
            let (mut output, mut map) = ([0; LINE_LENGTH], [0; MAP_LENGTH]);
            let state = state_in(profile, TEXT);
            paint_line_mapped(&memory, state, line, &mut output, &mut map).unwrap();
            let mut due = [0; MAP_LENGTH];
            due[screen..screen + 5].fill(0xFF);
            due[definition] = [0x01, 0x02, 0x04, 0x08, 0x10, 0x20, 0x40, 0x80][line];
            assert_same_marks(&format!("profile {profile}, line {line}"), &map, &due);
        }
    }
    println!("bits: 16 paintings compared");
}

fn gather_all(profile: u8) {
    let (mut frame, mut map) = (vec![0; FRAME_LENGTH], [0; MAP_LENGTH]);
    let mut frames = 0;
    for kind in Kind::ALL {
        for (seed, state) in start_states(profile).enumerate() {
            let memory = images::image(profile, kind, 7_700_000 + seed as u64);
            paint_frame_mapped(&memory, state, &mut frame, &mut map).unwrap();
            frames += 1;
        }
    }
    // Codes are 20 to 7F, so the first 256 bytes of a set are out of reach.
    let due = reached(profile, (0x9900..0x9C00).chain(0x9D00..0xBFE0));
    assert_eq!(marked(&map), due);
    assert_eq!(due.len(), 9696);
    println!("profile {profile}, all that can be used: 9696 addresses marked by {frames} frames");
}

#[test]
fn a_mark_out_of_reach_or_never_set() {
    in_each_profile(gather_all);
}

#[test]
fn a_16k_machine_that_touches_its_map_from_2048_on() {
    let mut frame = vec![0; FRAME_LENGTH];
    let mut paintings = 0;
    for kind in Kind::ALL {
        for (seed, state) in start_states(PROFILE_16K).enumerate() {
            let memory = images::image(PROFILE_16K, kind, 7_800_000 + seed as u64);
            for before in lent_maps(seed as u64) {
                let mut map = before.clone();
                paint_frame_mapped(&memory, state, &mut frame, &mut map).unwrap();
                assert!(map[2048..] == before[2048..], "{kind:?} image {seed}");
                let output = &mut frame[..LINE_LENGTH];
                paint_line_mapped(&memory, state, seed, output, &mut map).unwrap();
                assert!(map[2048..] == before[2048..], "line {seed} of {kind:?}");
                paintings += 2;
            }
        }
    }
    println!("maps of the 16K machine: {paintings} paintings compared");
}
