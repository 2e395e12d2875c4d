//! The library's painter against the models: every pixel, the state and both counts.

use tropfenpfad_conformance::buffers::assert_same_bytes;
use tropfenpfad_conformance::calls;
use tropfenpfad_conformance::images::{self, Kind};
use tropfenpfad_conformance::inputs::{
    all_states, image_length, in_each_profile, start_states, MODES,
};
use tropfenpfad_conformance::model::{planes, Video};
use tropfenpfad_conformance::random::Xorshift;
use tropfenpfad_sys::{State, COLUMNS, FRAME_LENGTH, LINES, LINE_LENGTH};

/// The painters, each with a frame and a line of its own that hold other bytes before.
struct Bench {
    model: Video,
    frames: [Vec<u8>; 3],
    lines: [[u8; LINE_LENGTH]; 2],
}

impl Bench {
    fn new() -> Self {
        Bench {
            model: Video::new(),
            frames: std::array::from_fn(|_| vec![0; FRAME_LENGTH]),
            lines: [[0; LINE_LENGTH]; 2],
        }
    }

    /// Paints a frame with the library, by tables and by planes, compares all of it, and gives the
    /// state afterwards.
    fn frame(&mut self, what: &str, memory: &[u8], state: State) -> State {
        let [first, second, third] = &mut self.frames;
        first.fill(0xA5);
        second.fill(0x5A);
        third.fill(0x96);
        let library = calls::paint_frame(memory, state, first);
        let tables = self.model.paint_frame(memory, state, second);
        let planes = planes::paint_frame(memory, state, third);
        assert_eq!(library, tables, "{what} from {state:?}, by tables");
        assert_eq!(library, planes, "{what} from {state:?}, by planes");
        assert_eq!(library.status, 0, "{what} from {state:?}");
        assert_same_bytes(&format!("{what}, by tables"), first, second);
        assert_same_bytes(&format!("{what}, by planes"), first, third);
        library.state
    }

    /// Paints a line with the library and by tables, compares all of it, and gives the state afterwards.
    fn line(&mut self, what: &str, memory: &[u8], state: State, line: usize) -> State {
        let [first, second] = &mut self.lines;
        first.fill(0xA5);
        second.fill(0x5A);
        let library = calls::paint_line(memory, state, line, first);
        let model = self.model.paint_line(memory, state, line, second);
        assert_eq!(library, model, "{what}, line {line} from {state:?}");
        assert_eq!(library.status, 0, "{what}, line {line} from {state:?}");
        assert_same_bytes(&format!("{what}, line {line}"), first, second);
        library.state
    }
}

fn compare_lines(profile: u8) {
    let mut bench = Bench::new();
    let mut paintings = 0;
    for kind in Kind::ALL {
        for seed in 0..4 {
            let memory = images::image(profile, kind, 1_000_000 + seed);
            for line in 0..LINES {
                for state in start_states(profile) {
                    bench.line(&format!("{kind:?} image {seed}"), &memory, state, line);
                    paintings += 1;
                }
            }
        }
    }
    println!(
        "profile {profile}, lines: {paintings} paintings compared, every line, mode and phase"
    );
}

#[test]
fn a_line_painted_otherwise() {
    in_each_profile(compare_lines);
}

fn compare_states(profile: u8) {
    let mut bench = Bench::new();
    let mut paintings = 0;
    for kind in Kind::ALL {
        let memory = images::image(profile, kind, 2_000_000);
        for state in all_states(profile) {
            let after = bench.frame(&format!("{kind:?} image"), &memory, state);
            assert_eq!(after.counter, (state.counter + 1) % 32);
            for line in [0, 199, 200, 223] {
                let after = bench.line(&format!("{kind:?} image"), &memory, state, line);
                assert_eq!(after.counter, state.counter);
                paintings += 1;
            }
            paintings += 1;
        }
    }
    println!("profile {profile}, states: {paintings} paintings compared, all 256 states");
}

#[test]
fn a_mode_or_counter_taken_otherwise() {
    in_each_profile(compare_states);
}

fn compare_frames_with_lines(profile: u8) {
    let mut bench = Bench::new();
    let mut paintings = 0;
    for kind in Kind::ALL {
        for (seed, state) in start_states(profile).enumerate() {
            let memory = images::image(profile, kind, 3_000_000 + seed as u64);
            let after = bench.frame(&format!("{kind:?} image {seed}"), &memory, state);
            let mut reached = state;
            for line in 0..LINES {
                reached = bench.line(&format!("{kind:?} image {seed}"), &memory, reached, line);
                let place = LINE_LENGTH * line;
                let there = &bench.frames[0][place..place + LINE_LENGTH];
                assert_same_bytes("the line in its frame", &bench.lines[0], there);
                paintings += 1;
            }
            assert_eq!(reached.mode, after.mode);
            paintings += 1;
        }
    }
    println!("profile {profile}, frames against their lines: {paintings} paintings compared");
}

#[test]
fn a_frame_that_is_not_its_lines() {
    in_each_profile(compare_frames_with_lines);
}

fn compare_screen_addresses(profile: u8) {
    let model = Video::new();
    let mut addresses = 0;
    for line in 0..LINES {
        for column in 0..COLUMNS {
            for mode in 0..MODES {
                let library = calls::screen_address(profile, line, column, mode);
                let model = model.screen_address(profile, line, column, mode);
                assert_eq!(library, model, "line {line}, column {column}, mode {mode}");
                addresses += 1;
            }
        }
    }
    println!("profile {profile}, screen addresses: {addresses} compared");
}

#[test]
fn a_screen_address_given_otherwise() {
    in_each_profile(compare_screen_addresses);
}

fn change_unread_bytes(profile: u8) {
    let mut bench = Bench::new();
    let mut generator = Xorshift::new(4);
    let [first, past] = [0x9800, 0xBFE0].map(|address| address % image_length(profile));
    let mut paintings = 0;
    for kind in Kind::ALL {
        for (seed, state) in start_states(profile).enumerate() {
            let mut memory = images::image(profile, kind, 4_000_000 + seed as u64);
            let after = bench.frame(&format!("{kind:?} image {seed}"), &memory, state);
            let before = bench.frames[0].clone();
            generator.fill(&mut memory[..first]);
            generator.fill(&mut memory[past..]);
            let again = bench.frame(&format!("{kind:?} image {seed}"), &memory, state);
            assert_eq!(after, again);
            assert_same_bytes("after a change out of reach", &bench.frames[0], &before);
            paintings += 2;
        }
    }
    println!("profile {profile}, unread bytes: {paintings} paintings compared");
}

#[test]
fn a_frame_that_hangs_on_bytes_video_never_reads() {
    in_each_profile(change_unread_bytes);
}

/// What `make check` leaves out.
mod long {
    use std::collections::HashSet;

    use tropfenpfad_conformance::buffers::fingerprint;
    use tropfenpfad_conformance::inputs::COUNTERS;

    use super::*;

    /// Seeds for each kind and each start state.
    const SEEDS: u64 = 80;

    fn compare_frames(profile: u8) {
        let mut bench = Bench::new();
        let mut memory = vec![0; image_length(profile)];
        let mut different = HashSet::new();
        let mut paintings = 0;
        for kind in Kind::ALL {
            for (index, state) in start_states(profile).enumerate() {
                for seed in 0..SEEDS {
                    let seed = index as u64 * SEEDS + seed;
                    images::generate(kind, seed, &mut memory);
                    bench.frame(&format!("{kind:?} image {seed}"), &memory, state);
                    different.insert(fingerprint(&bench.frames[0]));
                    paintings += 1;
                }
            }
        }
        println!(
            "profile {profile}, frames: {paintings} paintings compared, {} different frames, \
             {MODES} modes, counters {COUNTERS:?}",
            different.len(),
        );
        assert!(different.len() >= 20_000, "the images are too much alike");
    }

    #[test]
    fn a_frame_painted_otherwise() {
        in_each_profile(compare_frames);
    }
}
