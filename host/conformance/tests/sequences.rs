//! Frames one after another, the state handed on, the memory changed over the bus between them.

use tropfenpfad::paint_frame;
use tropfenpfad_conformance::accesses::{Form, Step, TwoBuses};
use tropfenpfad_conformance::buffers::assert_same_bytes;
use tropfenpfad_conformance::calls;
use tropfenpfad_conformance::images::{self, fill, Kind};
use tropfenpfad_conformance::inputs::{
    all_states, fresh_of_profile, image_length, in_each_profile, random_latches, MODES,
};
use tropfenpfad_conformance::model::{Bus, Video};
use tropfenpfad_conformance::random::Xorshift;
use tropfenpfad_sys::{State, FRAME_LENGTH};

/// Frames in each run.
const FRAMES: usize = 500;
/// The address of the last screen byte of a frame, where text and hires lie on each other.
const LAST_SCREEN_BYTE: u16 = 0xBFDF;
const HIRES_50_HZ: u8 = 0x1E;
const TEXT_50_HZ: u8 = 0x1A;

/// One machine seen twice: by the library and by the model.
struct Run {
    video_model: Video,
    bus_model: Bus,
    buses: TwoBuses,
    state: State,
    frames: [Vec<u8>; 2],
}

impl Run {
    fn new(profile: u8, kind: Kind, generator: &mut Xorshift) -> Self {
        let memory = images::image(profile, kind, 5);
        Run {
            video_model: Video::new(),
            bus_model: Bus::new(),
            buses: TwoBuses::new(memory, random_latches(profile, generator)),
            state: fresh_of_profile(profile),
            frames: [vec![0; FRAME_LENGTH], vec![0; FRAME_LENGTH]],
        }
    }

    /// Paints the next frame on both sides; the frames keep what the last one left.
    fn frame(&mut self, number: usize) {
        let [first, second] = &mut self.frames;
        let library = calls::paint_frame(&self.buses.memories[0], self.state, first);
        let model = self
            .video_model
            .paint_frame(&self.buses.memories[1], self.state, second);
        assert_eq!(library, model, "frame {number} from {:?}", self.state);
        assert_eq!(library.status, 0, "frame {number}");
        assert_same_bytes(&format!("frame {number}"), first, second);
        self.state = library.state;
    }

    fn accesses(&mut self, generator: &mut Xorshift, count: usize) {
        for _ in 0..count {
            let step = Step::random(self.state.profile, generator);
            self.buses.access(&self.bus_model, step);
        }
    }

    /// Has the next frame end in this mode.
    fn write_last_mode(&mut self, mode: u8) {
        let step = Step {
            form: Form::Write,
            profile: self.state.profile,
            address: LAST_SCREEN_BYTE,
            byte: 0x18 | mode,
            brings: Some(calls::fresh_latches()),
        };
        self.buses.access(&self.bus_model, step);
    }
}

fn compare_runs(profile: u8) {
    let mut generator = Xorshift::new(1);
    let (mut paintings, mut accesses, mut refused, mut stores) = (0, 0, 0, 0);
    let mut modes = [0; 8];
    for kind in Kind::ALL {
        let mut run = Run::new(profile, kind, &mut generator);
        for number in 0..FRAMES {
            if number % 32 == 0 {
                run.write_last_mode((number / 32) as u8 % MODES);
            }
            modes[usize::from(run.state.mode)] += 1;
            run.frame(number);
            let count = generator.below(64);
            run.accesses(&mut generator, count);
            run.buses.compare_memories();
        }
        assert_eq!(usize::from(run.state.counter), FRAMES % 32);
        paintings += FRAMES;
        accesses += run.buses.accesses;
        refused += run.buses.refused;
        stores += run.buses.stores;
    }
    println!(
        "profile {profile}, runs: {paintings} paintings and {accesses} accesses compared \
         ({stores} stores, {refused} refused); frames by start mode {modes:?}"
    );
    assert!(
        modes.iter().all(|&frames| frames > 0),
        "every mode starts a frame"
    );
}

#[test]
fn a_run_of_frames_that_drifts() {
    in_each_profile(compare_runs);
}

/// A text screen of full blocks that the very last cell of the frame leaves in hires, over a
/// hires screen of single pixels.
fn image_that_ends_in_hires(profile: u8) -> Vec<u8> {
    let mut memory = vec![0; image_length(profile)];
    fill(&mut memory, 0xA000..0xBF40, 0x60);
    fill(&mut memory, 0xB400..0xBC00, 0x3F);
    fill(&mut memory, 0xBB80..0xBFE0, 0x41);
    memory[screen_byte(profile)] = HIRES_50_HZ;
    memory
}

/// Where the last screen byte of a frame stands in the memory.
fn screen_byte(profile: u8) -> usize {
    usize::from(LAST_SCREEN_BYTE) % image_length(profile)
}

fn carry_the_mode_over(profile: u8) {
    let memory = image_that_ends_in_hires(profile);
    let fresh_state = fresh_of_profile(profile);
    let mut frame = vec![0; FRAME_LENGTH];
    let first = paint_frame(&memory, fresh_state, &mut frame).unwrap();
    let after = State {
        mode: 6,
        counter: 1,
        profile,
    };
    assert_eq!(first.state, after);
    let text = frame.clone();

    let second = paint_frame(&memory, first.state, &mut frame).unwrap();
    assert_eq!(second.state.mode, 6);
    assert_ne!(second.character, first.character);
    let hires = frame.clone();
    // The first line: six pixels of ink in a text cell, one in a hires cell's high bit.
    assert_eq!(text[..6], [7, 7, 7, 7, 7, 7]);
    assert_eq!(hires[..6], [7, 0, 0, 0, 0, 0]);

    let fresh = paint_frame(&memory, fresh_state, &mut frame).unwrap();
    assert_eq!(
        (fresh.screen, fresh.character),
        (first.screen, first.character)
    );
    assert_eq!(frame, text);
    assert_ne!(frame, hires, "from the fresh state it has other pixels");

    let model = Video::new();
    let expected = model.paint_frame(&memory, first.state, &mut frame);
    assert_eq!(
        (expected.state, expected.character),
        (second.state, second.character)
    );
    assert_same_bytes("the second frame", &hires, &frame);
    println!("profile {profile}, mode carried over: 4 paintings compared");
}

#[test]
fn frame_begins_in_the_mode_the_last_one_left() {
    in_each_profile(carry_the_mode_over);
}

fn leave_every_mode(profile: u8) {
    let model = Video::new();
    let mut memory = images::image(profile, Kind::Text, 6);
    let mut frames = [vec![0; FRAME_LENGTH], vec![0; FRAME_LENGTH]];
    let mut paintings = 0;
    for start in all_states(profile) {
        for mode in 0..MODES {
            memory[screen_byte(profile)] = 0x18 | mode;
            let mut state = start;
            for what in ["the frame", "the frame after"] {
                let [first, second] = &mut frames;
                let library = calls::paint_frame(&memory, state, first);
                let other = model.paint_frame(&memory, state, second);
                assert_eq!(library, other);
                assert_same_bytes(what, first, second);
                assert_eq!(library.state.mode, mode);
                state = library.state;
                paintings += 1;
            }
        }
    }
    println!("profile {profile}, modes left and taken up: {paintings} paintings compared");
}

#[test]
fn every_mode_a_frame_can_leave_begins_the_next() {
    in_each_profile(leave_every_mode);
}

fn write_modes(profile: u8) {
    let mut memory = image_that_ends_in_hires(profile);
    let mut frame = vec![0; FRAME_LENGTH];
    let mut state = fresh_of_profile(profile);
    let mut latches = tropfenpfad::fresh_latches();
    let mut modes = Vec::new();
    for byte in [TEXT_50_HZ, HIRES_50_HZ, HIRES_50_HZ, TEXT_50_HZ] {
        let (memory, last) = (&mut memory, LAST_SCREEN_BYTE);
        tropfenpfad::write_in_place(memory, profile, &mut latches, last, byte).unwrap();
        state = paint_frame(memory, state, &mut frame).unwrap().state;
        modes.push((state.mode, frame[1]));
    }
    // Each frame shows the mode that the one before ended in: ink at x = 1 is text.
    assert_eq!(modes, [(2, 7), (6, 7), (6, 0), (2, 0)]);
    println!(
        "profile {profile}, modes written between frames: 4 paintings and 4 accesses compared"
    );
}

#[test]
fn a_mode_written_over_the_bus_that_comes_late() {
    in_each_profile(write_modes);
}

fn count_flash_phases(profile: u8) {
    let mut memory = vec![0x0C; image_length(profile)];
    fill(&mut memory, 0xB400..0xBB80, 0x3F);
    fill(&mut memory, 0xBB81..0xBB82, 0x41);
    let mut frame = vec![0; FRAME_LENGTH];
    let mut state = fresh_of_profile(profile);
    for number in 0..320 {
        assert_eq!(usize::from(state.counter), number % 32);
        state = paint_frame(&memory, state, &mut frame).unwrap().state;
        let shown = if number % 32 < 16 { 7 } else { 0 };
        assert_eq!(frame[6..12], [shown; 6], "frame {number}");
    }
    println!("profile {profile}, flash: 320 paintings compared");
}

#[test]
fn a_flash_phase_that_slips() {
    in_each_profile(count_flash_phases);
}
