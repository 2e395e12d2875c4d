//! The 16K machine: its one block of RAM stands in each 16K block below C000, for video and bus
//! alike, and nothing else is mirrored. Each test is named after a machine that this one is not.

use tropfenpfad::{
    decode, fresh_latches, paint_frame, paint_frame_mapped, paint_line, read, screen_address,
    write, Painting, Place, Target,
};
use tropfenpfad_conformance::buffers::assert_same_bytes;
use tropfenpfad_conformance::images::{self, Kind, VIDEO_BLOCK};
use tropfenpfad_conformance::inputs::{
    fresh_of_profile, in_each_profile, random_bytes, start_states,
};
use tropfenpfad_conformance::maps::assert_same_marks;
use tropfenpfad_conformance::random::Xorshift;
use tropfenpfad_sys::{
    State, COLUMNS, FRAME_LENGTH, IMAGE_LENGTH, IMAGE_LENGTH_16K, LINES, LINE_LENGTH, MAP_LENGTH,
    PROFILE_16K, PROFILE_48K,
};

const TEXT: u8 = 2;
const HIRES: u8 = 6;

/// The addresses that a byte of the 16K machine's RAM has, page 3 left out.
fn mirrors(number: u16) -> impl Iterator<Item = u16> {
    let addresses = [0x0000, 0x4000, 0x8000].map(|start| start + number);
    addresses.into_iter().filter(|address| address >> 8 != 3)
}

/// Writes a byte to the 16K machine.
#[track_caller]
fn write_16k(memory: &mut [u8], address: u16, byte: u8) -> Place {
    let answer = write(memory, PROFILE_16K, fresh_latches(), address, byte);
    let (place, latches) = answer.unwrap();
    assert_eq!(latches, fresh_latches());
    place
}

/// Reads a byte from the 16K machine.
#[track_caller]
fn read_16k(memory: &[u8], address: u16) -> (Place, u8) {
    read(memory, PROFILE_16K, fresh_latches(), address).unwrap()
}

fn ram(number: u16) -> Place {
    Place {
        target: Target::Ram,
        number,
    }
}

#[test]
fn ram_mirrored_in_blocks_of_32k() {
    let mut memory = images::image(PROFILE_16K, Kind::Random, 1);
    let mut due = memory.clone();
    let (mut decodes, mut accesses) = (0, 0);
    for number in 0..0x4000 {
        for address in mirrors(number) {
            let byte = !memory[usize::from(number)];
            let place = decode(PROFILE_16K, fresh_latches(), address);
            assert_eq!(place, Ok(ram(number)), "{address:04x}");
            assert_eq!(write_16k(&mut memory, address, byte), ram(number));
            due[usize::from(number)] = byte;
            for other in mirrors(number) {
                let given = read_16k(&memory, other);
                assert_eq!(given, (ram(number), byte), "{address:04x} and {other:04x}");
                accesses += 1;
            }
            decodes += 1;
            accesses += 1;
        }
        assert!(memory == due, "after writes at the mirrors of {number:04x}");
    }
    println!("mirrors: {decodes} decodes and {accesses} accesses compared");
}

#[test]
fn page_3_decoded_after_folding() {
    let mut memory = images::image(PROFILE_16K, Kind::Random, 2);
    let mut accesses = 0;
    for number in 0x0300..=0x03FF {
        let via = Place {
            target: Target::Via,
            number: number % 16,
        };
        for address in mirrors(number) {
            let byte = !memory[usize::from(number)];
            assert_eq!(write_16k(&mut memory, address, byte), ram(number));
            let untouched = memory.clone();
            assert_eq!(untouched[usize::from(number)], byte, "{address:04x}");
            assert_eq!(write_16k(&mut memory, number, !byte), via);
            assert!(memory == untouched, "behind page 3, {number:04x}");
            assert_eq!(read_16k(&memory, number), (via, 0));
            for other in mirrors(number) {
                assert_eq!(read_16k(&memory, other), (ram(number), byte));
                accesses += 1;
            }
            accesses += 3;
        }
    }
    println!("page 3 and its mirrors: {accesses} accesses compared");
}

#[test]
fn rom_mirrored_or_ram_under_it() {
    let untouched = images::image(PROFILE_16K, Kind::Random, 3);
    let mut memory = untouched.clone();
    let mut accesses = 0;
    for address in 0xC000..=0xFFFF {
        let rom = Place {
            target: Target::BasicRom,
            number: address - 0xC000,
        };
        let byte = !untouched[usize::from(rom.number)];
        assert_eq!(decode(PROFILE_16K, fresh_latches(), address), Ok(rom));
        assert_eq!(write_16k(&mut memory, address, byte), rom);
        assert_eq!(read_16k(&memory, address), (rom, 0));
        accesses += 2;
    }
    assert!(memory == untouched);
    println!("ROM: {accesses} accesses compared");
}

/// Paints a line of the 16K machine.
fn line_16k(memory: &[u8], mode: u8, line: usize) -> [u8; LINE_LENGTH] {
    let state = State {
        mode,
        ..fresh_of_profile(PROFILE_16K)
    };
    let mut output = [0; LINE_LENGTH];
    paint_line(memory, state, line, &mut output).unwrap();
    output
}

/// A black line but for one white cell.
fn white_at(column: usize) -> [u8; LINE_LENGTH] {
    let mut line = [0; LINE_LENGTH];
    line[6 * column..6 * column + 6].fill(7);
    line
}

#[test]
fn video_folded_and_bus_not() {
    // An attribute with bit 7 is a white cell where all others are black.
    const WHITE: u8 = 0x80;
    let place = |line, column, mode| screen_address(PROFILE_16K, line, column, mode).unwrap();
    assert!(mirrors(place(0, 0, TEXT)).eq([0x3B80, 0x7B80, 0xBB80]));
    let mut memory = vec![0; IMAGE_LENGTH_16K];
    let mut paintings = 0;
    for mode in [TEXT, HIRES] {
        for line in 0..LINES {
            for column in 0..COLUMNS {
                let number = place(line, column, mode);
                for address in mirrors(number) {
                    write_16k(&mut memory, address, WHITE);
                    let shown = line_16k(&memory, mode, line);
                    assert_eq!(shown, white_at(column), "{address:04x} on line {line}");
                    write_16k(&mut memory, number, 0);
                    paintings += 1;
                }
            }
        }
    }
    println!("screen bytes: {paintings} paintings compared, every cell at its three addresses");
}

#[test]
fn screen_folded_and_character_sets_not() {
    let mut memory = vec![0; IMAGE_LENGTH_16K];
    let mut paintings = 0;
    for (mode, set) in [(TEXT, 0xB400), (HIRES, 0x9800)] {
        for (code, alternate) in (32..128).flat_map(|code| [(code, 0), (code, 1)]) {
            // The bottom row of the screen, which no definition lies in.
            for line in 216..LINES {
                let screen = screen_address(PROFILE_16K, line, 0, mode).unwrap();
                write_16k(&mut memory, screen, 0x08 | alternate);
                write_16k(&mut memory, screen + 1, code);
                let row = line as u16 % 8;
                let definition = set + 0x400 * u16::from(alternate) + 8 * u16::from(code) + row;
                let number = definition % 0x4000;
                for address in mirrors(number) {
                    write_16k(&mut memory, address, 0x3F);
                    let shown = line_16k(&memory, mode, line);
                    assert_eq!(shown, white_at(1), "{address:04x} on line {line}");
                    write_16k(&mut memory, number, 0);
                    paintings += 1;
                }
            }
        }
    }
    println!("definitions: {paintings} paintings compared, every one at its three addresses");
}

/// A 16K machine, and a 48K machine with the same bytes from 8000 to BFFF.
struct Machines {
    small: Vec<u8>,
    large: Vec<u8>,
    frames: [Vec<u8>; 2],
    lines: [[u8; LINE_LENGTH]; 2],
}

impl Machines {
    /// An image for the one; in all other places of the other, random bytes.
    fn new(kind: Kind, seed: u64) -> Self {
        let small = images::image(PROFILE_16K, kind, seed);
        let mut large = random_bytes(seed, IMAGE_LENGTH);
        large[VIDEO_BLOCK].copy_from_slice(&small);
        Machines {
            small,
            large,
            frames: [vec![0xA5; FRAME_LENGTH], vec![0x5A; FRAME_LENGTH]],
            lines: [[0xA5; LINE_LENGTH], [0x5A; LINE_LENGTH]],
        }
    }

    /// Paints a frame of both and compares; gives the state that the 16K machine's leaves.
    #[track_caller]
    fn frame(&mut self, state: State) -> State {
        let [first, second] = &mut self.frames;
        let small = paint_frame(&self.small, state, first).unwrap();
        let large = paint_frame(&self.large, in_48k(state), second).unwrap();
        assert_same_bytes("the frames", first, second);
        same_painting(small, large)
    }

    /// Paints a line of both and compares; gives the state that the 16K machine's leaves.
    #[track_caller]
    fn line(&mut self, state: State, line: usize) -> State {
        let [first, second] = &mut self.lines;
        let small = paint_line(&self.small, state, line, first).unwrap();
        let large = paint_line(&self.large, in_48k(state), line, second).unwrap();
        assert_same_bytes("the lines", first, second);
        same_painting(small, large)
    }

    /// Writes a byte at a RAM address of the 16K machine, and where the other has it.
    #[track_caller]
    fn write(&mut self, address: u16, byte: u8) {
        let number = address % 0x4000;
        assert_eq!(write_16k(&mut self.small, address, byte), ram(number));
        let (latches, there) = (fresh_latches(), 0x8000 + number);
        let answer = write(&mut self.large, PROFILE_48K, latches, there, byte);
        assert_eq!(answer, Ok((ram(there), latches)));
    }
}

fn in_48k(state: State) -> State {
    State {
        profile: PROFILE_48K,
        ..state
    }
}

/// Compares all that two paintings give but for the profile; gives the first one's state.
#[track_caller]
fn same_painting(small: Painting, large: Painting) -> State {
    assert_eq!(in_48k(small.state), large.state);
    assert_eq!(
        (small.screen, small.character),
        (large.screen, large.character)
    );
    small.state
}

#[test]
fn a_picture_that_is_not_that_of_8000_to_bfff() {
    let (mut frames, mut lines) = (0, 0);
    for kind in Kind::ALL {
        for (index, state) in (0..).zip(start_states(PROFILE_16K)) {
            for seed in 0..4 {
                let mut machines = Machines::new(kind, 5_000_000 + 4 * index + seed);
                machines.frame(state);
                frames += 1;
            }
            let mut machines = Machines::new(kind, 6_000_000 + index);
            for line in 0..LINES {
                machines.line(state, line);
                lines += 1;
            }
        }
    }
    println!("the block from 8000: {frames} frames and {lines} lines compared");
}

#[test]
fn a_map_that_is_not_that_of_8000_to_bfff() {
    let mut frames = 0;
    for kind in Kind::ALL {
        for (index, state) in (0..).zip(start_states(PROFILE_16K)) {
            let mut machines = Machines::new(kind, 8_000_000 + index);
            let [first, second] = &mut machines.frames;
            let [mut small, mut large] = [[0; MAP_LENGTH]; 2];
            paint_frame_mapped(&machines.small, state, first, &mut small).unwrap();
            paint_frame_mapped(&machines.large, in_48k(state), second, &mut large).unwrap();
            // The bits of 8000 on are those of 0000 on.
            small.rotate_right(VIDEO_BLOCK.start / 8);
            assert_same_marks(&format!("{kind:?} image from {state:?}"), &small, &large);
            frames += 1;
        }
    }
    println!("maps of the block from 8000: {frames} frames compared");
}

#[test]
fn a_run_that_is_not_that_of_8000_to_bfff() {
    let mut generator = Xorshift::new(7);
    let (mut frames, mut accesses) = (0, 0);
    for kind in Kind::ALL {
        let mut machines = Machines::new(kind, 7);
        let mut state = fresh_of_profile(PROFILE_16K);
        for _ in 0..200 {
            state = machines.frame(state);
            frames += 1;
            for _ in 0..generator.below(64) {
                let number = generator.below(0x4000) as u16;
                let addresses: Vec<u16> = mirrors(number).collect();
                machines.write(generator.pick(&addresses), generator.byte());
                accesses += 1;
            }
        }
        assert_same_bytes("the RAM", &machines.small, &machines.large[VIDEO_BLOCK]);
    }
    println!("runs of the block from 8000: {frames} frames and {accesses} accesses compared");
}

/// Hands the state from frame to frame and from line to line.
fn keep_the_profile(profile: u8) {
    let memory = images::image(profile, Kind::Modes, 8);
    let mut frame = vec![0; FRAME_LENGTH];
    let mut state = fresh_of_profile(profile);
    for _ in 0..64 {
        state = paint_frame(&memory, state, &mut frame).unwrap().state;
        assert_eq!(state.profile, profile);
    }
    for line in 0..LINES {
        let output = &mut frame[..LINE_LENGTH];
        state = paint_line(&memory, state, line, output).unwrap().state;
        assert_eq!(state.profile, profile);
    }
    println!("profile {profile}, kept: 64 frames and {LINES} lines compared");
}

#[test]
fn an_end_state_of_profile_0_always() {
    in_each_profile(keep_the_profile);
}
