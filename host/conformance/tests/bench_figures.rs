//! The bench figures of the rules, asked of the library.

use tropfenpfad::{
    decode, fresh_latches, fresh_state, paint_frame, paint_line, screen_address, Latches, Refusal,
    State, Target, FRAME_LENGTH, KIND_MICRODISC, LINE_LENGTH, PROFILE_16K, PROFILE_48K,
};
use tropfenpfad_conformance::images;

const TEXT: u8 = 2;
const HIRES: u8 = 6;

/// An image of the 48K machine: zeros but for some bytes.
fn memory_with(bytes: &[(usize, u8)]) -> Vec<u8> {
    images::with_bytes(PROFILE_48K, bytes)
}

/// The six pixels of a cell.
fn cell(memory: &[u8], state: State, line: usize, column: usize) -> [u8; 6] {
    let mut output = [0; LINE_LENGTH];
    paint_line(memory, state, line, &mut output).unwrap();
    output[6 * column..6 * column + 6].try_into().unwrap()
}

/// A state of the 48K machine.
fn state(mode: u8, counter: u8) -> State {
    State {
        mode,
        counter,
        profile: PROFILE_48K,
    }
}

#[test]
fn a_screen_address_off() {
    let figures = [
        (0, 0, TEXT, 0xBB80),
        (223, 39, TEXT, 0xBFDF),
        (199, 39, HIRES, 0xBF3F),
        (200, 0, HIRES, 0xBF68),
    ];
    for (line, column, mode, address) in figures {
        let given = screen_address(PROFILE_48K, line, column, mode);
        assert_eq!(given, Ok(address));
        let given = screen_address(PROFILE_16K, line, column, mode);
        assert_eq!(given, Ok(address - 0x8000), "BB80 is 3B80");
    }
    println!("screen addresses: 4 figures compared in both profiles");
}

#[test]
fn a_character_row_off() {
    // Only the byte that the figure names has a pattern.
    let shown = |screen: &[(usize, u8)], mode, line, column, used: usize| {
        let mut bytes = screen.to_vec();
        bytes.push((used, 0x3F));
        cell(&memory_with(&bytes), state(mode, 0), line, column)
    };
    let ink = [7; 6];
    assert_eq!(shown(&[(0xBB80, 65)], TEXT, 3, 0, 0xB60B), ink);
    let double = [(0xBB80, 0x0A), (0xBB81, 65)];
    assert_eq!(shown(&double, TEXT, 3, 1, 0xB609), ink);
    let double = [(0xBBA8, 0x0A), (0xBBA9, 65)];
    assert_eq!(shown(&double, TEXT, 11, 1, 0xB60D), ink);
    let alternate = [(0xBF68, 0x09), (0xBF69, 32)];
    assert_eq!(shown(&alternate, HIRES, 200, 1, 0x9D00), ink);
    println!("character rows: 4 paintings compared");
}

#[test]
fn a_first_byte_painted_otherwise() {
    let text = |byte| cell(&memory_with(&[(0xBB80, byte)]), state(TEXT, 0), 0, 0);
    assert_eq!(text(0x11), [1; 6]);
    assert_eq!(text(0x91), [6; 6]);
    let hires = |byte| cell(&memory_with(&[(0xA000, byte)]), state(HIRES, 0), 0, 0);
    assert_eq!(hires(0x11), [1; 6]);
    assert_eq!(hires(0x91), [6; 6]);
    assert_eq!(hires(0x61), [7, 0, 0, 0, 0, 7]);
    assert_eq!(hires(0xE1), [0, 7, 7, 7, 7, 0]);
    assert_eq!(hires(0x20), [7, 0, 0, 0, 0, 0]);
    println!("first bytes: 7 paintings compared");
}

#[test]
fn a_flash_phase_off() {
    let second = |byte, counter| {
        let memory = memory_with(&[(0xA000, 0x0C), (0xA001, byte)]);
        cell(&memory, state(HIRES, counter), 0, 1)
    };
    assert_eq!(second(0x7F, 15), [7; 6]);
    assert_eq!(second(0x7F, 16), [0; 6]);
    assert_eq!(second(0xFF, 16), [7; 6]);
    println!("flash: 3 paintings compared");
}

#[test]
fn a_new_mode_that_waits_for_the_next_line() {
    let memory = memory_with(&[(0xA005, 0x1A), (0xBB86, 0x13), (0xA006, 0x14)]);
    assert_eq!(cell(&memory, state(HIRES, 0), 0, 6), [3; 6]);
    let mut output = [0; LINE_LENGTH];
    let painting = paint_line(&memory, state(HIRES, 0), 0, &mut output).unwrap();
    assert_eq!(painting.state.mode, 2);
    println!("new mode: 2 paintings compared");
}

#[test]
fn a_microdisc_latch_that_selects_otherwise() {
    let reached = |first, address| {
        let latches = Latches {
            kind: KIND_MICRODISC,
            first,
            second: 0,
        };
        let place = decode(PROFILE_48K, latches, address).unwrap();
        (place.target, place.number)
    };
    assert_eq!(reached(0xFD, 0xC000), (Target::OverlayRam, 0xC000));
    assert_eq!(reached(0x00, 0xC000), (Target::OverlayRam, 0xC000));
    assert_eq!(reached(0x00, 0xE000), (Target::BootEprom, 0));
    assert_eq!(reached(0x02, 0xC000), (Target::BasicRom, 0));
    println!("Microdisc latch: 4 decodes compared");
}

#[test]
fn a_16k_machine_without_ram_at_4300() {
    let place = decode(PROFILE_16K, fresh_latches(), 0x4300).unwrap();
    assert_eq!((place.target, place.number), (Target::Ram, 0x0300));
    let place = decode(PROFILE_16K, fresh_latches(), 0x0300).unwrap();
    assert_eq!((place.target, place.number), (Target::Via, 0));
    println!("the 16K machine: 2 decodes compared");
}

#[test]
fn a_limit_off() {
    let memory = memory_with(&[]);
    let mut line = [0; LINE_LENGTH];
    let mut frame = vec![0; FRAME_LENGTH];
    assert!(paint_line(&memory, fresh_state(), 223, &mut line).is_ok());
    let past = paint_line(&memory, fresh_state(), 224, &mut line);
    assert_eq!(past, Err(Refusal::Line));
    let last = paint_frame(&memory, state(TEXT, 31), &mut frame).unwrap();
    assert_eq!(last.state.counter, 0);
    let past = paint_frame(&memory, state(TEXT, 32), &mut frame);
    assert_eq!(past, Err(Refusal::Counter));
    let lengths = [
        (0, 0, Err(Refusal::Memory)),
        (0, 65_535, Err(Refusal::Memory)),
        (0, 65_537, Err(Refusal::Memory)),
        (0, 16_384, Err(Refusal::Memory)),
        (1, 0, Err(Refusal::Memory)),
        (1, 16_383, Err(Refusal::Memory)),
        (1, 16_384, Ok(())),
        (1, 16_385, Err(Refusal::Memory)),
        (1, 65_536, Err(Refusal::Memory)),
        (2, 65_536, Err(Refusal::Profile)),
    ];
    for (profile, length, expected) in lengths {
        let state = State {
            profile,
            ..fresh_state()
        };
        let given = paint_frame(&vec![0; length], state, &mut frame).map(|_| ());
        assert_eq!(given, expected, "profile {profile}, {length} bytes");
    }
    println!("limits: 3 paintings and 11 bad inputs compared");
}

#[test]
fn a_zero_image_that_is_not_black() {
    let mut frame = vec![0xFF; FRAME_LENGTH];
    let painting = paint_frame(&memory_with(&[]), fresh_state(), &mut frame).unwrap();
    assert_eq!(painting.state, state(2, 1));
    assert_eq!((painting.screen, painting.character), (8960, 0));
    assert!(frame.iter().all(|&pixel| pixel == 0));
    println!("zero image: 1 painting compared");
}
