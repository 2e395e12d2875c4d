//! Every call from C, and the same calls from Rust.

use std::process::Command;

use tropfenpfad_conformance::calls;
use tropfenpfad_conformance::comparisons::Lists;
use tropfenpfad_conformance::inputs::{self, fresh_of_kind};
use tropfenpfad_conformance::slips::FARTHEST;
use tropfenpfad_sys::{
    Access, Cycle, Latches, Painted, State, FRAME_LENGTH, IMAGE_LENGTH, IMAGE_LENGTH_16K,
    KIND_JASMIN, KIND_MICRODISC, KIND_NONE, LINE_LENGTH, LISTED_CELLS, LONGEST_TRACE, MAP_LENGTH,
    PROFILE_16K, PROFILE_48K,
};

use crate::cc::{build, succeed};
use crate::names::EVERY_CALL;

#[test]
fn a_call_from_c_that_answers_otherwise() {
    let program = build(EVERY_CALL, "every_call");
    let printed = succeed(&mut Command::new(program)).stdout;
    let mut memory: Vec<u8> = (0..IMAGE_LENGTH).map(|i| (i * 7 + i / 251) as u8).collect();
    let (mut frame, mut map) = (vec![0; FRAME_LENGTH], [0; MAP_LENGTH]);
    let (whole, block) = (IMAGE_LENGTH, IMAGE_LENGTH_16K);
    let expected = [
        fresh(),
        video(&memory[..whole], PROFILE_48K, &mut frame),
        video(&memory[..block], PROFILE_16K, &mut frame),
        video(&memory[..whole], 2, &mut frame),
        video_mapped(&memory[..whole], PROFILE_48K, &mut frame, &mut map),
        video_mapped(&memory[..block], PROFILE_16K, &mut frame, &mut map),
        video_mapped(&memory[..whole], 2, &mut frame, &mut map),
        bus(&mut memory[..whole], PROFILE_48K, KIND_MICRODISC),
        bus(&mut memory[..whole], PROFILE_48K, KIND_JASMIN),
        bus(&mut memory[..block], PROFILE_16K, KIND_NONE),
        bus(&mut memory[..block], PROFILE_16K, KIND_JASMIN),
        trace(&mut memory, whole, PROFILE_48K, KIND_MICRODISC),
        trace(&mut memory, whole, PROFILE_48K, KIND_JASMIN),
        trace(&mut memory, block, PROFILE_16K, KIND_NONE),
        trace(&mut memory, block, PROFILE_16K, KIND_JASMIN),
        comparison(&frame),
        slip(&memory),
    ]
    .concat();
    assert_eq!(String::from_utf8_lossy(&printed), expected);
    println!(
        "calls from C: {} lines of answers compared",
        expected.lines().count()
    );
}

/// A number that tells two lists apart.
fn sum_of<T: Copy + Into<u64>>(list: &[T]) -> u64 {
    list.iter()
        .fold(0, |sum, &number| (sum * 31 + number.into()) % 1_000_003)
}

fn painted(name: &str, answer: Painted, frame: &[u8], map: &[u8]) -> String {
    let [pixels, marks] = [frame, map].map(sum_of);
    let State {
        mode,
        counter,
        profile,
    } = answer.state;
    format!(
        "{name} {} {mode} {counter} {profile} {} {} {pixels} {marks}\n",
        answer.status, answer.screen, answer.character
    )
}

fn fresh() -> String {
    let State {
        mode,
        counter,
        profile,
    } = calls::fresh_state();
    let text = format!("fresh_state {mode} {counter} {profile}\n");
    text + &latches("fresh_latches", calls::fresh_latches())
}

fn video(memory: &[u8], profile: u8, frame: &mut [u8]) -> String {
    let state = State {
        mode: 5,
        counter: 30,
        profile,
    };
    let mut text = String::new();
    for (line, column) in [(199, 39), (0, 40)] {
        let place = calls::screen_address(profile, line, column, 4);
        text += &format!("screen_address {} {}\n", place.status, place.address);
    }
    for line in [100, 224] {
        let answer = calls::paint_line(memory, state, line, &mut frame[..LINE_LENGTH]);
        text += &painted("paint_line", answer, frame, &[]);
    }
    for length in [memory.len(), 7] {
        let answer = calls::paint_frame(&memory[..length], state, frame);
        text += &painted("paint_frame", answer, frame, &[]);
    }
    text
}

fn video_mapped(memory: &[u8], profile: u8, frame: &mut [u8], map: &mut [u8]) -> String {
    let state = State {
        mode: 1,
        counter: 17,
        profile,
    };
    let mut text = String::new();
    for (line, marks) in [(100, MAP_LENGTH), (101, MAP_LENGTH - 1)] {
        let (output, lent) = (&mut frame[..LINE_LENGTH], &mut map[..marks]);
        let answer = calls::paint_line_mapped(memory, state, line, output, lent);
        text += &painted("paint_line_mapped", answer, frame, map);
    }
    for length in [FRAME_LENGTH, FRAME_LENGTH - 1] {
        let answer = calls::paint_frame_mapped(memory, state, &mut frame[..length], map);
        text += &painted("paint_frame_mapped", answer, frame, map);
    }
    text
}

fn access(name: &str, answer: Access) -> String {
    format!(
        "{name} {} {} {} {}\n",
        answer.status, answer.target, answer.number, answer.byte
    )
}

fn latches(name: &str, latches: Latches) -> String {
    format!(
        "{name} {} {} {}\n",
        latches.kind, latches.first, latches.second
    )
}

fn write(memory: &mut [u8], profile: u8, record: Latches, address: u16) -> String {
    let answer = calls::write(memory, profile, record, address, 0x87);
    format!(
        "write {} {} {} {}\n{}",
        answer.status,
        answer.target,
        answer.number,
        answer.byte,
        latches("latches", answer.latches)
    )
}

fn bus(memory: &mut [u8], profile: u8, kind: u8) -> String {
    let mut record = fresh_of_kind(kind);
    let place = calls::decode(profile, record, 0xC123);
    let mut text = format!(
        "decode {} {} {}\n",
        place.status, place.target, place.number
    );
    text += &access("read", calls::read(memory, profile, record, 0x5234));
    text += &write(memory, profile, record, 0x03FB);
    let answer = calls::write_in_place(memory, profile, &mut record, 0x03FA, 0x01);
    text += &access("write_in_place", answer);
    text += &latches("latches", record);
    text += &write(memory, profile, record, 0xC000);
    text += &access("read", calls::read(memory, profile, record, 0xC000));
    text
}

/// The records of a list, and what they hold before the call.
fn cycles() -> Vec<Cycle> {
    let addresses = [0x0314, 0xC000, 0x03FA, 0xE123, 0x03FB, 0x4314, 0x0400];
    let cycle = |i: usize| Cycle {
        address: addresses[i % 7],
        write: (i % 5) as u8,
        byte: (i * 37) as u8,
        number: (i * 1009) as u16,
        target: i as u8,
        byte_read: !i as u8,
    };
    (0..=LONGEST_TRACE).map(cycle).collect()
}

fn trace(memory: &mut [u8], length: usize, profile: u8, kind: u8) -> String {
    let record = inputs::latches(kind, 0x82, 0);
    let mut cycles = cycles();
    let mut text = String::new();
    for count in [LONGEST_TRACE, LONGEST_TRACE + 1, 0] {
        let (image, list) = (&mut memory[..length], &mut cycles[..count]);
        let answer = calls::trace(image, profile, record, list);
        let fields = cycles.iter().flat_map(|cycle| {
            let Cycle {
                address,
                write,
                byte,
                number,
                target,
                byte_read,
            } = *cycle;
            let [write, byte, target, byte_read] = [write, byte, target, byte_read].map(u16::from);
            [address, write, byte, number, target, byte_read]
        });
        let fields: Vec<u16> = fields.collect();
        let sums = (sum_of(&fields), sum_of(memory));
        text += &format!("trace {} {} {}\n", answer.status, sums.0, sums.1);
        text += &latches("latches", answer.latches);
    }
    text
}

fn compare(lists: &mut Lists, frame: &[u8], grabbed: &[u8], places: usize) -> String {
    let cells = &mut lists.cells[..places];
    let answer = calls::compare(frame, grabbed, &mut lists.line_counts, cells);
    format!(
        "compare {} {} {} {} {} {} {} {} {} {}\n",
        answer.status,
        u8::from(answer.empty),
        answer.first_x,
        answer.last_x,
        answer.first_line,
        answer.last_line,
        answer.pixels,
        answer.cells,
        sum_of(&lists.line_counts),
        sum_of(&lists.cells)
    )
}

fn comparison(frame: &[u8]) -> String {
    let mut lists = Lists::of(0);
    let mut grabbed = frame.to_vec();
    let mut text = compare(&mut lists, &[], &grabbed, LISTED_CELLS);
    text += &compare(&mut lists, frame, &grabbed, LISTED_CELLS);
    for place in (5000..50000).step_by(411) {
        grabbed[place] ^= 0x80;
    }
    text += &compare(&mut lists, frame, &grabbed, LISTED_CELLS);
    text + &compare(&mut lists, frame, &grabbed, LISTED_CELLS - 1)
}

fn find_slip(memory: &[u8], reference: usize, grabbed: usize, length: usize) -> String {
    let reference = &memory[reference..reference + LINE_LENGTH];
    let answer = calls::find_slip(reference, &memory[grabbed..grabbed + length]);
    format!(
        "find_slip {} {} {}\n",
        answer.status, answer.slip, answer.disagreements
    )
}

fn slip(memory: &[u8]) -> String {
    let mut text = find_slip(memory, 0, 0, LINE_LENGTH);
    text += &find_slip(memory, 5, 0, LINE_LENGTH);
    text += &find_slip(memory, 0, FARTHEST, LINE_LENGTH);
    text += &find_slip(memory, 0, FARTHEST + 1, LINE_LENGTH);
    text + &find_slip(memory, 0, 5, LINE_LENGTH + 1)
}
