//! Screen addresses, lines and frames, and what these use.

mod painter;

use std::ops::Range;

use tropfenpfad_sys::{
    Address, Painted, State, COLUMNS, FRAME_LENGTH, LINES, LINE_LENGTH, MAP_LENGTH, PROFILE_16K,
};

use super::refusal::{
    first_of, of_column, of_counter, of_line, of_memory, of_mode, of_output, of_profile,
};
use painter::Painter;

/// The block of 16K that holds all that video reads.
type Block = [u8; 0x4000];

/// The model of the video half, with its tables.
pub struct Video {
    painter: Painter,
}

impl Default for Video {
    fn default() -> Self {
        Self::new()
    }
}

impl Video {
    /// Builds the tables.
    pub fn new() -> Self {
        Video {
            painter: Painter::new(),
        }
    }

    /// Mode 2, counter 0, profile 0.
    pub fn fresh_state(&self) -> State {
        State {
            mode: 2,
            counter: 0,
            profile: 0,
        }
    }

    /// Where the screen byte of a cell stands.
    pub fn screen_address(&self, profile: u8, line: usize, column: usize, mode: u8) -> Address {
        let status = first_of(&[
            of_profile(profile),
            of_mode(mode),
            of_line(line),
            of_column(column),
        ]);
        let address = match status {
            0 => {
                let start = painter::line_starts(line)[usize::from(mode >> 2)];
                block_start(profile) + start + column
            }
            _ => 0,
        };
        Address {
            status,
            address: address as u16,
        }
    }

    /// Paints one line.
    pub fn paint_line(
        &self,
        memory: &[u8],
        state: State,
        line: usize,
        output: &mut [u8],
    ) -> Painted {
        let status = first_of(&[
            of_profile(state.profile),
            of_memory(state.profile, memory),
            of_output(output, LINE_LENGTH),
            of_mode(state.mode),
            of_counter(state.counter),
            of_line(line),
        ]);
        if status != 0 {
            return refused(status, state);
        }
        let block = block(memory, state.profile);
        let output = output.try_into().expect("the length was tested");
        let (mode, character) = self
            .painter
            .line(block, line, state.mode, state.counter, output);
        Painted {
            status: 0,
            state: State { mode, ..state },
            screen: COLUMNS as u32,
            character,
        }
    }

    /// Paints one frame.
    pub fn paint_frame(&self, memory: &[u8], state: State, frame: &mut [u8]) -> Painted {
        let status = first_of(&[
            of_profile(state.profile),
            of_memory(state.profile, memory),
            of_output(frame, FRAME_LENGTH),
            of_mode(state.mode),
            of_counter(state.counter),
        ]);
        if status != 0 {
            return refused(status, state);
        }
        let block = block(memory, state.profile);
        let mut mode = state.mode;
        let mut total = 0;
        for (line, output) in frame.chunks_exact_mut(LINE_LENGTH).enumerate() {
            let output = output.try_into().expect("chunks are lines");
            let (next, character) = self.painter.line(block, line, mode, state.counter, output);
            mode = next;
            total += character;
        }
        Painted {
            status: 0,
            state: State {
                mode,
                counter: (state.counter + 1) & 31,
                ..state
            },
            screen: (COLUMNS * LINES) as u32,
            character: total,
        }
    }

    /// Paints one line, and marks what it uses.
    pub fn paint_line_mapped(
        &self,
        memory: &[u8],
        state: State,
        line: usize,
        output: &mut [u8],
        map: &mut [u8],
    ) -> Painted {
        let status = first_of(&[
            of_profile(state.profile),
            of_memory(state.profile, memory),
            of_output(output, LINE_LENGTH),
            of_output(map, MAP_LENGTH),
            of_mode(state.mode),
            of_counter(state.counter),
            of_line(line),
        ]);
        if status != 0 {
            return refused(status, state);
        }
        self.each_used(memory, state, line..line + 1, |address| mark(map, address));
        self.paint_line(memory, state, line, output)
    }

    /// Paints one frame, and marks what it uses.
    pub fn paint_frame_mapped(
        &self,
        memory: &[u8],
        state: State,
        frame: &mut [u8],
        map: &mut [u8],
    ) -> Painted {
        let status = first_of(&[
            of_profile(state.profile),
            of_memory(state.profile, memory),
            of_output(frame, FRAME_LENGTH),
            of_output(map, MAP_LENGTH),
            of_mode(state.mode),
            of_counter(state.counter),
        ]);
        if status != 0 {
            return refused(status, state);
        }
        self.each_used(memory, state, 0..LINES, |address| mark(map, address));
        self.paint_frame(memory, state, frame)
    }

    /// The used addresses of some lines of an image, from a state, that are known to be good: in
    /// painting order, one that is used twice is there twice.
    pub fn used_addresses(&self, memory: &[u8], state: State, lines: Range<usize>) -> Vec<u16> {
        let mut addresses = Vec::new();
        self.each_used(memory, state, lines, |address| {
            addresses.push(address as u16);
        });
        addresses
    }

    /// Calls with each of these addresses in turn.
    fn each_used(
        &self,
        memory: &[u8],
        state: State,
        lines: Range<usize>,
        mut call: impl FnMut(usize),
    ) {
        let start = block_start(state.profile);
        let block = block(memory, state.profile);
        let mut mode = state.mode;
        for line in lines {
            let painter = &self.painter;
            mode = painter.used(block, line, mode, |place| call(start + place));
        }
    }
}

/// Sets the bit of an address.
fn mark(map: &mut [u8], address: usize) {
    map[address >> 3] |= 1 << (address & 7);
}

/// Where the block starts: in the 16K machine it is all the RAM.
fn block_start(profile: u8) -> usize {
    match profile {
        PROFILE_16K => 0,
        _ => 0x8000,
    }
}

fn block(memory: &[u8], profile: u8) -> &Block {
    memory[block_start(profile)..]
        .first_chunk()
        .expect("the length was tested")
}

fn refused(status: u8, state: State) -> Painted {
    Painted {
        status,
        state,
        screen: 0,
        character: 0,
    }
}
