//! A painter by bit planes: red, green and blue are three patterns of six bits, as the chip puts
//! them out, and a cell is read top to bottom. It shares no code with the library or with the
//! painter by tables.

use tropfenpfad_sys::{Painted, State, COLUMNS, LINES, LINE_LENGTH};

/// Every pixel of a cell.
const ALL: u8 = 0x3F;
/// The address bits that find a RAM byte, by profile.
const ADDRESS_BITS: [usize; 2] = [0xFFFF, 0x3FFF];

/// The RAM, of which every address reaches a byte.
trait Ram {
    fn at(&mut self, address: usize) -> u8;
}

/// Bytes, and the address bits that find one of them.
struct Bytes<'a>(&'a [u8], usize);

impl Ram for Bytes<'_> {
    fn at(&mut self, address: usize) -> u8 {
        self.0[address & self.1]
    }
}

/// The same, which takes note of each byte that is read.
struct Noted<'a> {
    bytes: Bytes<'a>,
    read: Vec<bool>,
}

impl Ram for Noted<'_> {
    fn at(&mut self, address: usize) -> u8 {
        self.read[address & self.bytes.1] = true;
        self.bytes.at(address)
    }
}

#[derive(Clone, Copy)]
struct Registers {
    ink: u8,
    paper: u8,
    style: u8,
    mode: u8,
}

/// Paints one frame of an image and a state that are known to be good.
pub fn paint_frame(memory: &[u8], state: State, frame: &mut [u8]) -> Painted {
    paint(&mut bytes(memory, state), state, frame)
}

/// Paints the same, and says of each byte of the memory whether it was read. A cell is read top to
/// bottom, and nothing is read that it does not use.
pub fn paint_frame_noted(memory: &[u8], state: State, frame: &mut [u8]) -> (Painted, Vec<bool>) {
    let mut ram = Noted {
        bytes: bytes(memory, state),
        read: vec![false; memory.len()],
    };
    (paint(&mut ram, state, frame), ram.read)
}

fn bytes(memory: &[u8], state: State) -> Bytes<'_> {
    Bytes(memory, ADDRESS_BITS[usize::from(state.profile)])
}

fn paint(ram: &mut impl Ram, state: State, frame: &mut [u8]) -> Painted {
    let mut mode = state.mode;
    let mut character = 0;
    for (line, pixels) in frame.chunks_exact_mut(LINE_LENGTH).enumerate() {
        let mut registers = Registers {
            ink: 7,
            paper: 0,
            style: 0,
            mode,
        };
        for (column, six) in pixels.chunks_exact_mut(6).enumerate() {
            character += cell(ram, state.counter, line, column, &mut registers, six);
        }
        mode = registers.mode;
    }
    Painted {
        status: 0,
        state: State {
            mode,
            counter: (state.counter + 1) % 32,
            profile: state.profile,
        },
        screen: (LINES * COLUMNS) as u32,
        character,
    }
}

/// Paints one cell and latches its byte; gives how many character bytes it used.
fn cell(
    ram: &mut impl Ram,
    counter: u8,
    line: usize,
    column: usize,
    registers: &mut Registers,
    pixels: &mut [u8],
) -> u32 {
    let bitmap = registers.mode & 4 != 0 && line < 200;
    let screen = if bitmap {
        0xA000 + COLUMNS * line
    } else {
        0xBB80 + COLUMNS * (line / 8)
    };
    let byte = ram.at(screen + column);
    let (pattern, used) = if byte & 0x60 == 0 {
        latch(byte, registers);
        (0, 0)
    } else if bitmap {
        (byte & ALL, 0)
    } else {
        (definition(ram, line, *registers, byte) & ALL, 1)
    };
    let hidden = registers.style & 4 != 0 && counter >= 16;
    let ink = if hidden {
        registers.paper
    } else {
        registers.ink
    };
    let turned = if byte & 0x80 != 0 { ALL } else { 0 };
    let plane = |bit: u8| {
        let of_ink = if ink & bit != 0 { pattern } else { 0 };
        let of_paper = if registers.paper & bit != 0 {
            !pattern & ALL
        } else {
            0
        };
        (of_ink | of_paper) ^ turned
    };
    let [red, green, blue] = [1, 2, 4].map(plane);
    for (place, pixel) in pixels.iter_mut().rev().enumerate() {
        *pixel = (red >> place & 1) | (green >> place & 1) << 1 | (blue >> place & 1) << 2;
    }
    used
}

fn latch(byte: u8, registers: &mut Registers) {
    let value = byte & 7;
    match byte >> 3 & 3 {
        0 => registers.ink = value,
        1 => registers.style = value,
        2 => registers.paper = value,
        _ => registers.mode = value,
    }
}

fn definition(ram: &mut impl Ram, line: usize, registers: Registers, byte: u8) -> u8 {
    let set = if registers.mode & 4 != 0 {
        0x9800
    } else {
        0xB400
    };
    let alternate = if registers.style & 1 != 0 { 0x400 } else { 0 };
    let row = if registers.style & 2 != 0 {
        line / 2
    } else {
        line
    } % 8;
    ram.at(set + alternate + 8 * usize::from(byte & 0x7F) + row)
}
