//! Generated memory images, ten kinds, each made from a seed.

use std::ops::Range;

use crate::inputs::image_length;
use crate::random::Xorshift;

/// What an image is rich in.
#[derive(Clone, Copy, Debug, PartialEq, Eq)]
pub enum Kind {
    /// Every byte equally likely.
    Random,
    /// Three bytes in four are attributes.
    Attributes,
    /// Characters with an attribute here and there.
    Text,
    /// Goes to hires and stays there.
    Hires,
    /// One byte in three is a mode.
    Modes,
    /// Styles with double height.
    DoubleHeight,
    /// Styles with the alternate set.
    Alternate,
    /// Styles with flash.
    Flash,
    /// Bit 7 on most bytes.
    Inverse,
    /// One byte everywhere, others only where a region begins or ends.
    Edges,
}

impl Kind {
    /// All kinds.
    pub const ALL: [Kind; 10] = [
        Kind::Random,
        Kind::Attributes,
        Kind::Text,
        Kind::Hires,
        Kind::Modes,
        Kind::DoubleHeight,
        Kind::Alternate,
        Kind::Flash,
        Kind::Inverse,
        Kind::Edges,
    ];
}

/// Where a region that video uses begins, or the first address past it.
pub const REGION_EDGES: [usize; 8] = [
    0x9800, 0xA000, 0xB400, 0xBB80, 0xBC00, 0xBF40, 0xBF68, 0xBFE0,
];

/// Where a 48K image has the bytes of the 16K image that shows the same.
pub const VIDEO_BLOCK: Range<usize> = 0x8000..0xC000;

/// Makes the image of a kind and a seed in `memory`, all of it; its length is that of a profile.
pub fn generate(kind: Kind, seed: u64, memory: &mut [u8]) {
    let mut generator = Xorshift::new(seed << 4 | kind as u64);
    if kind == Kind::Edges {
        return edges(&mut generator, memory);
    }
    for group in memory.chunks_mut(4) {
        let drawn = generator.next().to_le_bytes();
        for (place, pair) in group.iter_mut().zip(drawn.chunks_exact(2)) {
            *place = shaped(kind, pair[0], pair[1]);
        }
    }
}

/// A new image.
pub fn image(profile: u8, kind: Kind, seed: u64) -> Vec<u8> {
    let mut memory = vec![0; image_length(profile)];
    generate(kind, seed, &mut memory);
    memory
}

/// An image of zeros but for the bytes that some addresses reach.
pub fn with_bytes(profile: u8, bytes: &[(usize, u8)]) -> Vec<u8> {
    let mut memory = vec![0; image_length(profile)];
    for &(address, byte) in bytes {
        fill(&mut memory, address..address + 1, byte);
    }
    memory
}

/// Fills the bytes that these addresses reach.
pub fn fill(memory: &mut [u8], addresses: Range<usize>, byte: u8) {
    let length = memory.len();
    for address in addresses {
        memory[address % length] = byte;
    }
}

/// Turns a random byte into one that suits the kind; `choice` is a second random byte.
fn shaped(kind: Kind, byte: u8, choice: u8) -> u8 {
    let attribute = byte & 0x9F;
    let picture = if byte & 0x60 == 0 { byte | 0x40 } else { byte };
    match (kind, choice) {
        (Kind::Random, _) => byte,
        (Kind::Attributes, 0..=191) => attribute,
        (Kind::Attributes, _) => byte,
        (Kind::Text, 0..=15) => attribute,
        (Kind::Hires, 0..=7) => 0x1C | byte & 0x83,
        (Kind::Hires, 8..=31) => byte & 0x97,
        (Kind::Modes, 0..=84) => 0x18 | byte & 0x87,
        (Kind::DoubleHeight, 0..=31) => 0x0A | byte & 0x85,
        (Kind::Alternate, 0..=31) => 0x09 | byte & 0x86,
        (Kind::Flash, 0..=31) => 0x0C | byte & 0x83,
        (Kind::DoubleHeight | Kind::Alternate | Kind::Flash, 32..=47) => attribute,
        (Kind::Inverse, 0..=31) => attribute | 0x80,
        (Kind::Inverse, 32..=191) => picture | 0x80,
        _ => picture,
    }
}

/// Random bytes in sixteen places about each edge of a region, one byte in all others.
fn edges(generator: &mut Xorshift, memory: &mut [u8]) {
    let byte = generator.byte();
    memory.fill(generator.pick(&[0x00, 0x41, 0x7F, 0xC5, 0x1C, byte]));
    for edge in REGION_EDGES {
        let place = edge % memory.len();
        generator.fill(&mut memory[place - 8..place + 8]);
    }
}
