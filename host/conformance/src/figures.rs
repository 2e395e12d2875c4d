//! All figures that the proved program `figures` writes, made here by the models alone.

use std::fmt::Write;

use tropfenpfad_sys::{
    Latches, Painted, Slip, State, FRAME_LENGTH, IMAGE_LENGTH, IMAGE_LENGTH_16K, LINES,
    LINE_LENGTH, LISTED_CELLS, MAP_LENGTH, PROFILE_16K, PROFILE_48K,
};

use crate::inputs::image_length;
use crate::maps::marked;
use crate::model::{compare, slip, Bus, Video};
use crate::random::step;
use crate::slips::{moved, stripes};

/// Where the generator and the digest start.
const START: u64 = 0x9E37_79B9_7F4A_7C15;
/// Generated images of each profile.
const IMAGES: u64 = 256;
/// Their flash counters: on both sides of each change of phase.
const COUNTERS: [u8; 4] = [0, 15, 16, 31];
/// Latch records to decode under: kind, first, second.
const LATCHES: [(u8, u8, u8); 15] = [
    (0, 0, 0),
    (0, 255, 255),
    (1, 0, 0),
    (1, 2, 0),
    (1, 128, 0),
    (1, 130, 0),
    (1, 253, 0),
    (1, 125, 255),
    (2, 0, 0),
    (2, 1, 0),
    (2, 0, 1),
    (2, 1, 1),
    (2, 254, 254),
    (2, 255, 254),
    (2, 254, 255),
];
/// Those that the 16K machine takes.
const LATCHES_16K: [(u8, u8, u8); 2] = [LATCHES[0], LATCHES[1]];
/// Lengths of memory, on both sides of the right one.
const MEMORIES: [usize; 4] = [0, IMAGE_LENGTH - 1, IMAGE_LENGTH, IMAGE_LENGTH + 1];
/// The same for the 16K machine, and each length with a profile that it does not belong to.
const PROFILE_MEMORIES: [(u8, usize); 7] = [
    (PROFILE_16K, 0),
    (PROFILE_16K, IMAGE_LENGTH_16K - 1),
    (PROFILE_16K, IMAGE_LENGTH_16K),
    (PROFILE_16K, IMAGE_LENGTH_16K + 1),
    (PROFILE_16K, IMAGE_LENGTH),
    (PROFILE_48K, IMAGE_LENGTH_16K),
    (2, IMAGE_LENGTH),
];

/// Generated images of each profile whose used addresses are marked in one map.
const MAPPED: u64 = 8;
/// Lengths of maps, on both sides of the right one.
const MAPS: [usize; 3] = [MAP_LENGTH - 1, MAP_LENGTH, MAP_LENGTH + 1];

/// Out of 65,536 pixels of a generated pair of frames, so many differ on the mean.
const DIFFERING: [u64; 8] = [0, 1, 8, 64, 512, 4096, 32_768, 65_536];
/// Lengths of frames and lists, of each quadruple one wrong.
const COMPARED: [[usize; 4]; 4] = [
    [FRAME_LENGTH - 1, FRAME_LENGTH, LINES, LISTED_CELLS],
    [FRAME_LENGTH, FRAME_LENGTH + 1, LINES, LISTED_CELLS],
    [FRAME_LENGTH, FRAME_LENGTH, LINES - 1, LISTED_CELLS],
    [FRAME_LENGTH, FRAME_LENGTH, LINES, LISTED_CELLS + 1],
];

/// Out of 65,536 pixels of a generated line that has slipped, so many are changed on the mean.
const CHANGED: u64 = 4096;
/// Widths of stripes, on both sides of the farthest slip.
const WIDTHS: [usize; 7] = [1, 2, 3, 11, 12, 13, LINE_LENGTH];
/// Lengths of a reference and a grabbed line, of each pair one wrong.
const SEARCHED: [[usize; 2]; 2] = [
    [LINE_LENGTH - 1, LINE_LENGTH],
    [LINE_LENGTH, LINE_LENGTH + 1],
];

/// A mode of each half of the card of line starts.
const HALVES: [(&str, u8); 2] = [("text", 2), ("hires", 6)];
/// Lines to a row of the card.
const CARD_ROW: usize = 8;

/// All lines, each ended by a line feed: limits, decodes and images of the 48K machine, then of the
/// 16K machine, whose lines begin with the profile, then maps, comparisons, slips, and the card.
pub fn lines() -> String {
    let (video, bus) = (Video::new(), Bus::new());
    let mut text = String::new();
    for line in [223, 224] {
        text += &line_line(&video, line);
    }
    for counter in [31, 32] {
        text += &counter_line(&video, counter);
    }
    for length in MEMORIES {
        text += &memory_line(&video, PROFILE_48K, length);
    }
    for latches in LATCHES {
        text += &decode_line(&bus, PROFILE_48K, latches);
    }
    for image in 0..IMAGES {
        text += &image_line(&video, PROFILE_48K, image);
    }
    for (profile, length) in PROFILE_MEMORIES {
        text += &format!("profile {profile} {}", memory_line(&video, profile, length));
    }
    for latches in LATCHES_16K {
        text += &format!(
            "profile {PROFILE_16K} {}",
            decode_line(&bus, PROFILE_16K, latches)
        );
    }
    for image in 0..IMAGES {
        text += &format!(
            "profile {PROFILE_16K} {}",
            image_line(&video, PROFILE_16K, image)
        );
    }
    for profile in [PROFILE_48K, PROFILE_16K] {
        let mut map = vec![0; MAP_LENGTH];
        for image in 0..MAPPED {
            text += &map_image_line(&video, profile, image, &mut map);
        }
    }
    for line in [223, 224] {
        text += &map_line_line(&video, line);
    }
    for length in MAPS {
        text += &map_length_line(&video, length);
    }
    for (number, limit) in (0..).zip(DIFFERING) {
        text += &comparison_line(number, limit);
    }
    for lengths in COMPARED {
        text += &compared_lengths_line(lengths);
    }
    for (number, slip) in (0..).zip(slip::SLIPS) {
        text += &moved_line(number, slip);
    }
    for width in WIDTHS {
        text += &stripes_line(width);
    }
    for lengths in SEARCHED {
        text += &searched_lengths_line(lengths);
    }
    for half in HALVES {
        for first in (0..LINES).step_by(CARD_ROW) {
            text += &card_line(&video, half, first);
        }
    }
    text
}

/// Paints one line of an image of zeros from the fresh state.
fn line_line(model: &Video, line: usize) -> String {
    let memory = vec![0; IMAGE_LENGTH];
    let painted = model.paint_line(&memory, model.fresh_state(), line, &mut [0; LINE_LENGTH]);
    let Painted { status, screen, .. } = painted;
    format!("line {line}: status {status} screen {screen}\n")
}

/// Paints an image of zeros from the fresh state but for these.
fn zeros(model: &Video, profile: u8, counter: u8, length: usize) -> Painted {
    let state = State {
        counter,
        profile,
        ..model.fresh_state()
    };
    model.paint_frame(&vec![0; length], state, &mut vec![0; FRAME_LENGTH])
}

fn counter_line(model: &Video, counter: u8) -> String {
    let painted = zeros(model, PROFILE_48K, counter, IMAGE_LENGTH);
    let (status, after) = (painted.status, painted.state.counter);
    format!("counter {counter}: status {status} counter {after}\n")
}

fn memory_line(model: &Video, profile: u8, length: usize) -> String {
    let status = zeros(model, profile, 0, length).status;
    format!("memory {length}: status {status}\n")
}

fn decode_line(model: &Bus, profile: u8, (kind, first, second): (u8, u8, u8)) -> String {
    let latches = Latches {
        kind,
        first,
        second,
    };
    let mut counts = [0; 7];
    let mut digest = Digest::new();
    for address in 0..=u16::MAX {
        let answer = model.decode(profile, latches, address);
        let [low, high] = answer.number.to_le_bytes();
        counts[usize::from(answer.target)] += 1;
        digest.take(&[answer.target, low, high]);
    }
    let mut text = format!("decode kind {kind} first {first} second {second}:");
    for (target, count) in counts.iter().enumerate() {
        write!(text, " {target} {count}").expect("a string takes all");
    }
    text + &format!(" digest {:016x}\n", digest.0)
}

fn image_line(model: &Video, profile: u8, image: u64) -> String {
    let kind = image % 4;
    let state = state_of(profile, image);
    let memory = generate(image, image_length(profile));
    let mut frame = vec![0; FRAME_LENGTH];
    let painted = model.paint_frame(&memory, state, &mut frame);
    let digest = digest_of_bytes(&frame);
    format!(
        "image {image} kind {kind} mode {} counter {}: status {} mode {} counter {} \
         screen {} character {} digest {digest:016x}\n",
        state.mode,
        state.counter,
        painted.status,
        painted.state.mode,
        painted.state.counter,
        painted.screen,
        painted.character
    )
}

/// The state that a generated image is painted from.
fn state_of(profile: u8, image: u64) -> State {
    State {
        mode: (image / 4 % 8) as u8,
        counter: COUNTERS[(image / 32 % 4) as usize],
        profile,
    }
}

/// Marks what a generated image used in a map that has the marks of those before it.
fn map_image_line(model: &Video, profile: u8, image: u64, map: &mut [u8]) -> String {
    let memory = generate(image, image_length(profile));
    let mut frame = vec![0; FRAME_LENGTH];
    let painted = model.paint_frame_mapped(&memory, state_of(profile, image), &mut frame, map);
    let machine = match profile {
        PROFILE_48K => String::new(),
        _ => format!("profile {profile} "),
    };
    format!(
        "{machine}map image {image}: status {} character {} marked {} digest {:016x}\n",
        painted.status,
        painted.character,
        marked(map).len(),
        digest_of_bytes(map)
    )
}

/// Marks what one line of an image of zeros used from the fresh state.
fn map_line_line(model: &Video, line: usize) -> String {
    let (memory, state) = (vec![0; IMAGE_LENGTH], model.fresh_state());
    let (mut output, mut map) = ([0; LINE_LENGTH], [0; MAP_LENGTH]);
    let painted = model.paint_line_mapped(&memory, state, line, &mut output, &mut map);
    let (status, marked) = (painted.status, marked(&map).len());
    format!("map line {line}: status {status} marked {marked}\n")
}

/// Marks what an image of zeros used in a map of this length.
fn map_length_line(model: &Video, length: usize) -> String {
    let (memory, state) = (vec![0; IMAGE_LENGTH], model.fresh_state());
    let (mut frame, mut map) = (vec![0; FRAME_LENGTH], vec![0; length]);
    let painted = model.paint_frame_mapped(&memory, state, &mut frame, &mut map);
    let digest = digest_of_bytes(&map);
    format!(
        "map length {length}: status {} digest {digest:016x}\n",
        painted.status
    )
}

fn digest_of_bytes(bytes: &[u8]) -> u64 {
    let mut digest = Digest::new();
    digest.take(bytes);
    digest.0
}

/// Compares a generated pair of frames, with lists that hold something else before.
fn comparison_line(number: u64, limit: u64) -> String {
    let first = random_bytes(number, FRAME_LENGTH);
    let second = changed(&first, number, limit);
    let (mut line_counts, mut cells) = ([7; LINES], [7; LISTED_CELLS]);
    let answer = compare::compare(&first, &second, &mut line_counts, &mut cells);
    format!(
        "compare {number} limit {limit}: status {} empty {} x {} {} line {} {} pixels {} cells {} \
         counts {:016x} list {:016x}\n",
        answer.status,
        u8::from(answer.empty),
        answer.first_x,
        answer.last_x,
        answer.first_line,
        answer.last_line,
        answer.pixels,
        answer.cells,
        digest_of(&line_counts),
        digest_of(&cells)
    )
}

fn digest_of(numbers: &[u16]) -> u64 {
    let mut digest = Digest::new();
    for number in numbers {
        digest.take(&number.to_le_bytes());
    }
    digest.0
}

fn random_bytes(number: u64, length: usize) -> Vec<u8> {
    let byte = |x: u64| (x >> 32) as u8;
    numbers_from(number).map(byte).take(length).collect()
}

/// The bytes, of which on the mean so many of 65,536 are greater by one.
fn changed(bytes: &[u8], number: u64, limit: u64) -> Vec<u8> {
    let differs = |x: u64| (x >> 40) % 65_536 < limit;
    let drawn = numbers_from(number).map(differs);
    let pairs = bytes.iter().zip(drawn);
    pairs
        .map(|(byte, differs)| byte.wrapping_add(differs.into()))
        .collect()
}

/// Compares frames and lists of zeros with these lengths.
fn compared_lengths_line(lengths: [usize; 4]) -> String {
    let [first, second, counted, listed] = lengths;
    let frames = [first, second].map(|length| vec![0; length]);
    let mut lists = [counted, listed].map(|length| vec![0; length]);
    let [line_counts, cells] = &mut lists;
    let answer = compare::compare(&frames[0], &frames[1], line_counts, cells);
    format!(
        "compare lengths {first} {second} {counted} {listed}: status {} empty {} pixels {} \
         cells {}\n",
        answer.status,
        u8::from(answer.empty),
        answer.pixels,
        answer.cells
    )
}

/// The slip of a generated line that has been moved so far and then changed here and there.
fn moved_line(number: u64, slip: i8) -> String {
    let other = number + slip::SLIPS.count() as u64;
    let [reference, incoming] = [number, other].map(|seed| random_bytes(seed, LINE_LENGTH));
    let grabbed = moved(&reference, slip.into(), &incoming);
    let grabbed = changed(&grabbed, number, CHANGED);
    format!("slip moved {slip}: {}", found(&reference, &grabbed))
}

/// The slip of stripes against others that begin with the other colour.
fn stripes_line(width: usize) -> String {
    let reference = stripes(width);
    let grabbed: Vec<u8> = reference.iter().map(|colour| 1 - colour).collect();
    format!("slip stripes {width}: {}", found(&reference, &grabbed))
}

/// The slip of lines of zeros with these lengths.
fn searched_lengths_line([reference, grabbed]: [usize; 2]) -> String {
    let answer = found(&vec![0; reference], &vec![0; grabbed]);
    format!("slip lengths {reference} {grabbed}: {answer}")
}

fn found(reference: &[u8], grabbed: &[u8]) -> String {
    let Slip {
        status,
        slip,
        disagreements,
    } = slip::find_slip(reference, grabbed);
    format!("status {status} slip {slip} disagreements {disagreements}\n")
}

/// A row of the card: where lines begin, from this one on.
fn card_line(model: &Video, (half, mode): (&str, u8), first: usize) -> String {
    let start = |line| model.screen_address(PROFILE_48K, line, 0, mode).address;
    let mut text = format!("card {half} {first}:");
    for line in first..first + CARD_ROW {
        write!(text, " {:04X}", start(line)).expect("a string takes all");
    }
    text + "\n"
}

/// The generator's numbers after this start.
fn numbers_from(number: u64) -> impl Iterator<Item = u64> {
    let first = step(START + number);
    std::iter::successors(Some(first), |&x| Some(step(x)))
}

fn generate(image: u64, length: usize) -> Vec<u8> {
    let byte = |x: u64| shaped(image % 4, (x >> 32) as u8, (x >> 40) as u8 % 16);
    numbers_from(image).map(byte).take(length).collect()
}

/// The byte of an image: 0 random, 1 attributes, 2 text, 3 modes.
fn shaped(kind: u64, byte: u8, choice: u8) -> u8 {
    let control = byte & 0x60 == 0;
    match (kind, choice) {
        (1, 0..=11) | (2, 0) => byte & 0x9F,
        (2, _) if control => byte | 0x20,
        (3, 0..=3) => 0x18 | byte & 7,
        (3, _) if control => byte | 0x40,
        _ => byte,
    }
}

/// A digest that takes byte by byte.
struct Digest(u64);

impl Digest {
    fn new() -> Self {
        Digest(START)
    }

    fn take(&mut self, bytes: &[u8]) {
        for &byte in bytes {
            self.0 = step(self.0 ^ u64::from(byte));
        }
    }
}
