//! Right and wrong values for every input, and a tally that says which refusal is due.
//!
//! These tables and limits are not the models'; a test tries every mix of them on the library and
//! on the model alike.

use std::collections::{BTreeMap, BTreeSet};

use tropfenpfad::Refusal;
use tropfenpfad_sys::{
    self as ffi, Cycle, Latches, State, FRAME_LENGTH, IMAGE_LENGTH, IMAGE_LENGTH_16K, LINE_LENGTH,
    LISTED_CELLS, MAP_LENGTH,
};

use crate::inputs::{latches, random_bytes, random_numbers};
use crate::random::Xorshift;
use crate::traces::random_cycles;

/// Values to hand over, right ones and wrong ones.
#[derive(Clone, Copy)]
pub struct Values<T: 'static> {
    pub right: &'static [T],
    pub wrong: &'static [T],
}

impl<T: Copy> Values<T> {
    /// Each value, and whether it is wrong.
    pub fn each(self) -> impl Iterator<Item = (T, bool)> {
        let right = self.right.iter().map(|&value| (value, false));
        right.chain(self.wrong.iter().map(|&value| (value, true)))
    }
}

pub const PROFILES: Values<u8> = Values {
    right: &[0, 1],
    wrong: &[2, 3, 128, 255],
};
const MEMORIES: [usize; 11] = [
    0,
    1,
    LINE_LENGTH,
    IMAGE_LENGTH_16K - 1,
    IMAGE_LENGTH_16K,
    IMAGE_LENGTH_16K + 1,
    FRAME_LENGTH,
    IMAGE_LENGTH - 1,
    IMAGE_LENGTH,
    IMAGE_LENGTH + 1,
    2 * IMAGE_LENGTH,
];
pub const LINE_OUTPUTS: Values<usize> = Values {
    right: &[LINE_LENGTH],
    wrong: &[
        0,
        1,
        LINE_LENGTH - 1,
        LINE_LENGTH + 1,
        2 * LINE_LENGTH,
        LINE_LENGTH + 256,
        FRAME_LENGTH,
    ],
};
pub const FRAME_OUTPUTS: Values<usize> = Values {
    right: &[FRAME_LENGTH],
    wrong: &[
        0,
        1,
        LINE_LENGTH,
        FRAME_LENGTH - LINE_LENGTH,
        FRAME_LENGTH - 1,
        FRAME_LENGTH + 1,
        IMAGE_LENGTH,
    ],
};
/// The right length in either profile; the bits of the 16K machine's addresses alone are 2,048 bytes.
const MAPS: Values<usize> = Values {
    right: &[MAP_LENGTH],
    wrong: &[
        0,
        1,
        IMAGE_LENGTH_16K / 8,
        MAP_LENGTH - 1,
        MAP_LENGTH + 1,
        MAP_LENGTH + 256,
        IMAGE_LENGTH,
    ],
};
pub const MODES: Values<u8> = Values {
    right: &[0, 2, 7],
    wrong: &[8, 12, 128, 255],
};
pub const COUNTERS: Values<u8> = Values {
    right: &[0, 31],
    wrong: &[32, 33, 128, 255],
};
pub const LINES: Values<usize> = Values {
    right: &[0, 199, 223],
    wrong: &[224, 225, 256, 0x1_0000, 0x1_0000_0000, usize::MAX],
};
/// For a frame, which takes no line.
pub const NO_LINES: Values<usize> = Values {
    right: &[0],
    wrong: &[],
};
pub const COLUMNS: Values<usize> = Values {
    right: &[0, 39],
    wrong: &[40, 41, 256, 0x1_0000, 0x1_0000_0000, usize::MAX],
};
pub const KINDS: Values<u8> = Values {
    right: &[0, 1, 2],
    wrong: &[3, 4, 128, 255],
};
const COMPARED_FRAMES: Values<usize> = Values {
    right: &[FRAME_LENGTH],
    wrong: &[
        0,
        1,
        LISTED_CELLS,
        ffi::LINES,
        FRAME_LENGTH - 1,
        FRAME_LENGTH + 1,
        FRAME_LENGTH + 0x1_0000,
    ],
};
// In numbers of 16 bits: half and twice the right length are what a count of bytes would be.
const LINE_COUNTS: Values<usize> = Values {
    right: &[ffi::LINES],
    wrong: &[
        0,
        1,
        LISTED_CELLS,
        ffi::LINES / 2,
        ffi::LINES - 1,
        ffi::LINES + 1,
        2 * ffi::LINES,
        ffi::LINES + 256,
        FRAME_LENGTH,
    ],
};
const CELL_LISTS: Values<usize> = Values {
    right: &[LISTED_CELLS],
    wrong: &[
        0,
        1,
        LISTED_CELLS / 2,
        LISTED_CELLS - 1,
        LISTED_CELLS + 1,
        2 * LISTED_CELLS,
        ffi::LINES,
        LISTED_CELLS + 256,
        FRAME_LENGTH,
    ],
};
const SEARCHED: Values<usize> = Values {
    right: &[LINE_LENGTH],
    wrong: &[
        0,
        1,
        LINE_LENGTH / 2,
        LINE_LENGTH - 1,
        LINE_LENGTH + 1,
        2 * LINE_LENGTH,
        LINE_LENGTH + 256,
        FRAME_LENGTH,
        LINE_LENGTH + 0x1_0000,
    ],
};
const LATCH_BYTES: [u8; 4] = [0x00, 0x01, 0x82, 0xFF];
const TRACES: Values<usize> = Values {
    right: &[0, 1, 1024],
    wrong: &[1025, 1024 + 256, 2 * 1024, LONGEST_LENT],
};
/// Records of the longest list that is lent.
const LONGEST_LENT: usize = 5000;

/// Numbers of refusals that never apply together: 12 is for a profile above 1, 13 for profile 1.
const APART: [(u8, u8); 1] = [(12, 13)];

/// Random bytes to lend, of the greatest length that is handed over.
pub fn lent_bytes() -> Vec<u8> {
    random_bytes(7, 2 * IMAGE_LENGTH)
}

/// Random numbers of 16 bits to lend, of the greatest length that is handed over.
pub fn lent_numbers() -> Vec<u16> {
    random_numbers(8, IMAGE_LENGTH)
}

/// Random accesses to lend, as many as the longest list has that is handed over.
pub fn lent_cycles() -> Vec<Cycle> {
    random_cycles(&mut Xorshift::new(9), LONGEST_LENT)
}

/// Lengths of two compared frames, the line counts and the list of cells, and which are wrong.
pub fn compared_lengths() -> impl Iterator<Item = ([usize; 4], [bool; 4])> {
    COMPARED_FRAMES.each().flat_map(|first| {
        COMPARED_FRAMES.each().flat_map(move |second| {
            LINE_COUNTS.each().flat_map(move |line_counts| {
                CELL_LISTS.each().map(move |cells| {
                    let lent = [first, second, line_counts, cells];
                    (lent.map(|(length, _)| length), lent.map(|(_, bad)| bad))
                })
            })
        })
    })
}

/// Lengths of a reference and a grabbed line, and which are wrong.
pub fn searched_lengths() -> impl Iterator<Item = ([usize; 2], [bool; 2])> {
    SEARCHED.each().flat_map(|reference| {
        SEARCHED.each().map(move |grabbed| {
            let lent = [reference, grabbed];
            (lent.map(|(length, _)| length), lent.map(|(_, bad)| bad))
        })
    })
}

/// Lengths of memory, and whether they are wrong. A wrong profile has no length of its own: with
/// it those of both others are no second fault.
pub fn memories(profile: u8) -> impl Iterator<Item = (usize, bool)> {
    let right: &[usize] = match profile {
        0 => &[IMAGE_LENGTH],
        1 => &[IMAGE_LENGTH_16K],
        _ => &[IMAGE_LENGTH, IMAGE_LENGTH_16K],
    };
    MEMORIES
        .map(|length| (length, !right.contains(&length)))
        .into_iter()
}

/// What is due for a profile that is handed over with the memory of a right one.
pub fn status_with_memory_of(right: u8, profile: u8) -> u8 {
    match profile {
        0 | 1 => u8::from(profile != right),
        _ => 12,
    }
}

/// States, and whether their profile, their mode and their counter are wrong.
pub fn states() -> impl Iterator<Item = (State, [bool; 3])> {
    PROFILES.each().flat_map(|(profile, bad_profile)| {
        MODES.each().flat_map(move |(mode, bad_mode)| {
            COUNTERS.each().map(move |(counter, bad_counter)| {
                let state = State {
                    mode,
                    counter,
                    profile,
                };
                (state, [bad_profile, bad_mode, bad_counter])
            })
        })
    })
}

/// What a painter with a map is handed over; of the lent buffers, their lengths.
#[derive(Clone, Copy, Debug)]
pub struct Mapped {
    pub memory: usize,
    pub state: State,
    pub line: usize,
    pub picture: usize,
    pub map: usize,
}

/// Inputs of a painter with a map, two of them wrong at most, and which are wrong: profile, memory,
/// picture, map, mode, counter, line.
pub fn mapped(pictures: Values<usize>, lines: Values<usize>) -> Vec<(Mapped, [bool; 7])> {
    let mut inputs = Vec::new();
    for (state, [profile, mode, counter]) in states() {
        for (lent, [memory, picture, map]) in mapped_lengths(state.profile, pictures) {
            for (line, bad_line) in lines.each() {
                let wrong = [profile, memory, picture, map, mode, counter, bad_line];
                if are_two_at_most(&wrong) {
                    let [memory, picture, map] = lent;
                    let handed_over = Mapped {
                        memory,
                        state,
                        line,
                        picture,
                        map,
                    };
                    inputs.push((handed_over, wrong));
                }
            }
        }
    }
    inputs
}

fn are_two_at_most(wrong: &[bool]) -> bool {
    wrong.iter().filter(|bad| **bad).count() <= 2
}

/// Lengths of memory, a picture and a map, and which are wrong.
fn mapped_lengths(
    profile: u8,
    pictures: Values<usize>,
) -> impl Iterator<Item = ([usize; 3], [bool; 3])> {
    memories(profile).flat_map(move |memory| {
        pictures.each().flat_map(move |picture| {
            MAPS.each().map(move |map| {
                let lent = [memory, picture, map];
                (lent.map(|(length, _)| length), lent.map(|(_, bad)| bad))
            })
        })
    })
}

/// Profiles with latch records, and whether the profile, the kind, and the kind in this profile
/// are wrong.
pub fn boards() -> impl Iterator<Item = (u8, Latches, [bool; 3])> {
    PROFILES.each().flat_map(|(profile, bad_profile)| {
        KINDS.each().flat_map(move |(kind, bad_kind)| {
            let wrong = [bad_profile, bad_kind, profile == 1 && kind != 0];
            latches_of(kind).map(move |latches| (profile, latches, wrong))
        })
    })
}

fn latches_of(kind: u8) -> impl Iterator<Item = Latches> {
    LATCH_BYTES
        .into_iter()
        .flat_map(move |first| LATCH_BYTES.map(move |second| latches(kind, first, second)))
}

/// What a trace is handed over; of the lent buffers, their lengths.
#[derive(Clone, Copy, Debug)]
pub struct Tracing {
    pub memory: usize,
    pub profile: u8,
    pub latches: Latches,
    pub cycles: usize,
}

/// Inputs of a trace, two of them wrong at most, and which are wrong: profile, memory, kind, kind in
/// this profile, list.
pub fn tracings() -> Vec<(Tracing, [bool; 5])> {
    let mut inputs = Vec::new();
    for (profile, latches, [bad_profile, bad_kind, bad_controller]) in boards() {
        for (memory, bad_memory) in memories(profile) {
            for (cycles, bad_list) in TRACES.each() {
                let wrong = [bad_profile, bad_memory, bad_kind, bad_controller, bad_list];
                if are_two_at_most(&wrong) {
                    let handed_over = Tracing {
                        memory,
                        profile,
                        latches,
                        cycles,
                    };
                    inputs.push((handed_over, wrong));
                }
            }
        }
    }
    inputs
}

/// What a wrapper has to give for a status.
pub fn result(status: u8) -> Result<(), Refusal> {
    match status {
        0 => Ok(()),
        number => Err(Refusal::from_number(number).expect("every status has a name")),
    }
}

/// Says which number is due, counts calls and refusals, and tells of them at the end.
///
/// The number due is the first that applies of the entry point's refusals, in the order in which
/// the header lists them.
#[derive(Default)]
pub struct Tally {
    calls: usize,
    refused: usize,
    numbers: BTreeMap<u8, usize>,
    /// The numbers that the entry point lists.
    listed: Vec<u8>,
    /// Places in that list of two refusals that applied together, and no third one with them.
    pairs: BTreeSet<(usize, usize)>,
}

impl Tally {
    /// The number of the first refusal of an entry point's list that applies, 0 where none does.
    pub fn due(&mut self, refusals: &[(u8, bool)]) -> u8 {
        let mut places = Vec::new();
        for (place, &(_, applies)) in refusals.iter().enumerate() {
            if applies {
                places.push(place);
            }
        }
        if let [first, second] = places[..] {
            self.pairs.insert((first, second));
        }
        self.listed = refusals.iter().map(|&(number, _)| number).collect();
        places.first().map_or(0, |&place| refusals[place].0)
    }

    pub fn count(&mut self, status: u8) {
        self.calls += 1;
        self.refused += usize::from(status != 0);
        *self.numbers.entry(status).or_default() += 1;
    }

    pub fn count_all(&mut self, statuses: &[u8]) {
        statuses.iter().for_each(|&status| self.count(status));
    }

    /// Prints what was counted, and fails if some two refusals of the list never applied together,
    /// since then nothing has shown which of them comes first, or if two did that never can.
    #[track_caller]
    pub fn finish(&self, entry: &str) {
        println!(
            "{entry}: {} calls, {} with bad inputs; by number {:?}; pairs: {}",
            self.calls,
            self.refused,
            self.numbers,
            self.pairs.len()
        );
        for (second, after) in self.listed.iter().enumerate() {
            for (first, before) in self.listed[..second].iter().enumerate() {
                assert_eq!(
                    self.pairs.contains(&(first, second)),
                    !APART.contains(&(*before, *after)),
                    "{entry}: refusals {before} and {after} together"
                );
            }
        }
    }
}
