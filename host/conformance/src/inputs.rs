//! Profiles, start states and latch records that several tests take.

use tropfenpfad_sys::{
    Latches, State, IMAGE_LENGTH, IMAGE_LENGTH_16K, KIND_JASMIN, KIND_MICRODISC, KIND_NONE,
    PROFILE_16K, PROFILE_48K,
};

use crate::calls;
use crate::random::Xorshift;

/// Both profiles.
pub const PROFILES: [u8; 2] = [PROFILE_48K, PROFILE_16K];
/// Each profile with each controller kind that it takes.
pub const MACHINES: [(u8, u8); 4] = [
    (PROFILE_48K, KIND_NONE),
    (PROFILE_48K, KIND_MICRODISC),
    (PROFILE_48K, KIND_JASMIN),
    (PROFILE_16K, KIND_NONE),
];
/// Profiles and kinds of which no machine is made: a kind that there is not, a controller that the
/// 16K machine has not, a wrong profile.
pub const NO_MACHINES: [(u8, u8); 5] = [
    (PROFILE_48K, 3),
    (PROFILE_16K, 3),
    (PROFILE_16K, KIND_MICRODISC),
    (PROFILE_16K, KIND_JASMIN),
    (2, KIND_NONE),
];
/// Modes are 0 to 7.
pub const MODES: u8 = 8;
/// Counters on both sides of each change of the flash phase.
pub const COUNTERS: [u8; 4] = [0, 15, 16, 31];

/// Makes a test in both profiles.
pub fn in_each_profile(test: impl FnMut(u8)) {
    PROFILES.into_iter().for_each(test);
}

/// How long a memory image of a profile is.
pub fn image_length(profile: u8) -> usize {
    [IMAGE_LENGTH, IMAGE_LENGTH_16K][usize::from(profile)]
}

/// Every mode with every counter of [`COUNTERS`], of one profile.
pub fn start_states(profile: u8) -> impl Iterator<Item = State> {
    every_mode(profile, COUNTERS)
}

/// Every state of a profile that is not refused.
pub fn all_states(profile: u8) -> impl Iterator<Item = State> {
    every_mode(profile, 0..32)
}

fn every_mode(
    profile: u8,
    counters: impl IntoIterator<Item = u8> + Clone,
) -> impl Iterator<Item = State> {
    (0..MODES).flat_map(move |mode| {
        counters.clone().into_iter().map(move |counter| State {
            mode,
            counter,
            profile,
        })
    })
}

/// The fresh state of a profile, a wrong one too.
pub fn fresh_of_profile(profile: u8) -> State {
    State {
        profile,
        ..calls::fresh_state()
    }
}

/// A latch record.
pub fn latches(kind: u8, first: u8, second: u8) -> Latches {
    Latches {
        kind,
        first,
        second,
    }
}

/// Fresh latches of a controller kind, a wrong one too.
pub fn fresh_of_kind(kind: u8) -> Latches {
    Latches {
        kind,
        ..calls::fresh_latches()
    }
}

/// Any kind up to 3, so that some are refused, and now and then one far above. The 16K machine
/// refuses all but one kind, so for it that one is drawn more often.
pub fn random_latches(profile: u8, generator: &mut Xorshift) -> Latches {
    let [kind, far, first, second, ..] = generator.next().to_le_bytes();
    let kind = match far {
        0..=15 => kind,
        16..=191 if profile == PROFILE_16K => KIND_NONE,
        _ => kind % 4,
    };
    latches(kind, first, second)
}

/// So many bytes at random.
pub fn random_bytes(seed: u64, length: usize) -> Vec<u8> {
    let mut bytes = vec![0; length];
    Xorshift::new(seed).fill(&mut bytes);
    bytes
}

/// So many numbers of 16 bits at random.
pub fn random_numbers(seed: u64, length: usize) -> Vec<u16> {
    let bytes = random_bytes(seed, 2 * length);
    let pairs = bytes.chunks_exact(2);
    pairs
        .map(|pair| u16::from_le_bytes([pair[0], pair[1]]))
        .collect()
}
