//! The tests that stand before an answer. Each gives its number and whether it applies.

use tropfenpfad_sys::{
    Cycle, Latches, COLUMNS, IMAGE_LENGTH, IMAGE_LENGTH_16K, LINES, LONGEST_TRACE, PROFILE_16K,
};

/// A refusal's number, and whether it applies.
pub(super) type Test = (u8, bool);

/// The number of the first refusal of the list that applies, or 0 where none does.
pub(super) fn first_of(tests: &[Test]) -> u8 {
    tests
        .iter()
        .find(|(_, applies)| *applies)
        .map_or(0, |(number, _)| *number)
}

pub(super) fn of_memory(profile: u8, memory: &[u8]) -> Test {
    let length = match profile {
        PROFILE_16K => IMAGE_LENGTH_16K,
        _ => IMAGE_LENGTH,
    };
    (1, memory.len() != length)
}

pub(super) fn of_output<T>(output: &[T], length: usize) -> Test {
    (2, output.len() != length)
}

pub(super) fn of_mode(mode: u8) -> Test {
    (3, mode > 7)
}

pub(super) fn of_counter(counter: u8) -> Test {
    (4, counter > 31)
}

pub(super) fn of_line(line: usize) -> Test {
    (5, line >= LINES)
}

pub(super) fn of_column(column: usize) -> Test {
    (6, column >= COLUMNS)
}

pub(super) fn of_kind(latches: Latches) -> Test {
    (7, latches.kind > 2)
}

pub(super) fn of_trace(cycles: &[Cycle]) -> Test {
    (8, cycles.len() > LONGEST_TRACE)
}

pub(super) fn of_profile(profile: u8) -> Test {
    (12, profile > 1)
}

pub(super) fn of_controller(profile: u8, latches: Latches) -> Test {
    (13, profile == PROFILE_16K && latches.kind > 0)
}
