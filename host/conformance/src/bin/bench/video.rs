//! Screen addresses and lines, with a map and without one.

use std::hint::black_box;

use tropfenpfad_conformance::calls;
use tropfenpfad_conformance::images::{self, Kind};
use tropfenpfad_conformance::inputs::{fresh_of_profile, MODES};
use tropfenpfad_conformance::model::Video;
use tropfenpfad_sys::{COLUMNS, LINES, LINE_LENGTH, MAP_LENGTH, PROFILE_16K, PROFILE_48K};

use crate::row::{Row, Rows};

pub fn rows(rows: &Rows) {
    let video = Video::new();
    screen_addresses(rows, "screen address, every cell", &video, PROFILE_48K);
    screen_addresses(rows, "screen address, 16K machine", &video, PROFILE_16K);
    lines(rows, "every line of a text image", &video, PROFILE_48K);
    lines(rows, "every line, 16K machine", &video, PROFILE_16K);
    lines_mapped(rows, "every line with a map", &video, PROFILE_48K);
    lines_mapped(rows, "with a map, 16K machine", &video, PROFILE_16K);
}

/// Every line and column with every mode.
fn cells() -> impl Iterator<Item = (usize, usize, u8)> {
    (0..LINES).flat_map(|line| {
        (0..COLUMNS).flat_map(move |column| (0..MODES).map(move |mode| (line, column, mode)))
    })
}

fn screen_addresses(rows: &Rows, name: &str, video: &Video, profile: u8) {
    rows.add(Row {
        name,
        answers: cells().count(),
        lent: (),
        library: &|()| {
            for (line, column, mode) in cells() {
                black_box(calls::screen_address(profile, line, column, mode));
            }
        },
        model: &|()| {
            for (line, column, mode) in cells() {
                black_box(video.screen_address(profile, line, column, mode));
            }
        },
    });
}

fn lines(rows: &Rows, name: &str, video: &Video, profile: u8) {
    let memory = images::image(profile, Kind::Text, 1);
    let state = fresh_of_profile(profile);
    rows.add(Row {
        name,
        answers: LINES,
        lent: [0; LINE_LENGTH],
        library: &|output| {
            for line in 0..LINES {
                black_box(calls::paint_line(&memory, state, line, output));
            }
        },
        model: &|output| {
            for line in 0..LINES {
                black_box(video.paint_line(&memory, state, line, output));
            }
        },
    });
}

fn lines_mapped(rows: &Rows, name: &str, video: &Video, profile: u8) {
    let memory = images::image(profile, Kind::Text, 1);
    let state = fresh_of_profile(profile);
    rows.add(Row {
        name,
        answers: LINES,
        lent: ([0; LINE_LENGTH], [0; MAP_LENGTH]),
        library: &|(output, map)| {
            for line in 0..LINES {
                black_box(calls::paint_line_mapped(&memory, state, line, output, map));
            }
        },
        model: &|(output, map)| {
            for line in 0..LINES {
                black_box(video.paint_line_mapped(&memory, state, line, output, map));
            }
        },
    });
}
