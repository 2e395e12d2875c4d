//! Time against the number of frames, the state handed on from each to the next.

use std::hint::black_box;
use std::time::Instant;

use tropfenpfad_conformance::calls;
use tropfenpfad_conformance::images::{self, Kind};
use tropfenpfad_sys::{FRAME_LENGTH, PROFILE_48K};

use crate::row::ROUNDS;
use crate::table::Table;

const FRAMES: [usize; 5] = [1, 10, 100, 1_000, 10_000];

pub fn print() {
    println!();
    println!("## Growth");
    println!();
    println!(
        "One text image painted over and over by the library, the state handed on. Microseconds."
    );
    let memory = images::image(PROFILE_48K, Kind::Text, 1);
    let mut frame = vec![0; FRAME_LENGTH];
    let table = Table::begin(6, &["frames", "    all", "a frame"]);
    for frames in FRAMES {
        let micros = time_run(&memory, &mut frame, frames);
        table.line(&[
            frames.to_string(),
            format!("{micros:.0}"),
            format!("{:.1}", micros / frames as f64),
        ]);
    }
}

/// The best time for so many frames, in microseconds; long runs are made less often.
fn time_run(memory: &[u8], frame: &mut [u8], frames: usize) -> f64 {
    let runs = (20_000 / frames).clamp(8, ROUNDS);
    let run = |_| {
        let mut state = calls::fresh_state();
        let start = Instant::now();
        for _ in 0..frames {
            state = black_box(calls::paint_frame(memory, state, frame)).state;
        }
        start.elapsed()
    };
    let best = (0..runs).map(run).min().expect("at least eight runs");
    best.as_secs_f64() * 1e6
}
