//! Frames of the 16K machine, beside the frames of the 48K machine that show the same.

use std::time::Duration;

use tropfenpfad_conformance::images::{Kind, VIDEO_BLOCK};
use tropfenpfad_conformance::model::Video;
use tropfenpfad_sys::{State, PROFILE_16K};

use crate::contest::{one_by_one, subjects, Contestant, Subject, IMAGES};
use crate::table::Table;

pub fn print() {
    let model = Video::new();
    println!();
    println!("## Frames of the 16K machine");
    println!();
    println!(
        "The same pictures in both profiles: the memory of the 16K machine is what that of the 48K \
         machine holds from 8000 to BFFF. The models paint the 16K machine's. Microseconds a frame, \
         each image at its best."
    );
    let heads = [
        "kind",
        "library 48K",
        "library 16K",
        "tables",
        "planes",
        "16K/48K",
        "library/tables",
        "library/planes",
    ];
    let table = Table::begin(12, &heads);
    let mut all = [Duration::ZERO; 4];
    for kind in Kind::ALL {
        let large = subjects(kind);
        let small: Vec<Subject> = large.iter().map(of_16k).collect();
        let contestants = [
            Contestant::library(&large),
            Contestant::library(&small),
            Contestant::tables(&model, &small),
            Contestant::planes(&small),
        ];
        let times = one_by_one(contestants, 4);
        line(&table, &format!("{kind:?}"), IMAGES, times);
        for (all, time) in all.iter_mut().zip(times) {
            *all += time;
        }
    }
    line(&table, "all", IMAGES * Kind::ALL.len(), all);
}

/// The 16K machine that shows the same.
fn of_16k((memory, state): &Subject) -> Subject {
    let state = State {
        profile: PROFILE_16K,
        ..*state
    };
    (memory[VIDEO_BLOCK].to_vec(), state)
}

fn line(table: &Table, name: &str, images: usize, times: [Duration; 4]) {
    let [large, small, tables, planes] = times.map(|time| time.as_secs_f64() / images as f64);
    table.line(&[
        name.into(),
        format!("{:.1}", large * 1e6),
        format!("{:.1}", small * 1e6),
        format!("{:.1}", tables * 1e6),
        format!("{:.1}", planes * 1e6),
        format!("{:.3}", small / large),
        format!("{:.2}", small / tables),
        format!("{:.2}", small / planes),
    ]);
}
