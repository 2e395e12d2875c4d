//! Frames with a map of the used addresses, beside the same frames without one.

use std::time::Duration;

use tropfenpfad_conformance::images::Kind;
use tropfenpfad_conformance::model::Video;

use crate::contest::{one_by_one, subjects, Contestant, IMAGES};
use crate::table::Table;

pub fn print() {
    let model = Video::new();
    println!();
    println!("## Frames with a map");
    println!();
    println!(
        "The images of the frames above. The map is cleared before each frame, which is in the time; \
         tables follows the cells a second time for it. Microseconds a frame, each image at its best."
    );
    let heads = [
        "kind",
        "without",
        "with a map",
        "tables with a map",
        "with/without",
        "library/tables",
    ];
    let table = Table::begin(12, &heads);
    let mut all = [Duration::ZERO; 3];
    for kind in Kind::ALL {
        let subjects = subjects(kind);
        let contestants = [
            Contestant::library_mapped(&subjects),
            Contestant::tables_mapped(&model, &subjects),
            Contestant::library(&subjects),
        ];
        let times = one_by_one(contestants, 2);
        line(&table, &format!("{kind:?}"), IMAGES, times);
        for (all, time) in all.iter_mut().zip(times) {
            *all += time;
        }
    }
    line(&table, "all", IMAGES * Kind::ALL.len(), all);
}

fn line(table: &Table, name: &str, images: usize, times: [Duration; 3]) {
    let [mapped, tables, plain] = times.map(|time| time.as_secs_f64() / images as f64);
    table.line(&[
        name.into(),
        format!("{:.1}", plain * 1e6),
        format!("{:.1}", mapped * 1e6),
        format!("{:.1}", tables * 1e6),
        format!("{:.2}", mapped / plain),
        format!("{:.2}", mapped / tables),
    ]);
}
