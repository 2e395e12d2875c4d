//! Frames of every kind of image, by the library, by tables, by bit planes, and the limit of only
//! filling the buffer.

use std::time::Duration;

use tropfenpfad_conformance::images::Kind;
use tropfenpfad_conformance::inputs::COUNTERS;
use tropfenpfad_conformance::model::Video;

use crate::contest::{in_rotation, one_by_one, subjects, Contestant, Subject, IMAGES};
use crate::table::Table;

pub fn print() {
    let model = Video::new();
    println!();
    println!("## Frames");
    println!();
    println!(
        "{IMAGES} images of each kind, from every mode and the counters {COUNTERS:?}. Microseconds \
         a frame, each image at its best."
    );
    let table = begin();
    for kind in Kind::ALL {
        let times = one_by_one(contestants(&model, &subjects(kind)), 3);
        line(&table, kind, times);
    }
    println!();
    println!("## Frames in rotation");
    println!();
    println!(
        "No image is painted twice running, so that the processor's guesses at branches cannot be \
         learnt from it. Microseconds a frame, in the best round of the {IMAGES} images."
    );
    let table = begin();
    for kind in Kind::ALL {
        let times = in_rotation(contestants(&model, &subjects(kind)));
        line(&table, kind, times);
    }
}

fn contestants<'a>(model: &'a Video, subjects: &'a [Subject]) -> [Contestant<'a>; 4] {
    [
        Contestant::library(subjects),
        Contestant::tables(model, subjects),
        Contestant::planes(subjects),
        Contestant::fill(subjects),
    ]
}

fn begin() -> Table {
    let heads = [
        "kind",
        "library",
        "tables",
        "planes",
        "fill",
        "library frames/s",
        "library/tables",
        "library/planes",
        "library/fill",
    ];
    Table::begin(12, &heads)
}

fn line(table: &Table, kind: Kind, times: [Duration; 4]) {
    let [library, tables, planes, fill] = times.map(|time| time.as_secs_f64() / IMAGES as f64);
    table.line(&[
        format!("{kind:?}"),
        format!("{:.1}", library * 1e6),
        format!("{:.1}", tables * 1e6),
        format!("{:.1}", planes * 1e6),
        format!("{:.1}", fill * 1e6),
        format!("{:.0}", 1.0 / library),
        format!("{:.2}", library / tables),
        format!("{:.2}", library / planes),
        format!("{:.1}", library / fill),
    ]);
}
