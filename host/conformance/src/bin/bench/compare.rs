//! Comparisons of frames that are equal, nearly equal and altogether different.

use std::hint::black_box;
use std::time::Duration;

use tropfenpfad_conformance::comparisons::{Lists, HELD};
use tropfenpfad_conformance::images::Kind;
use tropfenpfad_conformance::random::Xorshift;
use tropfenpfad_sys::FRAME_LENGTH;

use crate::contest::{painted, subjects, IMAGES};
use crate::row::best;
use crate::table::Table;

/// Pixels of the nearly equal frames that differ.
const FEW: usize = 10;

/// Where differences are spread thinly, one pixel in so many differs.
const THIN: usize = 100;

pub fn print() {
    println!();
    println!("## Comparisons");
    println!();
    println!(
        "{IMAGES} painted frames of text images, each against a copy: unchanged, with {FEW} pixels \
         changed that are spread over it, with one in {THIN} at random, with all changed. Plain is \
         a comparison line by line and cell by cell in one pass, as a programmer would write it \
         first; fast passes over equal lines whole. Microseconds a comparison, each pair at its \
         best."
    );
    let frames: Vec<Vec<u8>> = subjects(Kind::Text).iter().map(painted).collect();
    let [library, plain, fast] = HELD.map(|(name, _)| name);
    let heads = [
        "differing",
        library,
        plain,
        fast,
        "library/plain",
        "library/fast",
    ];
    let table = Table::begin(12, &heads);
    line(&table, "no pixel", &frames, |_, _| ());
    line(&table, &format!("{FEW} pixels"), &frames, change_few);
    line(&table, &format!("1 in {THIN}"), &frames, change_thinly);
    line(&table, "all pixels", &frames, |_, frame| {
        frame.iter_mut().for_each(change);
    });
}

/// Gives a pixel its complement.
fn change(pixel: &mut u8) {
    *pixel = 7 - *pixel;
}

/// Changes one pixel in each part of the frame, in every frame others.
fn change_few(index: usize, frame: &mut [u8]) {
    let part = FRAME_LENGTH / FEW;
    for (number, pixels) in frame.chunks_exact_mut(part).enumerate() {
        change(&mut pixels[(index * 1009 + number * 2003) % part]);
    }
}

/// Changes pixels at random, in every frame others.
fn change_thinly(index: usize, frame: &mut [u8]) {
    let mut generator = Xorshift::new(index as u64);
    for pixel in frame {
        if generator.below(THIN) == 0 {
            change(pixel);
        }
    }
}

/// Measures a row and prints it; every frame is held against its copy with this change.
fn line(table: &Table, name: &str, frames: &[Vec<u8>], change: impl Fn(usize, &mut [u8])) {
    let mut total = [Duration::ZERO; HELD.len()];
    for (index, frame) in frames.iter().enumerate() {
        let mut grabbed = frame.clone();
        change(index, &mut grabbed);
        for (total, time) in total.iter_mut().zip(time_pair(frame, &grabbed)) {
            *total += time;
        }
    }
    let [library, plain, fast] = total.map(|time| time.as_secs_f64() / frames.len() as f64);
    table.line(&[
        name.into(),
        format!("{:.1}", library * 1e6),
        format!("{:.1}", plain * 1e6),
        format!("{:.1}", fast * 1e6),
        format!("{:.2}", library / plain),
        format!("{:.2}", library / fast),
    ]);
}

/// The best time of each contestant for one pair. Their reports have to be the same.
fn time_pair(first: &[u8], second: &[u8]) -> [Duration; HELD.len()] {
    let mut lists = HELD.map(|_| Lists::of(0));
    let mut answers = HELD.map(|_| None);
    let mut places = lists.iter_mut().zip(&mut answers);
    let mut runs = HELD.map(|(_, by)| {
        let (lists, answer) = places.next().expect("each has lists");
        move || {
            let given = lists.compare(by, black_box(first), black_box(second));
            *answer = Some(black_box(given));
        }
    });
    let times = best(runs.each_mut().map(|run| run as &mut dyn FnMut()));
    assert_eq!(
        (lists[0], answers[0]),
        (lists[1], answers[1]),
        "plain parts"
    );
    assert_eq!((lists[0], answers[0]), (lists[2], answers[2]), "fast parts");
    times
}
