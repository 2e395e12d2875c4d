//! Searches for the slip of lines that are alike, moved, striped and altogether different.

use std::hint::black_box;

use tropfenpfad_conformance::images::Kind;
use tropfenpfad_conformance::inputs::random_bytes;
use tropfenpfad_conformance::model::slip::SLIPS;
use tropfenpfad_conformance::slips::{moved, stripes, FARTHEST, HELD};
use tropfenpfad_sys::{Slip, LINES, LINE_LENGTH};

use crate::contest::{painted, subjects};
use crate::row::best;
use crate::table::Table;

/// A reference and a grabbed line.
type Pair = [Vec<u8>; 2];

pub fn print() {
    println!();
    println!("## Slips");
    println!();
    println!(
        "{LINES} pairs of lines in a round: random pixels in both; the lines of a painted text image \
         against copies; the same against copies moved by each slip in turn; stripes of each width \
         up to {} against inverted ones. Plain is a search slip by slip and pixel by pixel, both \
         ends tested at every pixel, as a programmer would write it first. Microseconds a search, \
         in the best round.",
        FARTHEST + 1
    );
    let [library, plain] = HELD.map(|(name, _)| name);
    let heads = [
        "lines",
        library,
        plain,
        "library lines/s",
        "plain lines/s",
        "library/plain",
    ];
    let table = Table::begin(12, &heads);
    let frame = painted(&subjects(Kind::Text)[0]);
    let lines: Vec<&[u8]> = frame.chunks_exact(LINE_LENGTH).collect();
    line(&table, "random", |index| {
        [index, LINES + index].map(random_line)
    });
    line(&table, "equal", |index| [lines[index]; 2].map(Vec::from));
    line(&table, "moved", |index| {
        let slip = SLIPS.cycle().nth(index).expect("slips come again");
        let incoming = lines[(index + 1) % LINES];
        let grabbed = moved(lines[index], slip.into(), incoming);
        [lines[index].into(), grabbed]
    });
    line(&table, "stripes", |index| {
        let reference = stripes(1 + index % (FARTHEST + 1));
        let grabbed = reference.iter().map(|colour| 1 - colour).collect();
        [reference, grabbed]
    });
}

/// Pixels of all eight colours.
fn random_line(seed: usize) -> Vec<u8> {
    let mut line = random_bytes(seed as u64, LINE_LENGTH);
    line.iter_mut().for_each(|pixel| *pixel %= 8);
    line
}

/// Measures a row and prints it. The answers have to be the same.
fn line(table: &Table, name: &str, pair: impl Fn(usize) -> Pair) {
    let pairs: Vec<Pair> = (0..LINES).map(pair).collect();
    let mut answers = HELD.map(|_| Vec::<Slip>::with_capacity(LINES));
    let mut places = answers.iter_mut();
    let mut runs = HELD.map(|(_, find_slip)| {
        let (pairs, answers) = (&pairs, places.next().expect("each has answers"));
        move || {
            answers.clear();
            for [reference, grabbed] in pairs {
                answers.push(find_slip(black_box(reference), black_box(grabbed)));
            }
        }
    });
    let times = best(runs.each_mut().map(|run| run as &mut dyn FnMut()));
    assert!(answers[0] == answers[1], "{name}: library and plain part");
    let [library, plain] = times.map(|time| time.as_secs_f64() / LINES as f64);
    table.line(&[
        name.into(),
        format!("{:.2}", library * 1e6),
        format!("{:.2}", plain * 1e6),
        format!("{:.0}", 1.0 / library),
        format!("{:.0}", 1.0 / plain),
        format!("{:.2}", library / plain),
    ]);
}
