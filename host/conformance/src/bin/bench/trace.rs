//! Lists of accesses in one call, by single calls and by the model.

use std::hint::black_box;
use std::time::Duration;

use tropfenpfad_conformance::calls;
use tropfenpfad_conformance::images::{self, Kind};
use tropfenpfad_conformance::inputs::{fresh_of_kind, MACHINES};
use tropfenpfad_conformance::model::Bus;
use tropfenpfad_conformance::random::Xorshift;
use tropfenpfad_conformance::traces::{one_at_a_time, random_cycles, Trace};
use tropfenpfad_sys::{Cycle, Latches, LONGEST_TRACE};

use crate::row::best;
use crate::table::Table;

/// Lists in a round.
const LISTS: usize = 32;

/// The machines, in the order of [`MACHINES`].
const NAMES: [&str; 4] = ["48K", "Microdisc", "Jasmin", "16K"];

/// Makes an access one of a mix.
type Shape = fn(&mut Cycle);

/// What the accesses of a list are, with their names.
const MIXES: [(&str, Shape); 3] = [
    ("reads", |cycle| cycle.write = 0),
    ("writes", |cycle| cycle.write = 1),
    ("mixed", |_| ()),
];

pub fn print() {
    println!();
    println!("## Traces");
    println!();
    println!(
        "{LISTS} lists of {LONGEST_TRACE} accesses in a round, at addresses that are rich in page 3 \
         and in the upper 16K: reads alone, writes alone, either at random. One write in eight goes \
         to an address at which one of the controllers has a latch. Single is the library's read or \
         write for each access, its answer put into the same records. Nanoseconds an access, in the \
         best round."
    );
    let heads = [
        "accesses",
        "trace",
        "single",
        "model",
        "trace/single",
        "trace/model",
    ];
    let table = Table::begin(17, &heads);
    let mut all = [Duration::ZERO; 3];
    for (name, machine) in NAMES.into_iter().zip(MACHINES) {
        for (mix, shape) in MIXES {
            let name = format!("{name}, {mix}");
            let times = time_round(&name, machine, shape);
            line(&table, &name, 1, times);
            for (all, time) in all.iter_mut().zip(times) {
                *all += time;
            }
        }
    }
    line(&table, "all", NAMES.len() * MIXES.len(), all);
}

/// Prints the row of so many rounds.
fn line(table: &Table, name: &str, rounds: usize, times: [Duration; 3]) {
    let accesses = (rounds * LISTS * LONGEST_TRACE) as f64;
    let [trace, single, model] = times.map(|time| time.as_secs_f64() * 1e9 / accesses);
    table.line(&[
        name.into(),
        format!("{trace:.1}"),
        format!("{single:.1}"),
        format!("{model:.1}"),
        format!("{:.2}", trace / single),
        format!("{:.2}", trace / model),
    ]);
}

/// What one contestant is lent: it keeps memory and records from round to round, and begins each
/// list with the same latches.
#[derive(Clone, PartialEq)]
struct Lent {
    memory: Vec<u8>,
    lists: Vec<Vec<Cycle>>,
    /// As the last list has left them.
    latches: Latches,
}

/// The best time of each contestant for one round. What they leave has to be the same.
fn time_round(name: &str, (profile, kind): (u8, u8), shape: Shape) -> [Duration; 3] {
    let mut generator = Xorshift::new(1);
    let latches = fresh_of_kind(kind);
    let mut lent = Lent {
        memory: images::image(profile, Kind::Random, 1),
        lists: (0..LISTS)
            .map(|_| random_cycles(&mut generator, LONGEST_TRACE))
            .collect(),
        latches,
    };
    lent.lists.iter_mut().flatten().for_each(shape);
    let model = Bus::new();
    let by_model = |memory: &mut [u8], profile: u8, latches: Latches, cycles: &mut [Cycle]| {
        model.trace(memory, profile, latches, cycles)
    };
    let contestants: [Trace; 3] = [&calls::trace, &one_at_a_time, &by_model];
    let mut lent = [lent.clone(), lent.clone(), lent];
    let mut places = lent.iter_mut();
    let mut runs = contestants.map(|trace| {
        let lent = places.next().expect("each has its own");
        move || {
            for cycles in &mut lent.lists {
                let answer = trace(&mut lent.memory, profile, black_box(latches), cycles);
                lent.latches = answer.latches;
            }
        }
    });
    let times = best(runs.each_mut().map(|run| run as &mut dyn FnMut()));
    assert!(lent[0] == lent[1], "{name}: single calls part");
    assert!(lent[0] == lent[2], "{name}: the model parts");
    times
}
