//! One row: the same work by the library and by its model.

use std::time::{Duration, Instant};

use crate::table::Table;

/// How often each contestant runs.
pub const ROUNDS: usize = 40;

/// Runs each contestant in turn, several times over; gives the best time of each.
pub fn best<const N: usize>(mut contestants: [&mut dyn FnMut(); N]) -> [Duration; N] {
    let mut best = [Duration::MAX; N];
    for _ in 0..ROUNDS {
        for (run, best) in contestants.iter_mut().zip(&mut best) {
            let start = Instant::now();
            run();
            *best = start.elapsed().min(*best);
        }
    }
    best
}

/// The same work by two contestants. Each begins with what is lent and hands it from run to run;
/// what both have made of it in the end must be equal.
pub struct Row<'a, T> {
    pub name: &'a str,
    /// How many answers one run gives.
    pub answers: usize,
    pub lent: T,
    pub library: &'a dyn Fn(&mut T),
    pub model: &'a dyn Fn(&mut T),
}

/// The table of rows.
pub struct Rows(Table);

impl Rows {
    pub fn begin() -> Self {
        println!();
        println!("## Calls");
        println!();
        println!("Nanoseconds an answer.");
        let heads = ["call", "library", "model", "library/model"];
        Rows(Table::begin(30, &heads))
    }

    /// Measures a row and prints it.
    pub fn add<T: Clone + PartialEq>(&self, row: Row<T>) {
        let [mut first, mut second] = [row.lent.clone(), row.lent];
        let times = best([&mut || (row.library)(&mut first), &mut || {
            (row.model)(&mut second)
        }]);
        assert!(first == second, "{}: library and model part", row.name);
        let [library, model] = times.map(|time| time.as_secs_f64() * 1e9 / row.answers as f64);
        self.0.line(&[
            row.name.into(),
            format!("{library:.1}"),
            format!("{model:.1}"),
            format!("{:.2}", library / model),
        ]);
    }
}
