//! Every one and every two wrong inputs: which number is given, and what comes back with it. The
//! model is held to the same lists as the library.

use tropfenpfad_conformance::calls;
use tropfenpfad_conformance::inputs::{
    fresh_of_kind, image_length, in_each_profile, MACHINES, PROFILES,
};
use tropfenpfad_conformance::model::Bus;
use tropfenpfad_conformance::random::Xorshift;
use tropfenpfad_conformance::refusals::{
    lent_bytes, lent_cycles, status_with_memory_of, tracings, Tally, Tracing,
};
use tropfenpfad_conformance::traces::{random_cycles, Trace};
use tropfenpfad_sys::{Cycle, Latches, Traced, PROFILE_16K, PROFILE_48K};

/// The order of the refusals.
const ORDER: [u8; 5] = [12, 1, 7, 13, 8];
/// Lengths of lists that every value of another input is tried with: none, the longest, one more.
const COUNTS: [usize; 3] = [0, 1024, 1025];

/// What is lent, and what it holds before each call.
struct Lent {
    memory: Vec<u8>,
    cycles: Vec<Cycle>,
    untouched: (Vec<u8>, Vec<Cycle>),
}

impl Lent {
    fn new(cycles: Vec<Cycle>) -> Self {
        let memory = lent_bytes();
        Lent {
            memory: memory.clone(),
            cycles: cycles.clone(),
            untouched: (memory, cycles),
        }
    }

    /// Makes a call, for which a number is due. Where it is 0 all is put back as it was before.
    #[track_caller]
    fn trace(&mut self, trace: Trace, inputs: Tracing, number: u8) {
        let Tracing {
            profile, latches, ..
        } = inputs;
        let memory = &mut self.memory[..inputs.memory];
        let cycles = &mut self.cycles[..inputs.cycles];
        let answer = trace(memory, profile, latches, cycles);
        if number == 0 {
            assert_eq!(answer.status, 0, "{inputs:?}");
            memory.copy_from_slice(&self.untouched.0[..inputs.memory]);
            cycles.copy_from_slice(&self.untouched.1[..inputs.cycles]);
        } else {
            let refused = Traced {
                status: number,
                latches,
            };
            assert_eq!(answer, refused, "{inputs:?}");
        }
    }

    /// Fails if one of the calls has changed anything that it should not.
    #[track_caller]
    fn check(&self, what: &str) {
        assert!(self.memory == self.untouched.0, "{what}: memory");
        assert!(self.cycles == self.untouched.1, "{what}: records");
    }
}

/// Tries a trace with every one and every two wrong inputs.
fn refuse(name: &str, trace: Trace) {
    let mut lent = Lent::new(lent_cycles());
    let mut tally = Tally::default();
    for (inputs, wrong) in tracings() {
        let refusals: Vec<(u8, bool)> = ORDER.into_iter().zip(wrong).collect();
        let number = tally.due(&refusals);
        lent.trace(trace, inputs, number);
        lent.check(&format!("{name}: {inputs:?}"));
        tally.count(number);
    }
    tally.finish(name);
}

#[test]
fn a_trace_refused_wrongly_or_not_left_alone() {
    refuse("trace", &calls::trace);
}

#[test]
fn a_model_that_refuses_otherwise() {
    let model = Bus::new();
    refuse("model trace", &|memory, profile, latches, cycles| {
        model.trace(memory, profile, latches, cycles)
    });
}

/// Tries the library with many values of one input.
struct Sweep {
    lent: Lent,
    tally: Tally,
}

impl Sweep {
    fn new() -> Self {
        Sweep {
            lent: Lent::new(lent_cycles()),
            tally: Tally::default(),
        }
    }

    /// Calls with each length of [`COUNTS`]. The number is that of the other inputs: 8 is due for a
    /// list that is too long where it is 0.
    #[track_caller]
    fn attempt(&mut self, memory: usize, profile: u8, latches: Latches, number: u8) {
        for cycles in COUNTS {
            let inputs = Tracing {
                memory,
                profile,
                latches,
                cycles,
            };
            let number = match number {
                0 if cycles > 1024 => 8,
                _ => number,
            };
            self.lent.trace(&calls::trace, inputs, number);
            self.tally.count(number);
        }
    }

    #[track_caller]
    fn finish(&self, what: &str) {
        self.lent.check(what);
        self.tally.finish(what);
    }
}

fn try_memory_lengths(profile: u8) {
    let mut sweep = Sweep::new();
    for length in 0..=sweep.lent.memory.len() {
        let number = u8::from(length != image_length(profile));
        sweep.attempt(length, profile, calls::fresh_latches(), number);
    }
    sweep.finish(&format!(
        "profile {profile}, traces with every length of memory up to 131,072"
    ));
}

#[test]
fn a_memory_length_taken_wrongly() {
    in_each_profile(try_memory_lengths);
}

/// Every kind in a profile that takes those below `kinds`, and gives 13 for others up to 2.
fn try_kinds(profile: u8, kinds: u8) {
    let mut sweep = Sweep::new();
    for kind in 0..=u8::MAX {
        let number = match kind {
            3.. => 7,
            _ if kind < kinds => 0,
            _ => 13,
        };
        sweep.attempt(image_length(profile), profile, fresh_of_kind(kind), number);
    }
    sweep.finish(&format!("profile {profile}, traces with every kind"));
}

#[test]
fn a_kind_taken_wrongly() {
    try_kinds(PROFILE_48K, 3);
    try_kinds(PROFILE_16K, 1);
}

#[test]
fn a_profile_taken_wrongly() {
    let mut sweep = Sweep::new();
    for profile in 0..=u8::MAX {
        for right in PROFILES {
            let number = status_with_memory_of(right, profile);
            sweep.attempt(image_length(right), profile, calls::fresh_latches(), number);
        }
    }
    sweep.finish("traces with every profile");
}

#[test]
fn a_number_of_records_taken_wrongly() {
    // Beyond 65,536 there are lengths that 16 bits take for short ones.
    let greatest = 0x1_0000 + 1024 + 1;
    let mut lent = Lent::new(random_cycles(&mut Xorshift::new(1), greatest));
    let mut tally = Tally::default();
    for (profile, kind) in MACHINES {
        for cycles in 0..=greatest {
            let inputs = Tracing {
                memory: image_length(profile),
                profile,
                latches: fresh_of_kind(kind),
                cycles,
            };
            let number = if cycles <= 1024 { 0 } else { 8 };
            lent.trace(&calls::trace, inputs, number);
            tally.count(number);
        }
    }
    lent.check("lists of every length");
    tally.finish("lists of every length up to 66,561 records");
}
