//! Lists in one call against the same accesses by single calls and against the model: every field of
//! every record, the latches, and memory whole.

use std::{mem, slice};

use tropfenpfad_conformance::buffers::assert_same_bytes;
use tropfenpfad_conformance::calls;
use tropfenpfad_conformance::images::{self, Kind};
use tropfenpfad_conformance::inputs::{fresh_of_kind, latches, MACHINES, PROFILES};
use tropfenpfad_conformance::model::Bus;
use tropfenpfad_conformance::random::Xorshift;
use tropfenpfad_conformance::traces::{
    crowded_cycles, one_at_a_time, random_cycles, read, write, Trace,
};
use tropfenpfad_sys::{Cycle, Latches, KIND_JASMIN, KIND_MICRODISC, KIND_NONE, PROFILE_48K};

/// Records of the longest list.
const LONGEST: usize = 1024;

/// Makes a list of so many random accesses.
type List = fn(&mut Xorshift, usize) -> Vec<Cycle>;

/// A list, and the machine that its accesses are made on, as they are lent or as a call left them.
#[derive(Clone)]
struct Burst {
    memory: Vec<u8>,
    profile: u8,
    latches: Latches,
    cycles: Vec<Cycle>,
}

impl Burst {
    fn new(profile: u8, latches: Latches) -> Self {
        Burst {
            memory: images::image(profile, Kind::Random, 1),
            profile,
            latches,
            cycles: Vec::new(),
        }
    }

    /// Takes a list of random accesses, and anything into the latches; memory stays.
    fn draw(&mut self, generator: &mut Xorshift, list: List, count: usize) {
        [self.latches.first, self.latches.second] = [0; 2].map(|_| generator.byte());
        self.cycles = list(generator, count);
    }

    /// Lends all of it; the latches are then those of the answer.
    #[track_caller]
    fn make(&mut self, trace: Trace) {
        let answer = trace(
            &mut self.memory,
            self.profile,
            self.latches,
            &mut self.cycles,
        );
        assert_eq!(answer.status, 0);
        self.latches = answer.latches;
    }

    /// Fails with the first thing in which two of them differ.
    #[track_caller]
    fn assert_same(&self, what: &str, other: &Burst) {
        assert_eq!(self.cycles.len(), other.cycles.len(), "{what}");
        for (place, pair) in self.cycles.iter().zip(&other.cycles).enumerate() {
            assert_eq!(pair.0, pair.1, "{what}, record {place}");
        }
        assert_eq!(self.latches, other.latches, "{what}, latches");
        assert_same_bytes(&format!("{what}, memory"), &self.memory, &other.memory);
    }
}

/// Each machine, with no list.
fn machines() -> impl Iterator<Item = Burst> {
    let machines = MACHINES.into_iter();
    machines.map(|(profile, kind)| Burst::new(profile, fresh_of_kind(kind)))
}

/// Makes lists by one call, by single calls and by the model.
#[derive(Default)]
struct Bench {
    model: Bus,
    lists: usize,
    records: usize,
}

impl Bench {
    /// Makes a list three times and compares all that is left.
    #[track_caller]
    fn burst(&mut self, what: &str, burst: &mut Burst) {
        let what = format!("{what}, profile {}, {:?}", burst.profile, burst.latches);
        let [mut single, mut model] = [burst.clone(), burst.clone()];
        burst.make(&calls::trace);
        single.make(&one_at_a_time);
        model.make(&|memory, profile, latches, cycles| {
            self.model.trace(memory, profile, latches, cycles)
        });
        burst.assert_same(&format!("{what}, single calls"), &single);
        burst.assert_same(&format!("{what}, model"), &model);
        self.lists += 1;
        self.records += burst.cycles.len();
    }

    /// Makes a list of accesses whose target, number and byte read are known.
    #[track_caller]
    fn known(&mut self, what: &str, burst: &mut Burst, steps: &[(Cycle, (u8, u16, u8))]) {
        burst.cycles = steps.iter().map(|(cycle, _)| *cycle).collect();
        self.burst(what, burst);
        for (place, (cycle, (_, known))) in burst.cycles.iter().zip(steps).enumerate() {
            let filled = (cycle.target, cycle.number, cycle.byte_read);
            assert_eq!(filled, *known, "{what}, record {place}");
        }
    }

    fn finish(&self, what: &str) {
        println!(
            "{what}: {} lists compared, {} records",
            self.lists, self.records
        );
    }
}

#[test]
fn a_length_at_which_a_list_is_answered_otherwise() {
    let mut bench = Bench::default();
    let mut generator = Xorshift::new(1);
    for mut burst in machines() {
        for count in 0..=LONGEST {
            burst.draw(&mut generator, random_cycles, count);
            bench.burst(&format!("{count} records"), &mut burst);
        }
    }
    bench.finish("every length up to 1,024");
}

#[test]
fn an_access_answered_otherwise_than_alone() {
    let mut bench = Bench::default();
    let mut generator = Xorshift::new(2);
    for mut burst in machines() {
        for list in 0..1000 {
            burst.draw(&mut generator, random_cycles, LONGEST);
            bench.burst(&format!("list {list}"), &mut burst);
        }
    }
    bench.finish("random accesses");
}

#[test]
fn an_access_that_misses_what_an_earlier_one_stored() {
    let mut bench = Bench::default();
    let mut generator = Xorshift::new(3);
    for mut burst in machines() {
        for list in 0..1000 {
            let count = 2 + generator.below(LONGEST - 1);
            burst.draw(&mut generator, crowded_cycles, count);
            bench.burst(&format!("list {list}"), &mut burst);
        }
    }
    bench.finish("accesses to few addresses");
}

/// A write to each of these addresses, with a read behind it.
fn written_and_read(addresses: &[u16]) -> Vec<Cycle> {
    let pair = |&address: &u16| {
        let byte = (address >> 8) as u8 ^ address as u8;
        [write(address, byte), read(address)]
    };
    addresses.iter().flat_map(pair).collect()
}

#[test]
fn an_address_that_a_list_reaches_otherwise() {
    let mut bench = Bench::default();
    let addresses: Vec<u16> = (0..=u16::MAX).collect();
    for mut burst in machines() {
        for pair in 0..10 {
            let first = [0x00, 0x01, 0x02, 0x80, 0x82][pair / 2];
            let record = latches(burst.latches.kind, first, pair as u8 % 2);
            for part in addresses.chunks(LONGEST / 2) {
                burst.latches = record;
                burst.cycles = written_and_read(part);
                bench.burst(&format!("from {:04x}", part[0]), &mut burst);
            }
        }
    }
    bench.finish("every address under 40 latch records");
}

#[test]
fn a_microdisc_latch_that_holds_too_early_or_too_late() {
    let mut bench = Bench::default();
    let mut burst = Burst::new(PROFILE_48K, fresh_of_kind(KIND_MICRODISC));
    [burst.memory[0xC000], burst.memory[0xE000]] = [0x5A, 0xA5];
    let steps = [
        (read(0xE000), (5, 0x0000, 0)),
        (read(0xC000), (4, 0xC000, 0x5A)),
        (write(0x0314, 0x02), (2, 0x0014, 0)),
        (read(0xC000), (3, 0x0000, 0)),
        (write(0xC000, 0x77), (3, 0x0000, 0)),
        (read(0xE000), (3, 0x2000, 0)),
        (write(0x0314, 0xFD), (2, 0x0014, 0)),
        (read(0xC000), (4, 0xC000, 0x5A)),
        (read(0xE000), (4, 0xE000, 0xA5)),
        (write(0xE000, 0x42), (4, 0xE000, 0)),
        (read(0xE000), (4, 0xE000, 0x42)),
        // The Jasmin's latches are not there.
        (write(0x03FA, 0x00), (1, 0x000A, 0)),
        (write(0x03FB, 0x99), (1, 0x000B, 0)),
        (read(0xE000), (4, 0xE000, 0x42)),
        (write(0x0314, 0x00), (2, 0x0014, 0)),
        (read(0xE000), (5, 0x0000, 0)),
        (write(0x0314, 0x80), (2, 0x0014, 0)),
    ];
    bench.known("Microdisc", &mut burst, &steps);
    assert_eq!(burst.latches, latches(KIND_MICRODISC, 0x80, 0));
    assert_eq!([burst.memory[0xC000], burst.memory[0xE000]], [0x5A, 0x42]);
    bench.finish("Microdisc");
}

#[test]
fn a_jasmin_latch_that_holds_too_early_or_too_late() {
    let mut bench = Bench::default();
    let mut burst = Burst::new(PROFILE_48K, fresh_of_kind(KIND_JASMIN));
    burst.memory[0xC000] = 0x5A;
    let steps = [
        (read(0xC000), (3, 0x0000, 0)),
        (write(0x03FB, 0x01), (2, 0x00FB, 0)),
        (read(0xC000), (5, 0x0000, 0)),
        (write(0xC000, 0x77), (5, 0x0000, 0)),
        (write(0x03FA, 0x01), (2, 0x00FA, 0)),
        (read(0xC000), (4, 0xC000, 0x5A)),
        (write(0xC000, 0x42), (4, 0xC000, 0)),
        (write(0x03FB, 0xFE), (2, 0x00FB, 0)),
        (read(0xC000), (4, 0xC000, 0x42)),
        // The Microdisc's latch is not there.
        (write(0x0314, 0x02), (1, 0x0004, 0)),
        (read(0xC000), (4, 0xC000, 0x42)),
        (write(0x03FA, 0xFE), (2, 0x00FA, 0)),
        (read(0xC000), (3, 0x0000, 0)),
        (write(0x03FB, 0x81), (2, 0x00FB, 0)),
        (read(0xFFFF), (5, 0x3FFF, 0)),
    ];
    bench.known("Jasmin", &mut burst, &steps);
    assert_eq!(burst.latches, latches(KIND_JASMIN, 0xFE, 0x81));
    assert_eq!(burst.memory[0xC000], 0x42);
    bench.finish("Jasmin");
}

#[test]
fn a_latch_that_is_not_fitted() {
    let mut bench = Bench::default();
    for profile in PROFILES {
        let before = Burst::new(profile, latches(KIND_NONE, 0x34, 0x56));
        let mut burst = before.clone();
        let steps = [
            (write(0x0314, 0x01), (1, 0x0004, 0)),
            (write(0x03FA, 0x01), (1, 0x000A, 0)),
            (write(0x03FB, 0x01), (1, 0x000B, 0)),
            (read(0xC000), (3, 0x0000, 0)),
        ];
        bench.known("no controller", &mut burst, &steps);
        burst.cycles.clear();
        burst.assert_same("before and after", &before);
    }
    bench.finish("no controller");
}

#[test]
fn a_latch_that_a_read_sets() {
    let mut bench = Bench::default();
    for mut burst in machines() {
        let before = burst.clone();
        let read = |address| Cycle {
            write: 0,
            ..write(address, 0xFF)
        };
        burst.cycles = [0x0314, 0x03FA, 0x03FB].map(read).into();
        bench.burst("reads", &mut burst);
        burst.cycles.clear();
        burst.assert_same("before and after", &before);
    }
    bench.finish("reads of latches");
}

/// Reads of C000 with one write to a latch among them, after which overlay RAM is there in place of
/// BASIC ROM.
fn switched(latch: u16, count: usize, place: usize, overlay: u8) -> Vec<(Cycle, (u8, u16, u8))> {
    let mut steps = vec![(read(0xC000), (4, 0xC000, overlay)); count];
    steps[..place].fill((read(0xC000), (3, 0x0000, 0)));
    steps[place] = (write(latch, 0x81), (2, latch - 0x0300, 0));
    steps
}

#[test]
fn a_latch_that_holds_from_another_record_on() {
    let mut bench = Bench::default();
    let boards = [
        (0x0314, latches(KIND_MICRODISC, 0x02, 0)),
        (0x03FA, latches(KIND_JASMIN, 0x00, 0)),
    ];
    for (latch, record) in boards {
        let mut burst = Burst::new(PROFILE_48K, record);
        let overlay = burst.memory[0xC000];
        for count in (1..=20).chain([LONGEST - 1, LONGEST]) {
            for place in (0..count).filter(|place| *place < 20 || place + 20 > count) {
                let steps = switched(latch, count, place, overlay);
                burst.latches = record;
                let what = format!("{latch:04x} written by record {place} of {count}");
                bench.known(&what, &mut burst, &steps);
                assert_eq!(burst.latches.first, 0x81, "{what}");
            }
        }
    }
    bench.finish("one latch write");
}

/// Gives all records of a list this value.
fn set_write(burst: &mut Burst, value: u8) {
    burst
        .cycles
        .iter_mut()
        .for_each(|cycle| cycle.write = value);
}

#[test]
fn a_value_of_write_taken_otherwise() {
    let mut bench = Bench::default();
    // Both latches take bytes that select the overlay.
    let accesses = [
        write(0x0000, 0x11),
        write(0x0300, 0x22),
        write(0x4314, 0x33),
        write(0xC000, 0x44),
        write(0x0314, 0x81),
        write(0x03FA, 0x81),
        write(0xC000, 0x55),
        write(0x03FB, 0x01),
        write(0xFFFF, 0x66),
        write(0x0000, 0x77),
    ];
    for mut start in machines() {
        start.latches.first = 0x02;
        start.memory[0] = 0;
        start.cycles = accesses.into();
        let mut writes = start.clone();
        bench.burst("write 1", &mut writes);
        assert_eq!(writes.memory[0], 0x77);
        for value in (0..=u8::MAX).filter(|value| *value != 1) {
            let what = format!("write {value}");
            let mut burst = start.clone();
            set_write(&mut burst, value);
            bench.burst(&what, &mut burst);
            if value == 0 {
                burst.cycles.clone_from(&start.cycles);
                burst.assert_same(&what, &start);
            } else {
                set_write(&mut burst, 1);
                burst.assert_same(&what, &writes);
            }
        }
    }
    bench.finish("every value of write");
}

#[test]
fn what_a_record_held_that_shows_through() {
    let mut bench = Bench::default();
    let mut generator = Xorshift::new(4);
    for mut start in machines() {
        for list in 0..50 {
            start.draw(&mut generator, random_cycles, LONGEST);
            let mut due = start.clone();
            bench.burst(&format!("list {list}"), &mut due);
            for held in [0x00, 0xFF] {
                let what = format!("list {list} with {held} in the records");
                let mut burst = start.clone();
                for cycle in &mut burst.cycles {
                    cycle.number = u16::from_le_bytes([held; 2]);
                    [cycle.target, cycle.byte_read] = [held; 2];
                }
                bench.burst(&what, &mut burst);
                burst.assert_same(&what, &due);
            }
        }
    }
    bench.finish("contents of records");
}

#[test]
fn a_list_that_leaves_something_else_in_two_parts() {
    let mut bench = Bench::default();
    let mut generator = Xorshift::new(5);
    for mut start in machines() {
        start.draw(&mut generator, crowded_cycles, LONGEST);
        let mut whole = start.clone();
        bench.burst("the whole list", &mut whole);
        for place in 0..=LONGEST {
            let mut burst = start.clone();
            let rest = burst.cycles.split_off(place);
            burst.make(&calls::trace);
            let first = mem::replace(&mut burst.cycles, rest);
            burst.make(&calls::trace);
            burst.cycles.splice(..0, first);
            burst.assert_same(&format!("in two parts at {place}"), &whole);
            bench.lists += 1;
            bench.records += LONGEST;
        }
    }
    bench.finish("lists in two parts");
}

#[test]
fn bursts_one_after_another_that_drift() {
    let mut bench = Bench::default();
    let mut generator = Xorshift::new(6);
    for mut burst in machines() {
        for list in 0..20 {
            burst.draw(&mut generator, crowded_cycles, 5000);
            let mut whole = burst.clone();
            whole.make(&one_at_a_time);
            let mut filled = Vec::new();
            while !burst.cycles.is_empty() {
                let count = generator.below(LONGEST + 1).min(burst.cycles.len());
                let rest = burst.cycles.split_off(count);
                bench.burst(&format!("list {list}"), &mut burst);
                filled.append(&mut burst.cycles);
                burst.cycles = rest;
            }
            burst.cycles = filled;
            burst.assert_same(&format!("list {list}"), &whole);
        }
    }
    bench.finish("lists of 5,000 records in bursts");
}

#[test]
fn an_empty_list_that_does_something() {
    let mut bench = Bench::default();
    let mut generator = Xorshift::new(7);
    for mut before in machines() {
        for _ in 0..100 {
            before.draw(&mut generator, random_cycles, 0);
            let mut burst = before.clone();
            bench.burst("no record", &mut burst);
            burst.assert_same("before and after", &before);
        }
    }
    bench.finish("empty lists");
}

#[test]
fn a_list_that_has_to_be_aligned_to_more_than_2_bytes() {
    let mut bench = Bench::default();
    let mut generator = Xorshift::new(8);
    // Four numbers of 16 bits are as long as a record, so the list begins at each of these places.
    let mut numbers = vec![0u16; 4 * LONGEST + 4];
    for mut start in machines() {
        start.draw(&mut generator, random_cycles, LONGEST);
        let mut due = start.clone();
        bench.burst("aligned as a vector is", &mut due);
        for place in 0..4 {
            let first: *mut Cycle = numbers[place..].as_mut_ptr().cast();
            // SAFETY: the list has room from here on; a number of 16 bits is aligned for a record,
            // and any bits make one.
            let lent = unsafe { slice::from_raw_parts_mut(first, LONGEST) };
            lent.copy_from_slice(&start.cycles);
            let mut burst = start.clone();
            let answer = calls::trace(&mut burst.memory, burst.profile, burst.latches, lent);
            burst.latches = answer.latches;
            burst.cycles = lent.to_vec();
            burst.assert_same(&format!("from number {place} on"), &due);
            bench.lists += 1;
            bench.records += LONGEST;
        }
    }
    bench.finish("alignments");
}
