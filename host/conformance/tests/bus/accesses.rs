//! The library's decode and bus against the model: targets, numbers, bytes, latches, memory.

use tropfenpfad::{Place, Target};
use tropfenpfad_conformance::accesses::{Form, Step, TwoBuses};
use tropfenpfad_conformance::calls;
use tropfenpfad_conformance::images::{self, Kind};
use tropfenpfad_conformance::inputs::{fresh_of_kind, in_each_profile, random_latches, PROFILES};
use tropfenpfad_conformance::model::Bus;
use tropfenpfad_conformance::random::Xorshift;
use tropfenpfad_sys::{Latches, KIND_JASMIN, KIND_MICRODISC, KIND_NONE, PROFILE_16K, PROFILE_48K};

fn latches(kind: u8, first: u8, second: u8) -> Latches {
    Latches {
        kind,
        first,
        second,
    }
}

/// Compares the decode of one address.
fn compare_decode(model: &Bus, profile: u8, latches: Latches, address: u16) {
    let library = calls::decode(profile, latches, address);
    let other = model.decode(profile, latches, address);
    assert_eq!(
        library, other,
        "profile {profile}, {address:04x} under {latches:?}"
    );
}

fn try_latches(profile: u8) {
    let model = Bus::new();
    let addresses = [
        0x0000, 0x02FF, 0x0300, 0x0310, 0x0314, 0x0318, 0x03FA, 0x03FB, 0x0400, 0x4300, 0xBFFF,
        0xC000, 0xDFFF, 0xE000, 0xFFFF,
    ];
    let mut decodes = 0;
    for pair in 0..=u16::MAX {
        let [first, second] = pair.to_le_bytes();
        for kind in 0..=3 {
            for address in addresses {
                compare_decode(&model, profile, latches(kind, first, second), address);
                decodes += 1;
            }
        }
    }
    for kind in 0..=u8::MAX {
        for address in addresses {
            compare_decode(&model, profile, fresh_of_kind(kind), address);
            decodes += 1;
        }
    }
    println!(
        "profile {profile}, latches: {decodes} decodes compared, every pair of latch bytes and \
         every kind"
    );
}

#[test]
fn a_latch_pair_that_selects_otherwise() {
    in_each_profile(try_latches);
}

fn compare_short_lists(profile: u8) {
    let model = Bus::new();
    let mut generator = Xorshift::new(1);
    let (mut accesses, mut refused, mut stores, mut comparisons) = (0, 0, 0, 0);
    for list in 0..400 {
        let memory = images::image(profile, Kind::Random, list);
        let mut bus = TwoBuses::new(memory, random_latches(profile, &mut generator));
        for _ in 0..500 {
            bus.access(&model, Step::random(profile, &mut generator));
            bus.compare_memories();
            comparisons += 1;
        }
        accesses += bus.accesses;
        refused += bus.refused;
        stores += bus.stores;
    }
    println!(
        "profile {profile}, accesses: {accesses} compared ({stores} stores, {refused} refused), \
         memory whole {comparisons} times"
    );
}

#[test]
fn an_access_that_answers_or_stores_otherwise() {
    in_each_profile(compare_short_lists);
}

fn compare_long_list(profile: u8, latches: Latches) {
    let model = Bus::new();
    let mut generator = Xorshift::new(2);
    let mut bus = TwoBuses::new(images::image(profile, Kind::Random, 2), latches);
    for index in 1..=3_000_000 {
        bus.access(&model, Step::random(profile, &mut generator));
        if index % 1_000 == 0 {
            bus.compare_memories();
        }
    }
    println!(
        "profile {profile}, one list: {} accesses compared ({} stores, {} refused), memory whole \
         every thousand",
        bus.accesses, bus.stores, bus.refused
    );
}

#[test]
fn a_long_list_that_drifts() {
    compare_long_list(PROFILE_48K, fresh_of_kind(KIND_MICRODISC));
    compare_long_list(PROFILE_16K, fresh_of_kind(KIND_NONE));
}

fn sweep_addresses(profile: u8) {
    let model = Bus::new();
    let mut accesses = 0;
    let records = (0..3).flat_map(|kind| {
        [0x00, 0x01, 0x02, 0x80, 0x82].map(|first| latches(kind, first, kind & first))
    });
    for record in records.chain([latches(KIND_JASMIN, 0, 1), latches(3, 0x81, 1)]) {
        let mut bus = TwoBuses::new(images::image(profile, Kind::Random, 3), record);
        for address in 0..=u16::MAX {
            for form in [Form::Read, Form::Write, Form::WriteInPlace] {
                let step = Step {
                    form,
                    profile,
                    address,
                    byte: (address >> 8) as u8 ^ address as u8 ^ form as u8,
                    brings: Some(record),
                };
                bus.access(&model, step);
            }
        }
        bus.compare_memories();
        accesses += bus.accesses;
    }
    println!(
        "profile {profile}, sweeps: {accesses} accesses compared, every address under 17 latch \
         records"
    );
}

#[test]
fn a_read_or_write_at_some_address_that_differs() {
    in_each_profile(sweep_addresses);
}

fn compare_forms_of_write(profile: u8) {
    let mut generator = Xorshift::new(5);
    let mut by_value = images::image(profile, Kind::Random, 5);
    let mut in_place = by_value.clone();
    let mut accesses = 0;
    for _ in 0..500_000 {
        let step = Step::random(profile, &mut generator);
        let Step {
            profile,
            address,
            byte,
            ..
        } = step;
        let before = random_latches(profile, &mut generator);
        let mut record = before;
        let first = calls::write(&mut by_value, profile, before, address, byte);
        let second = calls::write_in_place(&mut in_place, profile, &mut record, address, byte);
        assert_eq!(first.latches, record, "{step:?} under {before:?}");
        assert_eq!(
            (first.status, first.target, first.number, first.byte),
            (second.status, second.target, second.number, second.byte),
            "{step:?} under {before:?}"
        );
        accesses += 2;
    }
    assert_eq!(by_value, in_place);
    println!("profile {profile}, forms of write: {accesses} accesses compared");
}

#[test]
fn the_two_forms_of_write_that_disagree() {
    in_each_profile(compare_forms_of_write);
}

/// Writes where no memory answers: to page 3, and to the ROM or EPROM that fresh latches select,
/// each kind with the address where that begins.
fn write_where_nothing_stores(profile: u8, kinds: &[(u8, u16)]) {
    let untouched = images::image(profile, Kind::Random, 6);
    let mut memory = untouched.clone();
    let mut accesses = 0;
    for &(kind, start) in kinds {
        for address in (0x0300..=0x03FF).chain(start..=0xFFFF) {
            let byte = !untouched[usize::from(address) % untouched.len()];
            let record = fresh_of_kind(kind);
            let answer = tropfenpfad::write(&mut memory, profile, record, address, byte);
            let (place, _) = answer.unwrap();
            assert!(!matches!(place.target, Target::Ram | Target::OverlayRam));
            accesses += 1;
        }
    }
    assert_eq!(memory, untouched);
    println!("profile {profile}, no store: {accesses} writes compared");
}

#[test]
fn a_write_that_lands_behind_page_3_or_under_rom() {
    let kinds = [
        (KIND_NONE, 0xC000),
        (KIND_MICRODISC, 0xE000),
        (KIND_JASMIN, 0xC000),
    ];
    write_where_nothing_stores(PROFILE_48K, &kinds);
    write_where_nothing_stores(PROFILE_16K, &kinds[..1]);
}

/// Decodes, reads and writes every address of the upper 16K, where the EPROM is selected: it
/// answers from `start` on, and overlay RAM below.
fn access_upper_16k(record: Latches, start: u16) -> usize {
    let untouched = images::image(PROFILE_48K, Kind::Random, 7);
    let mut memory = untouched.clone();
    for address in 0xC000..=0xFFFF {
        let held = untouched[usize::from(address)];
        let (target, number, byte) = if address < start {
            (Target::OverlayRam, address, held)
        } else {
            (Target::BootEprom, address - start, 0)
        };
        let place = Place { target, number };
        let answers = (
            tropfenpfad::decode(PROFILE_48K, record, address),
            tropfenpfad::read(&memory, PROFILE_48K, record, address),
            tropfenpfad::write(&mut memory, PROFILE_48K, record, address, !held),
        );
        let due = (Ok(place), Ok((place, byte)), Ok((place, record)));
        assert_eq!(answers, due, "{address:04x} under {record:?}");
    }
    let mut stored = untouched;
    for byte in &mut stored[0xC000..usize::from(start)] {
        *byte = !*byte;
    }
    assert_eq!(memory, stored, "{record:?}");
    3 * 0x4000
}

#[test]
fn an_eprom_that_begins_elsewhere() {
    let mut accesses = 0;
    for byte in 0..=u8::MAX {
        if byte & 0x82 == 0 {
            accesses += access_upper_16k(latches(KIND_MICRODISC, byte, !byte), 0xE000);
        }
        if byte & 1 == 0 {
            accesses += access_upper_16k(latches(KIND_JASMIN, byte, !byte), 0xC000);
        }
    }
    println!("EPROM selected: {accesses} decodes, reads and writes compared");
}

/// What `make check` leaves out.
mod long {
    use super::*;

    /// Compares the decode of all addresses in both profiles; gives how many decodes there are.
    fn compare_all_addresses(model: &Bus, latches: Latches) -> usize {
        for profile in PROFILES {
            for address in 0..=u16::MAX {
                compare_decode(model, profile, latches, address);
            }
        }
        PROFILES.len() * 0x1_0000
    }

    #[test]
    fn an_address_decoded_otherwise() {
        let model = Bus::new();
        let mut decodes = 0;
        for byte in 0..=u8::MAX {
            // Every first latch, so every used bit and every unused one; the second in both values
            // of its used bit, and in its unused bits.
            decodes += compare_all_addresses(&model, latches(KIND_NONE, byte, !byte));
            for second in [0x00, 0xFF] {
                decodes += compare_all_addresses(&model, latches(KIND_MICRODISC, byte, second));
            }
            for second in [0x00, 0x01, 0xFE, 0xFF] {
                decodes += compare_all_addresses(&model, latches(KIND_JASMIN, byte, second));
            }
            for first in [0x00, 0x01] {
                decodes += compare_all_addresses(&model, latches(KIND_JASMIN, first, byte));
            }
        }
        println!("decode: {decodes} addresses compared, half of them in each profile");
    }
}
