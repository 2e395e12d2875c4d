//! Decodes and accesses.

use std::hint::black_box;

use tropfenpfad_conformance::calls;
use tropfenpfad_conformance::inputs::image_length;
use tropfenpfad_conformance::model::Bus;
use tropfenpfad_conformance::random::Xorshift;
use tropfenpfad_sys::{Latches, KIND_NONE, PROFILE_16K, PROFILE_48K};

use crate::row::{Row, Rows};

const ADDRESSES: usize = 10_000;

pub fn rows(rows: &Rows) {
    let bus = Bus::new();
    decodes(rows, "decode, random addresses", &bus, PROFILE_48K);
    decodes(rows, "decode, 16K machine", &bus, PROFILE_16K);
    accesses(rows, "accesses, half of them writes", &bus, PROFILE_48K);
    accesses(rows, "accesses, 16K machine", &bus, PROFILE_16K);
}

fn addresses() -> Vec<u16> {
    let mut generator = Xorshift::new(1);
    (0..ADDRESSES).map(|_| generator.next() as u16).collect()
}

/// Latches that follow from the address, so that both contestants see the same ones.
fn latches_for(profile: u8, address: u16) -> Latches {
    Latches {
        kind: match profile {
            PROFILE_16K => KIND_NONE,
            _ => (address % 3) as u8,
        },
        first: (address >> 1) as u8,
        second: (address >> 3) as u8,
    }
}

fn decodes(rows: &Rows, name: &str, bus: &Bus, profile: u8) {
    let addresses = addresses();
    rows.add(Row {
        name,
        answers: ADDRESSES,
        lent: (),
        library: &|()| {
            for &address in &addresses {
                let latches = latches_for(profile, address);
                black_box(calls::decode(profile, latches, address));
            }
        },
        model: &|()| {
            for &address in &addresses {
                let latches = latches_for(profile, address);
                black_box(bus.decode(profile, latches, address));
            }
        },
    });
}

fn accesses(rows: &Rows, name: &str, bus: &Bus, profile: u8) {
    let addresses = addresses();
    rows.add(Row {
        name,
        answers: ADDRESSES,
        lent: vec![0; image_length(profile)],
        library: &|memory| {
            let mut latches = latches_for(profile, 1);
            for &address in &addresses {
                let byte = address as u8;
                match address % 4 {
                    0 => latches = calls::write(memory, profile, latches, address, byte).latches,
                    1 => _ = calls::write_in_place(memory, profile, &mut latches, address, byte),
                    _ => _ = black_box(calls::read(memory, profile, latches, address)),
                }
            }
        },
        model: &|memory| {
            let mut latches = latches_for(profile, 1);
            for &address in &addresses {
                let byte = address as u8;
                match address % 4 {
                    0 => latches = bus.write(memory, profile, latches, address, byte).latches,
                    1 => _ = bus.write_in_place(memory, profile, &mut latches, address, byte),
                    _ => _ = black_box(bus.read(memory, profile, latches, address)),
                }
            }
        },
    });
}
