//! Lent buffers against inaccessible pages.

use std::ptr;

use tropfenpfad_conformance::calls;
use tropfenpfad_conformance::guarded::{memories, Against, Lent, SIDES};
use tropfenpfad_conformance::images::Kind;
use tropfenpfad_conformance::inputs::in_each_profile;
use tropfenpfad_conformance::model::Bus;
use tropfenpfad_sys::{self as ffi, Access, Latches, Written};

const ADDRESSES: [u16; 16] = [
    0x0000, 0x0300, 0x0314, 0x03FA, 0x03FB, 0x3FFF, 0x4000, 0x4300, 0x7FFF, 0x8000, 0xBFFF, 0xC000,
    0xDFFF, 0xE000, 0xFFFE, 0xFFFF,
];

fn record(kind: u8, first: u8, second: u8) -> Latches {
    Latches {
        kind,
        first,
        second,
    }
}

/// Latches of every kind, a refused one too, with bits that select each thing at C000, in both
/// profiles and in a wrong one.
fn boards() -> impl Iterator<Item = (u8, Latches)> {
    let mut records = vec![record(0, 0, 0), record(255, 1, 1)];
    for first in [0x00, 0x01, 0x02, 0x80] {
        records.extend([
            record(1, first, 0),
            record(2, first, 0),
            record(2, first, 1),
        ]);
    }
    (0..3).flat_map(move |profile| {
        let records = records.clone().into_iter();
        records.map(move |record| (profile, record))
    })
}

/// The bytes of a latch record as it is lent.
fn bytes(latches: Latches) -> Vec<u8> {
    vec![latches.kind, latches.first, latches.second]
}

fn read(memory: &Lent, profile: u8, latches: Latches, address: u16) -> Access {
    // SAFETY: the buffer is open for its length.
    unsafe { ffi::tropfenpfad_read(memory.pointer(), memory.length(), profile, latches, address) }
}

fn write(memory: &Lent, profile: u8, latches: Latches, address: u16, byte: u8) -> Written {
    let (start, length) = (memory.pointer(), memory.length());
    // SAFETY: the buffer is open for its length.
    unsafe { ffi::tropfenpfad_write(start, length, profile, latches, address, byte) }
}

fn write_in_place(memory: &Lent, profile: u8, record: &Lent, address: u16, byte: u8) -> Access {
    let (start, length) = (memory.pointer(), memory.length());
    let latches = record.pointer().cast();
    // SAFETY: both buffers are open for their lengths and lie in mappings of their own; a latch
    // record is three bytes with no alignment.
    unsafe { ffi::tropfenpfad_write_in_place(start, length, profile, latches, address, byte) }
}

#[test]
fn a_read_that_leaves_its_buffer() {
    let model = Bus::new();
    let (mut calls, mut refused) = (0, 0);
    for memory in memories(Kind::Random) {
        memory.make_read_only();
        for (profile, latches) in boards() {
            for address in ADDRESSES {
                let answer = read(&memory, profile, latches, address);
                assert_eq!(answer, model.read(&memory.copy, profile, latches, address));
                calls += 1;
                refused += usize::from(answer.status != 0);
            }
        }
        memory.check("memory");
    }
    println!("reads in guarded buffers: {calls} compared, {refused} with bad inputs");
}

#[test]
fn a_write_that_leaves_its_buffer() {
    let model = Bus::new();
    let (mut calls, mut refused) = (0, 0);
    for mut memory in memories(Kind::Random) {
        for (profile, latches) in boards() {
            for address in ADDRESSES {
                let byte = !address as u8 ^ latches.first;
                let answer = write(&memory, profile, latches, address, byte);
                let due = model.write(&mut memory.copy, profile, latches, address, byte);
                assert_eq!(answer, due);
                memory.check("memory");
                calls += 1;
                refused += usize::from(answer.status != 0);
            }
        }
    }
    println!("writes in guarded buffers: {calls} compared, {refused} with bad inputs");
}

#[test]
fn a_write_in_place_that_leaves_its_buffers() {
    let model = Bus::new();
    let (mut calls, mut refused) = (0, 0);
    for mut memory in memories(Kind::Random) {
        for side in SIDES {
            for (profile, mut latches) in boards() {
                let mut record = Lent::new(side, bytes(latches));
                for address in ADDRESSES {
                    let byte = address as u8 ^ latches.second;
                    let answer = write_in_place(&memory, profile, &record, address, byte);
                    let lent = &mut memory.copy;
                    let due = model.write_in_place(lent, profile, &mut latches, address, byte);
                    assert_eq!(answer, due);
                    record.copy = bytes(latches);
                    record.check("latches");
                    memory.check("memory");
                    calls += 1;
                    refused += usize::from(answer.status != 0);
                }
            }
        }
    }
    println!("writes in place in guarded buffers: {calls} compared, {refused} with bad inputs");
}

#[test]
fn a_refused_write_that_stores() {
    // A kind that there is not, a controller that the 16K machine has not, and a wrong profile.
    let refused = [(0, 3), (1, 3), (1, 1), (1, 2), (2, 0)];
    let mut calls = 0;
    for memory in memories(Kind::Random) {
        memory.make_read_only();
        for (profile, kind) in refused {
            let record = record(kind, 0x80, 1);
            for address in ADDRESSES {
                let kept = Lent::new(Against::End, bytes(record));
                assert_ne!(write(&memory, profile, record, address, 0).status, 0);
                assert_ne!(
                    write_in_place(&memory, profile, &kept, address, 0).status,
                    0
                );
                kept.check("latches");
                calls += 2;
            }
        }
        memory.check("memory");
    }
    println!("refused writes to read-only pages: {calls} bad inputs compared");
}

fn lend_null_pointers(profile: u8) {
    let latches = calls::fresh_latches();
    let mut record = latches;
    let (from, to) = (ptr::null::<u8>(), ptr::null_mut::<u8>());
    // SAFETY: a null pointer comes with the length 0 only.
    unsafe {
        let answer = ffi::tropfenpfad_read(from, 0, profile, latches, 0);
        assert_eq!(answer.status, 1);
        let answer = ffi::tropfenpfad_write(to, 0, profile, latches, 0, 0);
        assert_eq!(answer.status, 1);
        let answer = ffi::tropfenpfad_write_in_place(to, 0, profile, &mut record, 0x314, 9);
        assert_eq!(answer.status, 1);
    }
    assert_eq!(record, latches);
    println!("profile {profile}, null pointers to access: 3 bad inputs compared");
}

#[test]
fn a_null_pointer_of_length_0_that_is_followed() {
    in_each_profile(lend_null_pointers);
}
