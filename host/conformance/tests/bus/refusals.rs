//! Every entry point with every mix of right and wrong inputs: which number is given, and what
//! comes back with it. The model is held to the same lists as the library.

use tropfenpfad_conformance::calls;
use tropfenpfad_conformance::inputs::{fresh_of_kind, image_length, in_each_profile, PROFILES};
use tropfenpfad_conformance::model::Bus;
use tropfenpfad_conformance::refusals::{
    boards, lent_bytes, memories, status_with_memory_of, Tally,
};
use tropfenpfad_sys::{Access, Decoded, Latches, Written, PROFILE_16K, PROFILE_48K};

const ADDRESSES: [u16; 11] = [
    0x0000, 0x0300, 0x0314, 0x03FA, 0x03FB, 0x4300, 0xBB80, 0xC000, 0xDFFF, 0xE000, 0xFFFF,
];

/// Tries a decode with every mix of inputs.
fn refuse_decodes(name: &str, decode: impl Fn(u8, Latches, u16) -> Decoded) {
    let mut tally = Tally::default();
    for (profile, latches, [bad_profile, bad_kind, bad_controller]) in boards() {
        for address in ADDRESSES {
            let number = tally.due(&[(12, bad_profile), (7, bad_kind), (13, bad_controller)]);
            let answer = decode(profile, latches, address);
            let what = format!("{name}: profile {profile}, {latches:?}");
            let refused = Decoded {
                status: number,
                target: 0,
                number: 0,
            };
            match number {
                0 => assert_eq!(answer.status, 0, "{what}"),
                _ => assert_eq!(answer, refused, "{what}"),
            }
            tally.count(answer.status);
        }
    }
    tally.finish(name);
}

/// Tries a read with every mix of inputs.
fn refuse_reads(name: &str, read: impl Fn(&[u8], u8, Latches, u16) -> Access) {
    let untouched = lent_bytes();
    let memory = untouched.clone();
    let mut tally = Tally::default();
    for (profile, latches, [bad_profile, bad_kind, bad_controller]) in boards() {
        for (length, bad_memory) in memories(profile) {
            for address in ADDRESSES {
                let number = tally.due(&[
                    (12, bad_profile),
                    (1, bad_memory),
                    (7, bad_kind),
                    (13, bad_controller),
                ]);
                let answer = read(&memory[..length], profile, latches, address);
                let what = format!("{name}: {length} bytes, profile {profile}, {latches:?}");
                let refused = Access {
                    status: number,
                    target: 0,
                    number: 0,
                    byte: 0,
                };
                match number {
                    0 => assert_eq!(answer.status, 0, "{what}"),
                    _ => assert_eq!(answer, refused, "{what}"),
                }
                tally.count(answer.status);
            }
        }
    }
    assert_eq!(memory, untouched);
    tally.finish(name);
}

/// Tries a form of write with every mix of inputs.
fn refuse_writes(name: &str, write: impl Fn(&mut [u8], u8, Latches, u16, u8) -> Written) {
    let untouched = lent_bytes();
    let mut memory = untouched.clone();
    let mut tally = Tally::default();
    for (profile, latches, [bad_profile, bad_kind, bad_controller]) in boards() {
        for (length, bad_memory) in memories(profile) {
            for address in ADDRESSES {
                let number = tally.due(&[
                    (12, bad_profile),
                    (1, bad_memory),
                    (7, bad_kind),
                    (13, bad_controller),
                ]);
                let place = usize::from(address) % length.max(1);
                let byte = !untouched[place];
                let answer = write(&mut memory[..length], profile, latches, address, byte);
                let what = format!(
                    "{name}: {length} bytes, profile {profile}, {latches:?}, {address:04x}"
                );
                let refused = Written {
                    status: number,
                    target: 0,
                    number: 0,
                    byte: 0,
                    latches,
                };
                match number {
                    0 => assert_eq!(answer.status, 0, "{what}"),
                    _ => assert_eq!(answer, refused, "{what}"),
                }
                if number == 0 {
                    memory[place] = untouched[place];
                }
                assert_eq!(memory, untouched, "{what}");
                tally.count(answer.status);
            }
        }
    }
    tally.finish(name);
}

/// What a write in place answers and leaves, as one by value would say it.
fn by_value(answer: Access, latches: Latches) -> Written {
    Written {
        status: answer.status,
        target: answer.target,
        number: answer.number,
        byte: answer.byte,
        latches,
    }
}

#[test]
fn a_decode_refused_wrongly() {
    refuse_decodes("decode", calls::decode);
}

#[test]
fn a_read_refused_wrongly() {
    refuse_reads("read", calls::read);
}

#[test]
fn a_write_refused_wrongly_or_not_left_alone() {
    refuse_writes("write", calls::write);
}

#[test]
fn a_write_in_place_refused_wrongly_or_not_left_alone() {
    refuse_writes(
        "write_in_place",
        |memory, profile, mut latches, address, byte| {
            let answer = calls::write_in_place(memory, profile, &mut latches, address, byte);
            by_value(answer, latches)
        },
    );
}

#[test]
fn a_model_that_refuses_otherwise() {
    let model = Bus::new();
    refuse_decodes("model decode", |profile, latches, address| {
        model.decode(profile, latches, address)
    });
    refuse_reads("model read", |memory, profile, latches, address| {
        model.read(memory, profile, latches, address)
    });
    refuse_writes("model write", |memory, profile, latches, address, byte| {
        model.write(memory, profile, latches, address, byte)
    });
    refuse_writes(
        "model write_in_place",
        |memory, profile, mut latches, address, byte| {
            let answer = model.write_in_place(memory, profile, &mut latches, address, byte);
            by_value(answer, latches)
        },
    );
}

/// What each call that takes memory says to it.
fn statuses(memory: &mut [u8], profile: u8, latches: Latches) -> [u8; 3] {
    let mut record = latches;
    let statuses = [
        calls::read(memory, profile, latches, 0).status,
        calls::write(memory, profile, latches, 0, 0).status,
        calls::write_in_place(memory, profile, &mut record, 0, 0).status,
    ];
    assert_eq!(record, latches, "profile {profile}");
    statuses
}

fn try_memory_lengths(profile: u8) {
    let mut memory = lent_bytes();
    let mut tally = Tally::default();
    for length in 0..=memory.len() {
        let given = statuses(&mut memory[..length], profile, calls::fresh_latches());
        let number = u8::from(length != image_length(profile));
        assert_eq!(given, [number; 3], "{length} bytes of memory");
        tally.count_all(&given);
    }
    tally.finish(&format!(
        "profile {profile}, accesses to every length of memory up to 131,072"
    ));
}

#[test]
fn a_memory_length_taken_wrongly() {
    in_each_profile(try_memory_lengths);
}

/// Every kind in a profile that takes those below `kinds`, and gives 13 for others up to 2.
fn try_kinds(profile: u8, kinds: u8) {
    let mut memory = lent_bytes();
    let memory = &mut memory[..image_length(profile)];
    let mut tally = Tally::default();
    for kind in 0..=u8::MAX {
        let latches = fresh_of_kind(kind);
        let number = match kind {
            3.. => 7,
            _ if kind < kinds => 0,
            _ => 13,
        };
        let decoded = calls::decode(profile, latches, 0).status;
        assert_eq!(decoded, number, "kind {kind}");
        let given = statuses(memory, profile, latches);
        assert_eq!(given, [number; 3], "kind {kind}");
        tally.count(decoded);
        tally.count_all(&given);
    }
    tally.finish(&format!("profile {profile}, every kind"));
}

#[test]
fn a_kind_taken_wrongly_by_some_call() {
    try_kinds(PROFILE_48K, 3);
    try_kinds(PROFILE_16K, 1);
}

#[test]
fn a_profile_taken_wrongly_by_some_call() {
    let mut memory = lent_bytes();
    let latches = calls::fresh_latches();
    let mut tally = Tally::default();
    for profile in 0..=u8::MAX {
        for right in PROFILES {
            let number = status_with_memory_of(right, profile);
            let given = statuses(&mut memory[..image_length(right)], profile, latches);
            assert_eq!(given, [number; 3], "profile {profile}");
            tally.count_all(&given);
        }
        let decoded = calls::decode(profile, latches, 0).status;
        assert_eq!(decoded, 12 * u8::from(profile > 1), "profile {profile}");
        tally.count(decoded);
    }
    tally.finish("every profile");
}

#[test]
fn fresh_latches_that_are_not_fresh() {
    let fresh = Latches {
        kind: 0,
        first: 0,
        second: 0,
    };
    let given = [calls::fresh_latches(), Bus::new().fresh_latches()];
    assert_eq!(given, [fresh; 2]);
    println!("fresh latches: 2 compared");
}
