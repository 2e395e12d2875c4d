//! The wrappers against the C calls, right and wrong inputs alike.

use tropfenpfad::{Place, Refusal, Target};
use tropfenpfad_conformance::calls;
use tropfenpfad_conformance::refusals::{boards, lent_bytes, memories, result};
use tropfenpfad_sys::Latches;

const ADDRESSES: [u16; 10] = [
    0x0000, 0x0300, 0x0314, 0x0318, 0x03FA, 0x03FB, 0x4300, 0xBB80, 0xC123, 0xE123,
];

/// Every mix of a memory length, a profile, latches and an address.
fn mixes() -> impl Iterator<Item = (usize, u8, Latches, u16)> {
    boards().flat_map(|(profile, latches, _)| {
        memories(profile).flat_map(move |(length, _)| {
            ADDRESSES.map(|address| (length, profile, latches, address))
        })
    })
}

/// Which of them it is.
fn what(profile: u8, latches: Latches, address: u16) -> String {
    format!("profile {profile}, {address:04x} under {latches:?}")
}

fn place(status: u8, target: u8, number: u16) -> Result<Place, Refusal> {
    result(status)?;
    let named = Target::ALL.into_iter().find(|&named| named as u8 == target);
    let target = named.expect("every target has a name");
    Ok(Place { target, number })
}

#[test]
fn a_decode_that_the_wrapper_gives_otherwise() {
    for (_, profile, latches, address) in mixes() {
        let answer = calls::decode(profile, latches, address);
        let expected = place(answer.status, answer.target, answer.number);
        let given = tropfenpfad::decode(profile, latches, address);
        assert_eq!(given, expected, "{}", what(profile, latches, address));
    }
    println!("wrapper of decode: {} calls compared", mixes().count());
}

#[test]
fn a_read_that_the_wrapper_gives_otherwise() {
    let memory = lent_bytes();
    for (length, profile, latches, address) in mixes() {
        let answer = calls::read(&memory[..length], profile, latches, address);
        let expected = place(answer.status, answer.target, answer.number);
        let given = tropfenpfad::read(&memory[..length], profile, latches, address);
        let expected = expected.map(|place| (place, answer.byte));
        assert_eq!(given, expected, "{}", what(profile, latches, address));
    }
    println!("wrapper of read: {} calls compared", mixes().count());
}

#[test]
fn a_write_that_the_wrapper_gives_otherwise() {
    let [mut first, mut second] = [lent_bytes(), lent_bytes()];
    for (byte, (length, profile, latches, address)) in (0..=u8::MAX).cycle().zip(mixes()) {
        let what = what(profile, latches, address);
        let answer = calls::write(&mut first[..length], profile, latches, address, byte);
        let expected = place(answer.status, answer.target, answer.number);
        let lent = &mut second[..length];
        let given = tropfenpfad::write(lent, profile, latches, address, byte);
        let expected = expected.map(|place| (place, answer.latches));
        assert_eq!(given, expected, "{what}");
        assert!(first == second, "{what}");
    }
    println!("wrapper of write: {} calls compared", mixes().count());
}

#[test]
fn a_write_in_place_that_the_wrapper_gives_otherwise() {
    let [mut first, mut second] = [lent_bytes(), lent_bytes()];
    for (byte, (length, profile, latches, address)) in (0..=u8::MAX).cycle().zip(mixes()) {
        let what = what(profile, latches, address);
        let [mut left, mut right] = [latches; 2];
        let lent = &mut first[..length];
        let answer = calls::write_in_place(lent, profile, &mut left, address, byte);
        let expected = place(answer.status, answer.target, answer.number);
        let lent = &mut second[..length];
        let given = tropfenpfad::write_in_place(lent, profile, &mut right, address, byte);
        assert_eq!((given, right), (expected, left), "{what}");
        assert!(first == second, "{what}");
    }
    println!(
        "wrapper of write_in_place: {} calls compared",
        mixes().count()
    );
}

#[test]
fn fresh_latches_that_the_wrapper_gives_otherwise() {
    assert_eq!(tropfenpfad::fresh_latches(), calls::fresh_latches());
    println!("wrapper of fresh_latches: 1 call compared");
}
