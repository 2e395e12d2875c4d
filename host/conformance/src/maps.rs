//! Maps of used addresses: what is lent, and what the bits say.

use tropfenpfad_sys::MAP_LENGTH;

use crate::inputs::random_bytes;

/// Maps to lend: without a mark, with marks at random, with all marks.
pub fn lent_maps(seed: u64) -> [Vec<u8>; 3] {
    [
        vec![0; MAP_LENGTH],
        random_bytes(seed, MAP_LENGTH),
        vec![0xFF; MAP_LENGTH],
    ]
}

/// The map in which these addresses are marked as well.
pub fn with_marks(map: &[u8], addresses: &[u16]) -> Vec<u8> {
    let mut marked = map.to_vec();
    for address in addresses.iter().map(|&address| usize::from(address)) {
        let (byte, weight) = (&mut marked[address / 8], 1 << (address % 8));
        if *byte / weight % 2 == 0 {
            *byte += weight;
        }
    }
    marked
}

/// The marked addresses, from the lowest on.
pub fn marked(map: &[u8]) -> Vec<u16> {
    let mut addresses = Vec::new();
    for (place, &byte) in map.iter().enumerate().filter(|(_, byte)| **byte != 0) {
        let bits = (0..8).filter(|bit| byte >> bit & 1 == 1);
        addresses.extend(bits.map(|bit| 8 * place as u16 + bit));
    }
    addresses
}

/// Fails with the first address at which two maps differ.
#[track_caller]
pub fn assert_same_marks(what: &str, library: &[u8], due: &[u8]) {
    assert_eq!(library.len(), due.len(), "{what}: lengths");
    if library == due {
        return;
    }
    let differing: Vec<u8> = library.iter().zip(due).map(|(a, b)| a ^ b).collect();
    let addresses = marked(&differing);
    let first = addresses[0];
    panic!(
        "{what}: {} marks differ, the first at {first:04x}: library {}, due {}",
        addresses.len(),
        marked(library).contains(&first),
        marked(due).contains(&first)
    );
}
