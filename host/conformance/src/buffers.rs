//! Comparisons of buffers.

use tropfenpfad_sys::LINE_LENGTH;

/// Fails with the first place at which two buffers differ.
#[track_caller]
pub fn assert_same_bytes(what: &str, library: &[u8], model: &[u8]) {
    assert_eq!(library.len(), model.len(), "{what}: lengths");
    if library == model {
        return;
    }
    let differing = library.iter().zip(model).filter(|(a, b)| a != b).count();
    let first = library.iter().zip(model).position(|(a, b)| a != b);
    let place = first.expect("they differ somewhere");
    panic!(
        "{what}: {differing} bytes differ, the first at {place} (line {}, x {}): \
         library {:#04x}, model {:#04x}",
        place / LINE_LENGTH,
        place % LINE_LENGTH,
        library[place],
        model[place]
    );
}

/// A number that tells two contents apart.
pub fn fingerprint(bytes: &[u8]) -> u64 {
    bytes.chunks(8).fold(bytes.len() as u64, |sum, group| {
        let mut word = [0; 8];
        word[..group.len()].copy_from_slice(group);
        (sum ^ u64::from_le_bytes(word))
            .wrapping_mul(0x9E37_79B9_7F4A_7C15)
            .rotate_left(29)
    })
}
