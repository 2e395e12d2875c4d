//! The repository's files that tests are held to. A test whose file is missing fails.

use std::fs;
use std::path::{Path, PathBuf};

/// The repository's root.
pub fn root() -> PathBuf {
    let root = Path::new(env!("CARGO_MANIFEST_DIR")).join("../..");
    root.canonicalize().unwrap_or(root)
}

/// The path of a file, named from the root, that has to be there.
#[track_caller]
pub fn path(name: &str) -> PathBuf {
    let path = root().join(name);
    assert!(path.is_file(), "{} is missing", path.display());
    path
}

/// What a file holds.
#[track_caller]
pub fn bytes(name: &str) -> Vec<u8> {
    fs::read(path(name)).unwrap_or_else(|error| panic!("{name} cannot be read: {error}"))
}

/// What a file of text holds.
#[track_caller]
pub fn text(name: &str) -> String {
    String::from_utf8(bytes(name)).unwrap_or_else(|error| panic!("{name} is not text: {error}"))
}
