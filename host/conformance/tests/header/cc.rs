//! The C compiler, and a place for what it makes.

use std::path::{Path, PathBuf};
use std::process::{Command, Output};

use tropfenpfad_conformance::files;

pub const HEADER: &str = "include/tropfenpfad.h";
pub const WARNINGS: [&str; 4] = ["-Wall", "-Wextra", "-Wpedantic", "-Werror"];
pub const STANDARDS: [&str; 4] = ["c11", "c17", "c++11", "c++17"];

/// A file or directory of this test's own.
pub fn scratch(name: &str) -> PathBuf {
    Path::new(env!("CARGO_TARGET_TMPDIR")).join(name)
}

/// The compiler, with the header's directory and all warnings as errors.
pub fn compiler(standard: &str) -> Command {
    let language = if standard.starts_with("c++") {
        "c++"
    } else {
        "c"
    };
    let header = files::path(HEADER);
    let directory = header.parent().expect("a file stands in a directory");
    let mut command = Command::new("cc");
    command
        .arg(format!("-std={standard}"))
        .args(["-x", language])
        .args(WARNINGS)
        .arg("-I")
        .arg(directory);
    command
}

#[track_caller]
pub fn succeed(command: &mut Command) -> Output {
    let output = command
        .output()
        .unwrap_or_else(|error| panic!("{command:?} cannot be run: {error}"));
    let complaint = String::from_utf8_lossy(&output.stderr);
    assert!(output.status.success(), "{command:?}: {complaint}");
    output
}

/// Compiles a C program of the repository, links it with the archive, and gives its path.
pub fn build(source: &str, name: &str) -> PathBuf {
    let program = scratch(name);
    let mut command = compiler("c11");
    command
        .arg(files::path(source))
        .args(["-x", "none"])
        .arg(archive())
        .arg("-o")
        .arg(&program);
    succeed(&mut command);
    program
}

/// The archive that the Rust side is linked with.
pub fn archive() -> &'static Path {
    let archive = Path::new(tropfenpfad_sys::ARCHIVE);
    assert!(archive.is_file(), "{} is missing", archive.display());
    archive
}
