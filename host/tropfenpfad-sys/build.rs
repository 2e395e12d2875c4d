//! Finds the proved archive and links it.
//!
//! Its directory is the one that TROPFENPFAD_LIB names, else target/lib of the repository; a
//! relative name starts at the workspace, host/.

use std::env;
use std::path::{Path, PathBuf};

const ARCHIVE: &str = "libtropfenpfad.a";

fn main() {
    println!("cargo::rerun-if-env-changed=TROPFENPFAD_LIB");
    let directory = archive_directory();
    let archive = directory.join(ARCHIVE);
    println!("cargo::rerun-if-changed={}", archive.display());
    if !archive.is_file() {
        println!(
            "cargo::error={} is missing. Run `make lib` in the repository's root, or name the \
             directory that holds {ARCHIVE} in TROPFENPFAD_LIB.",
            archive.display()
        );
        return;
    }
    println!("cargo::rustc-link-search=native={}", directory.display());
    println!("cargo::rustc-link-lib=static=tropfenpfad");
    println!("cargo::rustc-env=TROPFENPFAD_ARCHIVE={}", archive.display());
}

fn archive_directory() -> PathBuf {
    let package = env::var("CARGO_MANIFEST_DIR").expect("cargo names the package's directory");
    let workspace = Path::new(&package).parent().expect("it stands in host/");
    let directory = match env::var_os("TROPFENPFAD_LIB") {
        Some(named) => workspace.join(named),
        None => workspace.with_file_name("target").join("lib"),
    };
    directory.canonicalize().unwrap_or(directory)
}
