//! The C example, compiled with all warnings and by the command that its users are told.

use std::fs::{self, File};
use std::path::{Path, PathBuf};
use std::process::{Command, Stdio};

use tropfenpfad_conformance::files;

use crate::cc::{archive, build, scratch, succeed, HEADER};

const EXAMPLE: &str = "host/tropfenpfad/examples/paint.c";
/// Where the command stands that compiles the example after `make lib`.
const TOLD_IN: [&str; 3] = [HEADER, EXAMPLE, "README.md"];

/// The command that a file tells.
fn command_in(file: &str) -> String {
    let text = files::text(file);
    let mut commands = text.lines().filter_map(|line| {
        let start = line.find("cc -std=")?;
        Some(line[start..].to_string())
    });
    let command = commands.next();
    assert_eq!(commands.next(), None, "{file} tells two commands");
    command.unwrap_or_else(|| panic!("{file} does not tell how to compile the example"))
}

/// A directory that looks to the command like the repository after `make lib`.
fn after_make_lib() -> PathBuf {
    let root = scratch("after_make_lib");
    if root.exists() {
        fs::remove_dir_all(&root).unwrap();
    }
    let example = root.join(EXAMPLE);
    let examples = example.parent().expect("the example stands in a directory");
    for directory in [
        &root.join("target/include"),
        &root.join("target/lib"),
        examples,
    ] {
        fs::create_dir_all(directory).unwrap();
    }
    let header = root.join("target/include/tropfenpfad.h");
    fs::copy(files::path(HEADER), header).unwrap();
    fs::copy(archive(), root.join("target/lib/libtropfenpfad.a")).unwrap();
    fs::copy(files::path(EXAMPLE), &example).unwrap();
    root
}

/// What the example prints for an image, which it is given by name and then as its input.
fn printed(program: &Path, image: &Path) -> [String; 2] {
    let named = succeed(Command::new(program).arg(image));
    let input = File::open(image).unwrap();
    let read = succeed(Command::new(program).stdin(Stdio::from(input)));
    [named, read].map(|output| String::from_utf8_lossy(&output.stdout).into_owned())
}

/// Writes an image of zeros of this length; gives its path.
fn zeros(name: &str, length: usize) -> PathBuf {
    let path = scratch(&format!("{name}-{length}"));
    fs::write(&path, vec![0; length]).unwrap();
    path
}

/// Compares all that a program of the example prints.
fn compare(program: &Path, name: &str) {
    let cases = [
        (65_536, "mode 2 counter 1 screen 8960 character 0\n"),
        (0, "refused 1\n"),
        (65_535, "refused 1\n"),
        (65_537, "refused 1\n"),
        (200_000, "refused 1\n"),
    ];
    for (length, expected) in cases {
        let texts = printed(program, &zeros(name, length));
        assert_eq!(texts, [expected; 2], "{length} bytes");
    }
    let listing = files::text("crates/listing/stdout");
    let closing = listing
        .lines()
        .last()
        .expect("a listing has a closing line");
    let texts = printed(program, &files::path("crates/testcard/stdout"));
    assert_eq!(texts, [format!("{closing}\n"), format!("{closing}\n")]);
}

#[test]
fn an_example_that_prints_something_else() {
    compare(&build(EXAMPLE, "paint"), "zeros");
    println!("example: 4 paintings and 8 bad inputs compared");
}

#[test]
fn a_command_that_does_not_compile_the_example() {
    let [first, others @ ..] = TOLD_IN.map(command_in);
    for (other, file) in others.iter().zip(&TOLD_IN[1..]) {
        assert_eq!(*other, first, "{file} and {}", TOLD_IN[0]);
    }
    let root = after_make_lib();
    succeed(Command::new("sh").args(["-c", &first]).current_dir(&root));
    compare(&root.join("target/paint"), "zeros-for-command");
    println!("example by its command: 4 paintings and 8 bad inputs compared");
}
