//! Which names the header declares, and that Rust declares the same ones in the same order.

use tropfenpfad_conformance::files;

use crate::cc::HEADER;

const FFI: &str = "host/tropfenpfad-sys/src/ffi.rs";
pub const EVERY_CALL: &str = "host/conformance/tests/header/every_call.c";

/// The header's constants, records and calls in its order; a call's name ends with `()`.
pub fn header_names() -> Vec<String> {
    let text = without_comments(&files::text(HEADER));
    text.lines().filter_map(declared_in_c).collect()
}

/// The name that a line of the header declares, if it does.
fn declared_in_c(line: &str) -> Option<String> {
    if let Some(constant) = line.strip_prefix("#define ") {
        let mut words = constant.split_whitespace();
        let name = words.next()?;
        // The guard against a second inclusion has no value.
        return words.next().map(|_| name.into());
    }
    if let Some(record) = line.strip_prefix("} ") {
        return record.strip_suffix(';').map(String::from);
    }
    let (before, _) = line.split_once('(')?;
    let (_, call) = before.rsplit_once(' ')?;
    call.starts_with("tropfenpfad_")
        .then(|| format!("{call}()"))
}

/// The text of the header with each comment left out.
fn without_comments(text: &str) -> String {
    let mut parts = text.split("/*");
    let first = parts.next().unwrap_or_default().to_string();
    parts.fold(first, |code, part| {
        let (_, after) = part.split_once("*/").expect("a comment ends");
        code + after
    })
}

/// The names that ffi.rs declares, as the header would have them.
fn ffi_names() -> Vec<String> {
    files::text(FFI)
        .lines()
        .filter_map(|line| declared_in_rust(line.trim_start()))
        .collect()
}

fn declared_in_rust(line: &str) -> Option<String> {
    let name = |rest: &str| -> String {
        let end = |c: char| !c.is_alphanumeric() && c != '_';
        rest.split(end).next().unwrap_or_default().into()
    };
    if let Some(rest) = line.strip_prefix("pub const ") {
        return Some(format!("TROPFENPFAD_{}", name(rest)));
    }
    if let Some(rest) = line.strip_prefix("pub struct ") {
        let name = constant_name(&name(rest)).to_lowercase();
        return Some(format!("tropfenpfad_{name}"));
    }
    let rest = line.strip_prefix("pub fn ")?;
    Some(format!("{}()", name(rest)))
}

/// The name of a Rust type or variant as C writes a constant: `BasicRom` is `BASIC_ROM`.
pub fn constant_name(name: &str) -> String {
    let mut text = String::new();
    for letter in name.chars() {
        if letter.is_uppercase() && !text.is_empty() {
            text.push('_');
        }
        text.push(letter.to_ascii_uppercase());
    }
    text
}

#[test]
fn a_name_that_rust_lacks_or_has_in_another_place() {
    let names = header_names();
    assert_eq!(names, ffi_names(), "{HEADER} and {FFI}");
    println!("names: {} compared", names.len());
}

#[test]
fn a_call_that_no_c_program_makes() {
    let program = files::text(EVERY_CALL);
    let mut calls = header_names();
    calls.retain(|name| name.ends_with("()"));
    assert!(!calls.is_empty(), "{HEADER} declares calls");
    for call in &calls {
        let start = call.strip_suffix(')').expect("a call's name ends with ()");
        assert!(program.contains(start), "{EVERY_CALL} does not make {call}");
    }
    println!("calls from C: {} found", calls.len());
}
