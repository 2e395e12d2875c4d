//! Sizes, places of fields and constants, compared by the C compiler.

use std::fmt::Write;
use std::fs;
use std::mem::{offset_of, size_of};

use tropfenpfad::{Refusal, Target};
use tropfenpfad_conformance::slips::FARTHEST;
use tropfenpfad_sys::{
    Access, Address, Comparison, Cycle, Decoded, Latches, Painted, Slip, State, Traced, Written,
};

use crate::cc::{compiler, scratch, succeed, STANDARDS, WARNINGS};
use crate::names::{constant_name, header_names};

/// Facts that hold if header and Rust agree, one to a line, and the header's names that they are
/// about.
struct Facts {
    text: String,
    names: Vec<String>,
}

impl Facts {
    fn new() -> Self {
        let text = "#include \"tropfenpfad.h\"\n\
                    #ifdef __cplusplus\n\
                    #define CHECK(fact) static_assert(fact, #fact)\n\
                    #else\n\
                    #define CHECK(fact) _Static_assert(fact, #fact)\n\
                    #endif\n";
        Facts {
            text: text.into(),
            names: Vec::new(),
        }
    }

    fn equal(&mut self, left: &str, right: usize) {
        writeln!(self.text, "CHECK({left} == {right});").expect("a string takes all");
    }

    fn constant(&mut self, name: &str, value: usize) {
        let name = format!("TROPFENPFAD_{name}");
        self.equal(&name, value);
        self.names.push(name);
    }

    fn record(&mut self, name: &str, size: usize, fields: &[(&str, usize)]) {
        self.equal(&format!("sizeof({name})"), size);
        for (field, place) in fields {
            self.equal(&format!("offsetof({name}, {field})"), *place);
        }
        self.names.push(name.into());
    }
}

macro_rules! constants {
    ($facts:ident: $($name:ident),+ $(,)?) => {
        $($facts.constant(stringify!($name), tropfenpfad_sys::$name.into());)+
    };
}

macro_rules! record {
    ($facts:ident, $name:literal, $record:ident: $($field:ident),+) => {
        $facts.record(
            $name,
            size_of::<$record>(),
            &[$((stringify!($field), offset_of!($record, $field))),+],
        );
    };
}

fn profiles(facts: &mut Facts) {
    constants!(facts: PROFILE_48K, PROFILE_16K);
}

fn sizes(facts: &mut Facts) {
    constants!(
        facts: IMAGE_LENGTH, IMAGE_LENGTH_16K, COLUMNS, LINES, LINE_LENGTH, FRAME_LENGTH, MAP_LENGTH
    );
}

fn refusals(facts: &mut Facts) {
    constants!(facts: DONE);
    for refusal in Refusal::ALL {
        let name = constant_name(&format!("{refusal:?}"));
        facts.constant(&format!("REFUSED_{name}"), refusal.number().into());
    }
}

fn video(facts: &mut Facts) {
    record!(facts, "tropfenpfad_state", State: mode, counter, profile);
    record!(facts, "tropfenpfad_painted", Painted: status, state, screen, character);
    record!(facts, "tropfenpfad_address", Address: status, address);
}

fn bus(facts: &mut Facts) {
    constants!(facts: KIND_NONE, KIND_MICRODISC, KIND_JASMIN);
    for target in Target::ALL {
        let name = constant_name(&format!("{target:?}"));
        facts.constant(&format!("TARGET_{name}"), target as usize);
    }
    record!(facts, "tropfenpfad_latches", Latches: kind, first, second);
    record!(facts, "tropfenpfad_decoded", Decoded: status, target, number);
    record!(facts, "tropfenpfad_access", Access: status, target, number, byte);
    record!(facts, "tropfenpfad_written", Written: status, target, number, byte, latches);
}

fn trace(facts: &mut Facts) {
    constants!(facts: LONGEST_TRACE);
    record!(
        facts, "tropfenpfad_cycle", Cycle: address, write, byte, number, target, byte_read
    );
    record!(facts, "tropfenpfad_traced", Traced: status, latches);
}

fn comparison(facts: &mut Facts) {
    constants!(facts: LISTED_CELLS, NO_CELL);
    record!(
        facts, "tropfenpfad_comparison", Comparison:
        status, empty, first_x, last_x, first_line, last_line, pixels, cells
    );
}

fn slip(facts: &mut Facts) {
    facts.constant("FARTHEST_SLIP", FARTHEST);
    record!(facts, "tropfenpfad_slip", Slip: status, slip, disagreements);
}

#[test]
fn a_header_that_does_not_compile_alone() {
    let source = scratch("alone.c");
    fs::write(
        &source,
        "#include \"tropfenpfad.h\"\n#include \"tropfenpfad.h\"\n",
    )
    .unwrap();
    for standard in STANDARDS {
        succeed(compiler(standard).arg("-fsyntax-only").arg(&source));
    }
    println!("header: compiled as {STANDARDS:?} with {WARNINGS:?}");
}

#[test]
fn a_record_or_constant_that_differs_in_the_header() {
    let mut facts = Facts::new();
    let sections = [
        profiles, sizes, refusals, video, bus, trace, comparison, slip,
    ];
    for section in sections {
        section(&mut facts);
    }
    let source = scratch("facts.c");
    fs::write(&source, &facts.text).unwrap();
    for standard in STANDARDS {
        succeed(compiler(standard).arg("-fsyntax-only").arg(&source));
    }
    let mut declared = header_names();
    declared.retain(|name| !name.ends_with("()"));
    assert_eq!(facts.names, declared, "compared, and in the header");
    let count = facts.text.matches("\nCHECK(").count();
    println!("header: {count} sizes, places and constants compared");
}
