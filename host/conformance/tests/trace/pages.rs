//! Memory and lists against inaccessible pages.

use std::ptr;

use tropfenpfad_conformance::guarded::{boards, memories, traces, Lent};
use tropfenpfad_conformance::images::{self, Kind};
use tropfenpfad_conformance::inputs::{
    fresh_of_kind, image_length, in_each_profile, latches, MACHINES, NO_MACHINES,
};
use tropfenpfad_conformance::model::Bus;
use tropfenpfad_conformance::traces::write;
use tropfenpfad_sys::{self as ffi, Cycle, Latches, Traced, KIND_NONE};

const LENGTHS: [usize; 6] = [0, 1, 2, 1024, 1025, 5000];

fn trace(memory: &Lent, profile: u8, latches: Latches, cycles: &Lent<Cycle>) -> Traced {
    // SAFETY: both buffers are open for their lengths and lie in mappings of their own, and the
    // records are aligned.
    unsafe {
        ffi::tropfenpfad_trace(
            memory.pointer(),
            memory.length(),
            profile,
            latches,
            cycles.pointer(),
            cycles.length(),
        )
    }
}

#[test]
fn a_trace_that_leaves_its_buffers() {
    let model = Bus::new();
    let (mut calls, mut refused) = (0, 0);
    let mut lists = traces(&LENGTHS);
    for mut memory in memories(Kind::Random) {
        for cycles in &mut lists {
            for (profile, latches) in boards() {
                let answer = trace(&memory, profile, latches, cycles);
                let due = model.trace(&mut memory.copy, profile, latches, &mut cycles.copy);
                assert_eq!(answer, due);
                memory.check("memory");
                cycles.check("records");
                calls += 1;
                refused += usize::from(answer.status != 0);
            }
        }
    }
    println!("traces in guarded buffers: {calls} compared, {refused} with bad inputs");
}

#[test]
fn a_refused_trace_that_stores() {
    let mut calls = 0;
    let lists = traces(&LENGTHS);
    lists.iter().for_each(Lent::make_read_only);
    for memory in memories(Kind::Random) {
        memory.make_read_only();
        for cycles in &lists {
            for machine in MACHINES.into_iter().chain(NO_MACHINES) {
                let (profile, kind) = machine;
                let is_taken = MACHINES.contains(&machine)
                    && memory.length() == image_length(profile)
                    && cycles.length() <= 1024;
                if !is_taken {
                    let record = latches(kind, 0x80, 1);
                    let answer = trace(&memory, profile, record, cycles);
                    assert_ne!(answer.status, 0);
                    assert_eq!(answer.latches, record);
                    calls += 1;
                }
            }
        }
        memory.check("memory");
    }
    lists.iter().for_each(|cycles| cycles.check("records"));
    println!("refused traces with read-only pages: {calls} bad inputs compared");
}

fn lend_null_pointers(profile: u8) {
    let right = latches(KIND_NONE, 7, 9);
    let wrong = fresh_of_kind(3);
    let before = images::image(profile, Kind::Random, 1);
    let mut memory = before.clone();
    let mut cycle = write(0x0400, !before[0x0400]);
    let (image, length) = (memory.as_mut_ptr(), memory.len());
    let (no_image, no_list) = (ptr::null_mut::<u8>(), ptr::null_mut::<Cycle>());
    // SAFETY: a null pointer comes with the length 0 only.
    let answers = unsafe {
        [
            ffi::tropfenpfad_trace(image, length, profile, right, no_list, 0),
            ffi::tropfenpfad_trace(image, length, profile, wrong, no_list, 0),
            ffi::tropfenpfad_trace(image, length, 2, right, no_list, 0),
            ffi::tropfenpfad_trace(no_image, 0, profile, right, no_list, 0),
            ffi::tropfenpfad_trace(no_image, 0, profile, right, &mut cycle, 1),
        ]
    };
    let due = [(0, right), (7, wrong), (12, right), (1, right), (1, right)];
    let due = due.map(|(status, latches)| Traced { status, latches });
    assert_eq!(answers, due);
    assert!(memory == before, "memory");
    assert_eq!(cycle, write(0x0400, !before[0x0400]));
    println!("profile {profile}, null pointers to trace: 1 empty list and 4 bad inputs compared");
}

#[test]
fn a_null_pointer_of_length_0_that_is_followed_or_refused() {
    in_each_profile(lend_null_pointers);
}
