//! Frames before and after a trace: one that stores at no used address changes nothing that is shown.

use tropfenpfad_conformance::calls;
use tropfenpfad_conformance::images::{self, Kind};
use tropfenpfad_conformance::inputs::{all_states, fresh_of_kind, MACHINES};
use tropfenpfad_conformance::random::Xorshift;
use tropfenpfad_conformance::traces::random_cycles;
use tropfenpfad_sys::{
    Cycle, Painted, State, FRAME_LENGTH, MAP_LENGTH, TARGET_OVERLAY_RAM, TARGET_RAM,
};

/// What a frame shows: its answer, its pixels and the addresses that it used.
#[derive(PartialEq)]
struct Shown {
    answer: Painted,
    frame: Vec<u8>,
    map: Vec<u8>,
}

impl Shown {
    fn of(memory: &[u8], state: State) -> Self {
        let (mut frame, mut map) = (vec![0; FRAME_LENGTH], vec![0; MAP_LENGTH]);
        let answer = calls::paint_frame_mapped(memory, state, &mut frame, &mut map);
        assert_eq!(answer.status, 0);
        Shown { answer, frame, map }
    }

    /// Whether an answered record stored where the frame used a byte.
    fn is_hit(&self, cycle: &Cycle) -> bool {
        let stores = cycle.write != 0 && [TARGET_RAM, TARGET_OVERLAY_RAM].contains(&cycle.target);
        let (place, bit) = (usize::from(cycle.number / 8), cycle.number % 8);
        stores && self.map[place] >> bit & 1 == 1
    }
}

#[test]
fn a_trace_beside_the_used_bytes_that_changes_a_frame() {
    let mut generator = Xorshift::new(7);
    let (mut kept, mut changed) = (0, 0);
    for (profile, kind) in MACHINES {
        let latches = fresh_of_kind(kind);
        for (image, state) in Kind::ALL.into_iter().cycle().zip(all_states(profile)) {
            let memory = images::image(profile, image, 8);
            let before = Shown::of(&memory, state);
            let mut cycles = random_cycles(&mut generator, 1024);
            let mut after = memory.clone();
            let answer = calls::trace(&mut after, profile, latches, &mut cycles);
            assert_eq!(answer.status, 0);
            changed += usize::from(Shown::of(&after, state) != before);

            // The same list without its stores at used addresses; the other records go where they went.
            for cycle in cycles.iter_mut().filter(|cycle| before.is_hit(cycle)) {
                cycle.write = 0;
            }
            let mut after = memory.clone();
            let answer = calls::trace(&mut after, profile, latches, &mut cycles);
            assert_eq!(answer.status, 0);
            assert!(after != memory, "it stores elsewhere");
            assert!(Shown::of(&after, state) == before, "{image:?}, {state:?}");
            kept += 1;
        }
    }
    println!("frames after traces: {kept} kept, {changed} changed by stores at used addresses");
    assert!(2 * changed > kept);
}
