//! A list of accesses in two passes. No latch depends on what memory holds, so the first pass finds
//! all places without it: part by part, where a write to a latch ends a part and within one the same
//! latches hold. The second pass moves the bytes.

use tropfenpfad_sys::{Cycle, Latches, Traced};

use super::bus::decoder::is_ram;
use super::refusal::{first_of, of_controller, of_kind, of_memory, of_profile, of_trace};
use super::Bus;

impl Bus {
    /// Makes a list of accesses, and fills in its records.
    pub fn trace(
        &self,
        memory: &mut [u8],
        profile: u8,
        latches: Latches,
        cycles: &mut [Cycle],
    ) -> Traced {
        let status = first_of(&[
            of_profile(profile),
            of_memory(profile, memory),
            of_kind(latches),
            of_controller(profile, latches),
            of_trace(cycles),
        ]);
        if status != 0 {
            return Traced { status, latches };
        }
        let latches = self.find_places(profile, latches, cycles);
        move_bytes(memory, cycles);
        Traced { status, latches }
    }

    /// Fills in targets and numbers; gives the latches that the list leaves.
    fn find_places(&self, profile: u8, latches: Latches, cycles: &mut [Cycle]) -> Latches {
        let kind = latches.kind;
        let sets_latch =
            |cycle: &Cycle| is_write(cycle) && self.decoder.has_latch(kind, cycle.address);
        let mut latches = latches;
        for part in cycles.split_inclusive_mut(sets_latch) {
            for cycle in part.iter_mut() {
                (cycle.target, cycle.number) = self.decoder.decode(profile, latches, cycle.address);
            }
            if let Some(last) = part.last().filter(|last| sets_latch(last)) {
                self.decoder.latch(&mut latches, last.address, last.byte);
            }
        }
        latches
    }
}

/// Stores what is written to RAM, and fills in what is read from it.
fn move_bytes(memory: &mut [u8], cycles: &mut [Cycle]) {
    for cycle in cycles {
        cycle.byte_read = 0;
        if is_ram(cycle.target) {
            let place = &mut memory[usize::from(cycle.number)];
            match is_write(cycle) {
                true => *place = cycle.byte,
                false => cycle.byte_read = *place,
            }
        }
    }
}

fn is_write(cycle: &Cycle) -> bool {
    cycle.write != 0
}
