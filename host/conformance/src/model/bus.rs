//! Decode, reads and writes.

pub(super) mod decoder;

use tropfenpfad_sys::{Access, Decoded, Latches, Written};

use super::refusal::{first_of, of_controller, of_kind, of_memory, of_profile};
use decoder::Decoder;

/// The model of the bus half, with its maps.
pub struct Bus {
    pub(super) decoder: Decoder,
}

impl Default for Bus {
    fn default() -> Self {
        Self::new()
    }
}

impl Bus {
    /// Builds the maps.
    pub fn new() -> Self {
        Bus {
            decoder: Decoder::new(),
        }
    }

    /// Kind 0, both latch bytes 0.
    pub fn fresh_latches(&self) -> Latches {
        Latches {
            kind: 0,
            first: 0,
            second: 0,
        }
    }

    /// What answers at an address.
    pub fn decode(&self, profile: u8, latches: Latches, address: u16) -> Decoded {
        let status = first_of(&[
            of_profile(profile),
            of_kind(latches),
            of_controller(profile, latches),
        ]);
        if status != 0 {
            return Decoded {
                status,
                target: 0,
                number: 0,
            };
        }
        let (target, number) = self.decoder.decode(profile, latches, address);
        Decoded {
            status: 0,
            target,
            number,
        }
    }

    /// Reads over the bus.
    pub fn read(&self, memory: &[u8], profile: u8, latches: Latches, address: u16) -> Access {
        let status = access_refusal(memory, profile, latches);
        if status != 0 {
            return refused(status);
        }
        let (target, number) = self.decoder.decode(profile, latches, address);
        let kept = 0u8.wrapping_sub(decoder::is_ram(target) as u8);
        Access {
            status: 0,
            target,
            number,
            byte: memory[usize::from(number)] & kept,
        }
    }

    /// Writes over the bus, latches by value.
    pub fn write(
        &self,
        memory: &mut [u8],
        profile: u8,
        latches: Latches,
        address: u16,
        byte: u8,
    ) -> Written {
        let mut latches = latches;
        let answer = self.write_in_place(memory, profile, &mut latches, address, byte);
        Written {
            status: answer.status,
            target: answer.target,
            number: answer.number,
            byte: answer.byte,
            latches,
        }
    }

    /// Writes over the bus, latches in place.
    pub fn write_in_place(
        &self,
        memory: &mut [u8],
        profile: u8,
        latches: &mut Latches,
        address: u16,
        byte: u8,
    ) -> Access {
        let status = access_refusal(memory, profile, *latches);
        if status != 0 {
            return refused(status);
        }
        let (target, number) = self.decoder.decode(profile, *latches, address);
        if decoder::is_ram(target) {
            memory[usize::from(number)] = byte;
        }
        self.decoder.latch(latches, address, byte);
        Access {
            status: 0,
            target,
            number,
            byte: 0,
        }
    }
}

fn access_refusal(memory: &[u8], profile: u8, latches: Latches) -> u8 {
    first_of(&[
        of_profile(profile),
        of_memory(profile, memory),
        of_kind(latches),
        of_controller(profile, latches),
    ])
}

fn refused(status: u8) -> Access {
    Access {
        status,
        target: 0,
        number: 0,
        byte: 0,
    }
}
