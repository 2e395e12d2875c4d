//! Lists of accesses to lend to a trace, and the accesses of a list made one at a time.

use std::array;

use tropfenpfad_sys::{Cycle, Latches, Traced};

use crate::accesses::random_address;
use crate::calls;
use crate::random::Xorshift;

/// A trace by the C call's terms.
pub type Trace<'a> = &'a dyn Fn(&mut [u8], u8, Latches, &mut [Cycle]) -> Traced;

/// A read, with nothing filled in.
pub fn read(address: u16) -> Cycle {
    Cycle {
        address,
        ..Cycle::default()
    }
}

/// A write, with nothing filled in.
pub fn write(address: u16, byte: u8) -> Cycle {
    Cycle {
        address,
        write: 1,
        byte,
        ..Cycle::default()
    }
}

/// So many accesses at random, about half of them writes, with anything in the fields that a trace
/// fills in.
pub fn random_cycles(generator: &mut Xorshift, count: usize) -> Vec<Cycle> {
    (0..count).map(|_| random_cycle(generator)).collect()
}

fn random_cycle(generator: &mut Xorshift) -> Cycle {
    let [choice, write, byte, low, high, target, byte_read, _] = generator.next().to_le_bytes();
    Cycle {
        address: random_address(generator),
        write: if choice < 128 { 0 } else { write },
        byte,
        number: u16::from_le_bytes([low, high]),
        target,
        byte_read,
    }
}

/// The same at a few addresses, so that most accesses find what others have stored.
pub fn crowded_cycles(generator: &mut Xorshift, count: usize) -> Vec<Cycle> {
    let addresses: [u16; 8] = array::from_fn(|_| random_address(generator));
    let mut cycles = random_cycles(generator, count);
    for cycle in &mut cycles {
        cycle.address = generator.pick(&addresses);
    }
    cycles
}

/// Makes the accesses of a list by single calls of the library, and fills in what they answer. The
/// status is 0 if none was refused.
pub fn one_at_a_time(
    memory: &mut [u8],
    profile: u8,
    latches: Latches,
    cycles: &mut [Cycle],
) -> Traced {
    let mut left = Traced { status: 0, latches };
    for cycle in cycles {
        let (address, byte) = (cycle.address, cycle.byte);
        let status;
        (status, cycle.target, cycle.number, cycle.byte_read) = match cycle.write {
            0 => {
                let answer = calls::read(memory, profile, left.latches, address);
                (answer.status, answer.target, answer.number, answer.byte)
            }
            _ => {
                let answer = calls::write(memory, profile, left.latches, address, byte);
                left.latches = answer.latches;
                (answer.status, answer.target, answer.number, answer.byte)
            }
        };
        left.status |= status;
    }
    left
}
