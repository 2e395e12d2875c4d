//! One list of bus accesses made twice, by the library and by the model.

use tropfenpfad_sys::Latches;

use crate::buffers::assert_same_bytes;
use crate::calls;
use crate::inputs::random_latches;
use crate::model::Bus;
use crate::random::Xorshift;

/// One access to make; a record of its own takes the place of the latches that the last one left.
#[derive(Clone, Copy, Debug)]
pub struct Step {
    pub form: Form,
    pub profile: u8,
    pub address: u16,
    pub byte: u8,
    pub brings: Option<Latches>,
}

#[derive(Clone, Copy, Debug)]
pub enum Form {
    Read,
    Write,
    WriteInPlace,
}

/// Where decode, latches, mirrors or video change, and their neighbours.
const EDGES: [u16; 38] = [
    0x0000, 0x02FF, 0x0300, 0x030F, 0x0310, 0x0314, 0x0315, 0x0318, 0x031F, 0x0320, 0x03F3, 0x03F4,
    0x03FA, 0x03FB, 0x03FF, 0x0400, 0x3B80, 0x3FFF, 0x4000, 0x42FF, 0x4300, 0x43FF, 0x4400, 0x7B80,
    0x7FFF, 0x8000, 0x82FF, 0x8300, 0x83FF, 0x8400, 0x9800, 0xB400, 0xBB80, 0xBFDF, 0xC000, 0xDFFF,
    0xE000, 0xFFFF,
];

impl Step {
    /// An access to a memory of this profile at random; now and then under another profile.
    pub fn random(profile: u8, generator: &mut Xorshift) -> Step {
        let [form, byte, other, own, ..] = generator.next().to_le_bytes();
        Step {
            form: [Form::Read, Form::Write, Form::WriteInPlace][usize::from(form) % 3],
            profile: if other < 4 { generator.byte() } else { profile },
            address: random_address(generator),
            byte,
            brings: (own < 8).then(|| random_latches(profile, generator)),
        }
    }
}

/// An address at random, often one of a latch or one where something changes.
pub fn random_address(generator: &mut Xorshift) -> u16 {
    let [choice, low, ..] = generator.next().to_le_bytes();
    match choice >> 5 {
        0 => generator.pick(&[0x0314, 0x03FA, 0x03FB]),
        1 => generator.pick(&[0x0300, 0x0300, 0x4300, 0x8300]) | u16::from(low),
        2 => generator.pick(&EDGES),
        3 => 0xC000 | generator.next() as u16 >> 2,
        4 => video_address(0x8000, generator),
        5 => video_address(generator.pick(&[0x0000, 0x4000]), generator),
        _ => generator.next() as u16,
    }
}

/// An address that video reads in the block of 16K that begins here, by the 16K machine at least.
fn video_address(block: u16, generator: &mut Xorshift) -> u16 {
    block + 0x1800 + generator.below(0x3FE0 - 0x1800) as u16
}

/// Both sides of a run: a memory and a latch record each.
pub struct TwoBuses {
    pub memories: [Vec<u8>; 2],
    pub latches: [Latches; 2],
    pub accesses: usize,
    pub refused: usize,
    pub stores: usize,
}

impl TwoBuses {
    pub fn new(memory: Vec<u8>, latches: Latches) -> Self {
        TwoBuses {
            memories: [memory.clone(), memory],
            latches: [latches; 2],
            accesses: 0,
            refused: 0,
            stores: 0,
        }
    }

    /// Makes one access on both sides and compares answers and latches.
    pub fn access(&mut self, model: &Bus, step: Step) {
        if let Some(own) = step.brings {
            self.latches = [own; 2];
        }
        let before = self.latches[0];
        let status = match step.form {
            Form::Read => self.read(model, step),
            Form::Write => self.write(model, step),
            Form::WriteInPlace => self.write_in_place(model, step),
        };
        let [library, other] = self.latches;
        assert_eq!(library, other, "latches after {step:?} under {before:?}");
        self.accesses += 1;
        self.refused += usize::from(status != 0);
    }

    fn read(&mut self, model: &Bus, step: Step) -> u8 {
        let [latches, _] = self.latches;
        let library = calls::read(&self.memories[0], step.profile, latches, step.address);
        let other = model.read(&self.memories[1], step.profile, latches, step.address);
        assert_eq!(library, other, "{step:?} under {latches:?}");
        library.status
    }

    fn write(&mut self, model: &Bus, step: Step) -> u8 {
        let [first, second] = &mut self.memories;
        let [latches, _] = self.latches;
        let library = calls::write(first, step.profile, latches, step.address, step.byte);
        let other = model.write(second, step.profile, latches, step.address, step.byte);
        assert_eq!(library, other, "{step:?} under {latches:?}");
        self.latches = [library.latches, other.latches];
        self.count_store(library.status, library.target)
    }

    fn write_in_place(&mut self, model: &Bus, step: Step) -> u8 {
        let [first, second] = &mut self.memories;
        let before = self.latches[0];
        let [left, right] = &mut self.latches;
        let library = calls::write_in_place(first, step.profile, left, step.address, step.byte);
        let other = model.write_in_place(second, step.profile, right, step.address, step.byte);
        assert_eq!(library, other, "{step:?} under {before:?}");
        self.count_store(library.status, library.target)
    }

    fn count_store(&mut self, status: u8, target: u8) -> u8 {
        self.stores += usize::from(status == 0 && (target == 0 || target == 4));
        status
    }

    /// Compares the memories whole.
    pub fn compare_memories(&self) {
        assert_same_bytes("memory", &self.memories[0], &self.memories[1]);
    }
}
