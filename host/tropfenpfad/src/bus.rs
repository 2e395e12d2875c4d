//! The bus half: address decode, reads, writes.

use tropfenpfad_sys::{self as ffi, Latches};

use crate::refusal::{check, Refusal};

/// What answers at an address of the bus.
#[derive(Clone, Copy, Debug, PartialEq, Eq, Hash)]
#[repr(u8)]
pub enum Target {
    /// RAM below C000; its number is the folded address.
    Ram = ffi::TARGET_RAM,
    /// The 6522; its number is the register, 0 to 15.
    Via = ffi::TARGET_VIA,
    /// The disc controller; its number is the place in page 3.
    Controller = ffi::TARGET_CONTROLLER,
    /// The BASIC ROM; its number counts from C000.
    BasicRom = ffi::TARGET_BASIC_ROM,
    /// RAM from C000 on; its number is the address.
    OverlayRam = ffi::TARGET_OVERLAY_RAM,
    /// The controller's boot EPROM; its number counts from E000 for the Microdisc, and from C000
    /// for the Jasmin.
    BootEprom = ffi::TARGET_BOOT_EPROM,
    /// Nothing; its number is the place in page 3.
    Unassigned = ffi::TARGET_UNASSIGNED,
}

impl Target {
    /// Every target, in the order of their numbers.
    pub const ALL: [Target; 7] = [
        Target::Ram,
        Target::Via,
        Target::Controller,
        Target::BasicRom,
        Target::OverlayRam,
        Target::BootEprom,
        Target::Unassigned,
    ];

    fn from_number(number: u8) -> Target {
        Self::ALL[usize::from(number)]
    }
}

/// A target and which of its bytes or registers is meant.
#[derive(Clone, Copy, Debug, PartialEq, Eq)]
pub struct Place {
    /// What answers.
    pub target: Target,
    /// Its byte or register.
    pub number: u16,
}

/// The latches to begin with: kind 0 (no controller), both bytes 0. The caller sets the kind of
/// the controller that is fitted; the calls that use it refuse one above 2, and in profile 1 one
/// above 0.
///
/// ```
/// use tropfenpfad::{fresh_latches, Latches, KIND_MICRODISC};
///
/// let latches = Latches { kind: KIND_MICRODISC, ..fresh_latches() };
/// assert_eq!((latches.first, latches.second), (0, 0));
/// ```
pub fn fresh_latches() -> Latches {
    // SAFETY: no pointer is handed over.
    unsafe { ffi::tropfenpfad_fresh_latches() }
}

/// What answers at an address. Refuses profile, kind, controller.
///
/// ```
/// use tropfenpfad::{decode, fresh_latches, Latches, Target};
/// use tropfenpfad::{KIND_MICRODISC, PROFILE_16K, PROFILE_48K};
///
/// let place = decode(PROFILE_48K, fresh_latches(), 0xC123)?;
/// assert_eq!((place.target, place.number), (Target::BasicRom, 0x0123));
/// // The Microdisc's EPROM begins at E000, with overlay RAM below it.
/// let latches = Latches { kind: KIND_MICRODISC, ..fresh_latches() };
/// let place = decode(PROFILE_48K, latches, 0xE123)?;
/// assert_eq!((place.target, place.number), (Target::BootEprom, 0x0123));
/// let place = decode(PROFILE_48K, latches, 0xC123)?;
/// assert_eq!((place.target, place.number), (Target::OverlayRam, 0xC123));
/// // The 16K machine folds the addresses of RAM.
/// let place = decode(PROFILE_16K, fresh_latches(), 0xBB80)?;
/// assert_eq!((place.target, place.number), (Target::Ram, 0x3B80));
/// # Ok::<(), tropfenpfad::Refusal>(())
/// ```
pub fn decode(profile: u8, latches: Latches, address: u16) -> Result<Place, Refusal> {
    // SAFETY: no pointer is handed over.
    let answer = unsafe { ffi::tropfenpfad_decode(profile, latches, address) };
    place(answer.status, answer.target, answer.number)
}

/// Reads over the bus: where it went, and the RAM byte, or 0 from anything but RAM. Refuses
/// profile, memory, kind, controller.
pub fn read(
    memory: &[u8],
    profile: u8,
    latches: Latches,
    address: u16,
) -> Result<(Place, u8), Refusal> {
    // SAFETY: the slice is valid for its length.
    let answer =
        unsafe { ffi::tropfenpfad_read(memory.as_ptr(), memory.len(), profile, latches, address) };
    place(answer.status, answer.target, answer.number).map(|place| (place, answer.byte))
}

/// Writes over the bus: where it went, and the latches that hold from the next access on. Refuses
/// profile, memory, kind, controller.
pub fn write(
    memory: &mut [u8],
    profile: u8,
    latches: Latches,
    address: u16,
    byte: u8,
) -> Result<(Place, Latches), Refusal> {
    let (start, length) = (memory.as_mut_ptr(), memory.len());
    // SAFETY: the slice is valid for its length and lent to be changed.
    let answer = unsafe { ffi::tropfenpfad_write(start, length, profile, latches, address, byte) };
    place(answer.status, answer.target, answer.number).map(|place| (place, answer.latches))
}

/// Writes over the bus and leaves the latches in the lent record. Refuses profile, memory, kind,
/// controller.
///
/// ```
/// use tropfenpfad::{fresh_latches, write_in_place, Target};
/// use tropfenpfad::{IMAGE_LENGTH, KIND_MICRODISC, PROFILE_48K};
///
/// let mut memory = vec![0; IMAGE_LENGTH];
/// let mut latches = fresh_latches();
/// latches.kind = KIND_MICRODISC;
/// write_in_place(&mut memory, PROFILE_48K, &mut latches, 0x0314, 0xFD)?;
/// let place = write_in_place(&mut memory, PROFILE_48K, &mut latches, 0xC000, 0x42)?;
/// assert_eq!(place.target, Target::OverlayRam);
/// assert_eq!(memory[0xC000], 0x42);
/// # Ok::<(), tropfenpfad::Refusal>(())
/// ```
pub fn write_in_place(
    memory: &mut [u8],
    profile: u8,
    latches: &mut Latches,
    address: u16,
    byte: u8,
) -> Result<Place, Refusal> {
    let (start, length) = (memory.as_mut_ptr(), memory.len());
    // SAFETY: as for a write; the record is another exclusive loan.
    let answer =
        unsafe { ffi::tropfenpfad_write_in_place(start, length, profile, latches, address, byte) };
    place(answer.status, answer.target, answer.number)
}

fn place(status: u8, target: u8, number: u16) -> Result<Place, Refusal> {
    check(status).map(|()| Place {
        target: Target::from_number(target),
        number,
    })
}
