//! The header `include/tropfenpfad.h` in Rust: its constants, records and calls under its section
//! heads and in its order, which a test compares. What a call takes, refuses and leaves is said
//! there.

// ----------------------------------------------------------------------------
// Profiles
// ----------------------------------------------------------------------------

/// The 48K machine.
pub const PROFILE_48K: u8 = 0;
/// The 16K machine: its RAM is mirrored in each 16K block below C000, so that a RAM address is
/// folded, taken mod 16,384. It has no disc controller.
pub const PROFILE_16K: u8 = 1;

// ----------------------------------------------------------------------------
// Sizes
// ----------------------------------------------------------------------------

/// Bytes in a memory image of the 48K machine: its whole RAM, byte n at address n.
pub const IMAGE_LENGTH: usize = 65_536;
/// Bytes in a memory image of the 16K machine: its whole RAM, byte n at the folded address n.
pub const IMAGE_LENGTH_16K: usize = 16_384;

/// Cells in a line; columns are 0 to 39.
pub const COLUMNS: usize = 40;

/// Lines in a frame; they are 0 to 223.
pub const LINES: usize = 224;

/// Bytes in a painted line, one for each pixel from left to right. A pixel is 0 to 7: bit 0 red,
/// bit 1 green, bit 2 blue.
pub const LINE_LENGTH: usize = 240;

/// Bytes in a painted frame: its lines one after the other.
pub const FRAME_LENGTH: usize = 53_760;

/// Bytes in a map of used addresses, of either machine: one bit an address, and address a has bit
/// a % 8 of byte a / 8.
pub const MAP_LENGTH: usize = 8192;

// ----------------------------------------------------------------------------
// Refusals
// ----------------------------------------------------------------------------

/// The call was answered.
pub const DONE: u8 = 0;
/// The memory image has not the profile's length.
pub const REFUSED_MEMORY: u8 = 1;
/// The lent output, a line, a frame, a map or a list has another length.
pub const REFUSED_OUTPUT: u8 = 2;
/// The mode is too great.
pub const REFUSED_MODE: u8 = 3;
/// The flash counter is too great.
pub const REFUSED_COUNTER: u8 = 4;
/// The line is too great.
pub const REFUSED_LINE: u8 = 5;
/// The column is too great.
pub const REFUSED_COLUMN: u8 = 6;
/// The controller kind is too great.
pub const REFUSED_KIND: u8 = 7;
/// The trace has too many records.
pub const REFUSED_TRACE: u8 = 8;
/// The profile is too great.
pub const REFUSED_PROFILE: u8 = 12;
/// The 16K machine with a controller.
pub const REFUSED_CONTROLLER: u8 = 13;

// ----------------------------------------------------------------------------
// Video
// ----------------------------------------------------------------------------

/// What video carries from line to line and frame to frame.
#[repr(C)]
#[derive(Clone, Copy, Debug, PartialEq, Eq)]
pub struct State {
    /// The mode register, 0 to 7: bit 2 hires, bit 1 50 Hz.
    pub mode: u8,
    /// The flash counter, 0 to 31; ink with the flash style is hidden from 16 on.
    pub counter: u8,
    /// The machine, which no call changes: 0 the 48K, 1 the 16K.
    pub profile: u8,
}

/// The answer of a painted line or frame, with a map or without one.
#[repr(C)]
#[derive(Clone, Copy, Debug, PartialEq, Eq)]
pub struct Painted {
    /// 0, or the refusal's number.
    pub status: u8,
    /// The state afterwards; as handed in on a refusal.
    pub state: State,
    /// Screen bytes used.
    pub screen: u32,
    /// Character bytes used.
    pub character: u32,
}

/// The answer of a screen address lookup.
#[repr(C)]
#[derive(Clone, Copy, Debug, PartialEq, Eq)]
pub struct Address {
    /// 0, or the refusal's number.
    pub status: u8,
    /// Where the cell's screen byte stands in RAM: the folded address.
    pub address: u16,
}

#[allow(missing_docs)]
extern "C" {
    pub fn tropfenpfad_fresh_state() -> State;

    pub fn tropfenpfad_screen_address(profile: u8, line: usize, column: usize, mode: u8)
        -> Address;

    pub fn tropfenpfad_paint_line(
        memory: *const u8,
        memory_length: usize,
        state: State,
        line: usize,
        output: *mut u8,
        output_length: usize,
    ) -> Painted;

    pub fn tropfenpfad_paint_frame(
        memory: *const u8,
        memory_length: usize,
        state: State,
        frame: *mut u8,
        frame_length: usize,
    ) -> Painted;

    pub fn tropfenpfad_paint_line_mapped(
        memory: *const u8,
        memory_length: usize,
        state: State,
        line: usize,
        output: *mut u8,
        output_length: usize,
        map: *mut u8,
        map_length: usize,
    ) -> Painted;

    pub fn tropfenpfad_paint_frame_mapped(
        memory: *const u8,
        memory_length: usize,
        state: State,
        frame: *mut u8,
        frame_length: usize,
        map: *mut u8,
        map_length: usize,
    ) -> Painted;
}

// ----------------------------------------------------------------------------
// Bus
// ----------------------------------------------------------------------------

/// No disc controller.
pub const KIND_NONE: u8 = 0;
/// The Microdisc: one latch, at 0314.
pub const KIND_MICRODISC: u8 = 1;
/// The Jasmin: two latches, at 03FA and 03FB.
pub const KIND_JASMIN: u8 = 2;

/// RAM below C000; its number is the folded address.
pub const TARGET_RAM: u8 = 0;
/// The 6522; its number is the register, 0 to 15.
pub const TARGET_VIA: u8 = 1;
/// The disc controller; its number is the place in page 3.
pub const TARGET_CONTROLLER: u8 = 2;
/// The BASIC ROM; its number counts from C000.
pub const TARGET_BASIC_ROM: u8 = 3;
/// RAM from C000 on; its number is the address.
pub const TARGET_OVERLAY_RAM: u8 = 4;
/// The controller's boot EPROM; its number counts from E000 for the Microdisc, and from C000 for the
/// Jasmin.
pub const TARGET_BOOT_EPROM: u8 = 5;
/// Nothing is there; its number is the place in page 3.
pub const TARGET_UNASSIGNED: u8 = 6;

/// The controller that is fitted, and what its two latches hold.
#[repr(C)]
#[derive(Clone, Copy, Debug, PartialEq, Eq)]
pub struct Latches {
    /// 0 none, 1 Microdisc, 2 Jasmin; the 16K machine takes 0 alone.
    pub kind: u8,
    /// Microdisc: written at 0314. Jasmin: written at 03FA.
    pub first: u8,
    /// Jasmin: written at 03FB.
    pub second: u8,
}

/// The answer of an address decode.
#[repr(C)]
#[derive(Clone, Copy, Debug, PartialEq, Eq)]
pub struct Decoded {
    /// 0, or the refusal's number.
    pub status: u8,
    /// What answers at the address, 0 to 6.
    pub target: u8,
    /// Which of the target's bytes or registers it is.
    pub number: u16,
}

/// The answer of a read, and of a write in place.
#[repr(C)]
#[derive(Clone, Copy, Debug, PartialEq, Eq)]
pub struct Access {
    /// 0, or the refusal's number.
    pub status: u8,
    /// What answered, 0 to 6.
    pub target: u8,
    /// Which of the target's bytes or registers it was.
    pub number: u16,
    /// The byte read; 0 for a write.
    pub byte: u8,
}

/// The answer of a write by value.
#[repr(C)]
#[derive(Clone, Copy, Debug, PartialEq, Eq)]
pub struct Written {
    /// 0, or the refusal's number.
    pub status: u8,
    /// What answered, 0 to 6.
    pub target: u8,
    /// Which of the target's bytes or registers it was.
    pub number: u16,
    /// The byte read, which a write leaves 0.
    pub byte: u8,
    /// The latches from the next access on; as handed in on a refusal.
    pub latches: Latches,
}

#[allow(missing_docs)]
extern "C" {
    pub fn tropfenpfad_fresh_latches() -> Latches;

    pub fn tropfenpfad_decode(profile: u8, latches: Latches, address: u16) -> Decoded;

    pub fn tropfenpfad_read(
        memory: *const u8,
        memory_length: usize,
        profile: u8,
        latches: Latches,
        address: u16,
    ) -> Access;

    pub fn tropfenpfad_write(
        memory: *mut u8,
        memory_length: usize,
        profile: u8,
        latches: Latches,
        address: u16,
        byte: u8,
    ) -> Written;

    pub fn tropfenpfad_write_in_place(
        memory: *mut u8,
        memory_length: usize,
        profile: u8,
        latches: *mut Latches,
        address: u16,
        byte: u8,
    ) -> Access;
}

// ----------------------------------------------------------------------------
// Trace
// ----------------------------------------------------------------------------

/// Records of the longest list that a call takes.
pub const LONGEST_TRACE: usize = 1024;

/// One access of a trace: the first three fields say what to do, and no call changes them; the other
/// three are filled in.
#[repr(C)]
#[derive(Clone, Copy, Debug, Default, PartialEq, Eq)]
pub struct Cycle {
    /// Any address.
    pub address: u16,
    /// 0 for a read, any other value for a write.
    pub write: u8,
    /// The byte to write; a read has no use for it.
    pub byte: u8,
    /// Filled in: which of the target's bytes or registers it was.
    pub number: u16,
    /// Filled in: what answered, 0 to 6.
    pub target: u8,
    /// Filled in: the byte read; 0 for a write.
    pub byte_read: u8,
}

/// The answer of a trace.
#[repr(C)]
#[derive(Clone, Copy, Debug, PartialEq, Eq)]
pub struct Traced {
    /// 0, or the refusal's number.
    pub status: u8,
    /// The latches from the next access on; as handed in on a refusal.
    pub latches: Latches,
}

#[allow(missing_docs)]
extern "C" {
    pub fn tropfenpfad_trace(
        memory: *mut u8,
        memory_length: usize,
        profile: u8,
        latches: Latches,
        cycles: *mut Cycle,
        count: usize,
    ) -> Traced;
}

// ----------------------------------------------------------------------------
// Comparison
// ----------------------------------------------------------------------------

/// Places in the list of differing cells.
pub const LISTED_CELLS: usize = 64;

/// What an unused place of that list holds; no cell has this number.
pub const NO_CELL: u16 = 65_535;

/// The answer of a comparison: how many pixels and cells differ, and the smallest rectangle that
/// holds all of these pixels.
#[repr(C)]
#[derive(Clone, Copy, Debug, PartialEq, Eq)]
pub struct Comparison {
    /// 0, or the refusal's number.
    pub status: u8,
    /// No pixel differs, and the rectangle is four zeros; false on a refusal.
    pub empty: bool,
    /// The rectangle's first x.
    pub first_x: u8,
    /// Its last x.
    pub last_x: u8,
    /// Its first line.
    pub first_line: u8,
    /// Its last line.
    pub last_line: u8,
    /// Pixels that differ.
    pub pixels: u32,
    /// Cells that differ, the listed ones and all others.
    pub cells: u32,
}

#[allow(missing_docs)]
extern "C" {
    pub fn tropfenpfad_compare(
        first: *const u8,
        first_length: usize,
        second: *const u8,
        second_length: usize,
        line_counts: *mut u16,
        line_counts_length: usize,
        cells: *mut u16,
        cells_length: usize,
    ) -> Comparison;
}

// ----------------------------------------------------------------------------
// Slip
// ----------------------------------------------------------------------------

/// The farthest slip to either side: slips are -12 to 12.
pub const FARTHEST_SLIP: i8 = 12;

/// The answer of the search for a slip.
#[repr(C)]
#[derive(Clone, Copy, Debug, PartialEq, Eq)]
pub struct Slip {
    /// 0, or the refusal's number.
    pub status: u8,
    /// Pixels to the right; below 0 to the left.
    pub slip: i8,
    /// Pixels of the reference that disagree at this slip.
    pub disagreements: u16,
}

#[allow(missing_docs)]
extern "C" {
    pub fn tropfenpfad_find_slip(
        reference: *const u8,
        reference_length: usize,
        grabbed: *const u8,
        grabbed_length: usize,
    ) -> Slip;
}
