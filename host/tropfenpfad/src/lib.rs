//! The proved reference of the HCS10017, the ULA of the Oric Atmos, called from Rust.
//!
//! Video: where a cell's screen byte stands, a painted line, a painted frame, both also with a map
//! of the addresses that they use. Bus: the decode of an address, a read, and a write in two forms.
//! Trace: a list of accesses in one call. Comparison: where two frames differ. Slip: by how many
//! pixels a grabbed line stands beside its place. Each call gives its answer or a [`Refusal`]; on a
//! refusal nothing that was lent has changed.
//!
//! Every call that deals in addresses takes the profile, 0 for the 48K machine and 1 for the 16K
//! machine: the painters in the [`State`], the others as an argument. The RAM of the 16K machine is
//! mirrored in each 16K block below C000. Its memory image is 16,384 bytes, and a RAM address is
//! folded: taken mod 16,384.
//!
//! ```
//! let memory = vec![0; tropfenpfad::IMAGE_LENGTH];
//! let mut frame = vec![0xFF; tropfenpfad::FRAME_LENGTH];
//! let painting = tropfenpfad::paint_frame(&memory, tropfenpfad::fresh_state(), &mut frame)?;
//! assert_eq!((painting.screen, painting.character), (8960, 0));
//! assert!(frame.iter().all(|&pixel| pixel == 0));
//! # Ok::<(), tropfenpfad::Refusal>(())
//! ```
//!
//! The archive is found in `target/lib` of the repository, where `make lib` puts it, or in
//! the directory that the environment variable `TROPFENPFAD_LIB` names during the build.

#![deny(missing_docs)]

mod bus;
mod compare;
mod refusal;
mod slip;
mod trace;
mod video;

pub use bus::{decode, fresh_latches, read, write, write_in_place, Place, Target};
pub use compare::{compare, Differences, Rectangle};
pub use refusal::Refusal;
pub use slip::{find_slip, Slip};
pub use trace::trace;
pub use video::{
    fresh_state, paint_frame, paint_frame_mapped, paint_line, paint_line_mapped, screen_address,
    Painting,
};

#[doc(inline)]
pub use tropfenpfad_sys::{
    Cycle, Latches, State, COLUMNS, FARTHEST_SLIP, FRAME_LENGTH, IMAGE_LENGTH, IMAGE_LENGTH_16K,
    KIND_JASMIN, KIND_MICRODISC, KIND_NONE, LINES, LINE_LENGTH, LISTED_CELLS, LONGEST_TRACE,
    MAP_LENGTH, NO_CELL, PROFILE_16K, PROFILE_48K,
};
