//! The numbers that stand in place of an answer.

use std::error::Error;
use std::fmt;

use tropfenpfad_sys as ffi;

/// Why a call gave no answer. Every call lists the refusals that it can give; it tests them in the
/// order in which it lists them and gives the first that applies.
#[derive(Clone, Copy, Debug, PartialEq, Eq, PartialOrd, Ord, Hash)]
#[repr(u8)]
pub enum Refusal {
    /// The memory image has not the profile's length: 65,536 bytes for 0, 16,384 for 1.
    Memory = ffi::REFUSED_MEMORY,
    /// A line is not 240 bytes long, a frame not 53,760, a map not 8,192, the line counts are not 224
    /// numbers or the listed cells not 64.
    Output = ffi::REFUSED_OUTPUT,
    /// The mode is above 7.
    Mode = ffi::REFUSED_MODE,
    /// The flash counter is above 31.
    Counter = ffi::REFUSED_COUNTER,
    /// The line is above 223.
    Line = ffi::REFUSED_LINE,
    /// The column is above 39.
    Column = ffi::REFUSED_COLUMN,
    /// The controller kind is above 2.
    Kind = ffi::REFUSED_KIND,
    /// The trace has more than 1,024 records.
    Trace = ffi::REFUSED_TRACE,
    /// The profile is above 1.
    Profile = ffi::REFUSED_PROFILE,
    /// The profile is 1, the 16K machine, and the controller kind is not 0.
    Controller = ffi::REFUSED_CONTROLLER,
}

impl Refusal {
    /// Every refusal, in the order of their numbers.
    pub const ALL: [Refusal; 10] = [
        Refusal::Memory,
        Refusal::Output,
        Refusal::Mode,
        Refusal::Counter,
        Refusal::Line,
        Refusal::Column,
        Refusal::Kind,
        Refusal::Trace,
        Refusal::Profile,
        Refusal::Controller,
    ];

    /// The refusal with this number, if there is one.
    pub fn from_number(number: u8) -> Option<Refusal> {
        Self::ALL
            .into_iter()
            .find(|refusal| refusal.number() == number)
    }

    /// The number that the library gives.
    pub fn number(self) -> u8 {
        self as u8
    }

    /// What was wrong, in words.
    pub fn text(self) -> &'static str {
        match self {
            Refusal::Memory => {
                "the memory image is not 65,536 bytes for profile 0 or 16,384 for profile 1"
            }
            Refusal::Output => {
                "a line is not 240 bytes, a frame not 53,760, a map not 8,192, the line counts are \
                 not 224 numbers or the listed cells not 64"
            }
            Refusal::Mode => "the mode is above 7",
            Refusal::Counter => "the flash counter is above 31",
            Refusal::Line => "the line is above 223",
            Refusal::Column => "the column is above 39",
            Refusal::Kind => "the controller kind is above 2",
            Refusal::Trace => "the trace has more than 1,024 records",
            Refusal::Profile => "the profile is above 1",
            Refusal::Controller => "the profile is 1 and the controller kind is not 0",
        }
    }
}

impl fmt::Display for Refusal {
    fn fmt(&self, out: &mut fmt::Formatter<'_>) -> fmt::Result {
        write!(out, "refused {}: {}", self.number(), self.text())
    }
}

impl Error for Refusal {}

/// Takes a status apart: done, or refused.
pub(crate) fn check(status: u8) -> Result<(), Refusal> {
    if status == ffi::DONE {
        return Ok(());
    }
    Err(Refusal::from_number(status).expect("every status has a name"))
}
