//! Models that share no code with the library, written from the rules in other shapes than its own.
//!
//! [`Video`] paints by tables: what a screen byte does is looked up, the four registers are one
//! word, six pixels are six lanes of another. [`planes`] paints by bit planes. [`Bus`] decodes by a
//! map of pages, and of a list of accesses it finds all places before it moves a byte. [`compare`]
//! derives its report from the set of places at which two frames differ. [`slip`] ranks all slips by
//! the agreements of what the two lines have in common at each. Each entry point holds its refusals
//! as a list, of which the first that applies is given. The answers are the C interface's records,
//! so that whole answers can be compared, refused ones included.
//!
//! What a painting uses, [`Video`] says as a list in painting order, by following the cells through
//! its tables without painting them. [`planes`] says it by the bytes that it reads while it paints.
//!
//! The two profiles differ in each by one thing. [`Video`] sees only the block of 16K that video
//! reads, which is a part of the RAM or all of it; [`planes`] folds every address that it reads at;
//! [`Bus`] takes another number of address bits for the number of a RAM byte.

mod bus;
pub mod compare;
pub mod planes;
mod refusal;
pub mod slip;
mod trace;
mod video;

pub use bus::Bus;
pub use video::Video;
