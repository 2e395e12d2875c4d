//! The comparison of two frames: reports, refusals, what it touches, what its wrapper gives.

mod pages;
mod refusals;
mod reports;
mod wrappers;
