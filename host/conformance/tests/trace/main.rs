//! A trace: answers, refusals, what the call touches, what its wrapper gives.

mod answers;
mod frames;
mod pages;
mod refusals;
mod wrappers;
