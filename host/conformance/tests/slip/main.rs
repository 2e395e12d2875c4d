//! The slip of a grabbed line: answers, refusals, what the search touches, what its wrapper gives.

mod answers;
mod pages;
mod refusals;
mod wrappers;
