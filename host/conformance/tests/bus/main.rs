//! The bus half: targets, latches and stores, refusals, what its calls touch, what its wrappers give.

mod accesses;
mod pages;
mod refusals;
mod wrappers;
