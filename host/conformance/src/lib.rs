//! What holds the proved library to the rules: models that share no code with it, generated inputs,
//! and the help that the tests and the benchmark have in common.
//!
//! A subject of the C interface has its raw calls in [`calls`] and its model in [`model`]; its tests
//! are a target of `tests/`, its measurements a module of the binary `bench`.

pub mod accesses;
pub mod buffers;
pub mod calls;
pub mod comparisons;
pub mod figures;
pub mod files;
pub mod guarded;
pub mod images;
pub mod inputs;
pub mod maps;
pub mod model;
pub mod random;
pub mod refusals;
pub mod slips;
pub mod traces;
