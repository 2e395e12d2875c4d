//! The header against the archive and against Rust: it compiles cleanly as C and as C++, its names,
//! records and constants are those of the Rust side, and C programs that are linked with the archive
//! get the same answers.

mod cc;
mod every_call;
mod example;
mod facts;
mod names;
