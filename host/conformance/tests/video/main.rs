//! The video half: pictures, maps, refusals, what its calls touch, what its wrappers give.

mod maps;
mod marks;
mod pages;
mod painting;
mod refusals;
mod wrappers;
