//! A separate, plain checker of case files, written from documents 01 and 02 alone, and what tests
//! it.

#![deny(unsafe_code)]

pub mod builder;
pub mod cases;
pub mod checker;
pub mod columns;
pub mod damages;
pub mod desk;
pub mod duties;
pub mod examples;
pub mod full_size;
pub mod hidden;
pub mod indexes;
pub mod interned;
pub mod justifications;
pub mod loads;
pub mod misfits;
pub mod mutator;
pub mod night_inputs;
pub mod nights;
pub mod old_layout;
pub mod output;
pub mod pack;
pub mod papers;
#[cfg(feature = "proved")]
#[allow(unsafe_code)]
pub mod proved;
pub mod random;
pub mod refinements;
pub mod rooms;
pub mod rounds;
pub mod strays;
pub mod streams;
pub mod tallies;
pub mod timing;
pub mod vectors;
pub mod wrong_indexes;
pub mod wrong_lists;
