//! Case files as people read and write them. `docs/NOTATION.md` explains the notation.

pub mod duties;
pub mod formulas;
pub mod notation;
pub mod parser;
pub mod reading;
pub mod records;
pub mod show;
pub mod text;
pub mod tree;
pub mod words;
pub mod write;
