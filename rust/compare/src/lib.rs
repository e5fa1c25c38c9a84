//! The independent program: the five jobs by plain means (`plain`) on files as plain data (`model`), what draws random files (`draw`), and
//! the comparison of the proved library with it (`comparison`). Assumes the crate vaskunoor in library.rs alone: all else is written apart
//! from it, with its own sizes and its own numbers.
pub mod call;
mod check;
pub mod comparison;
mod damage;
pub mod draw;
mod frames;
pub mod library;
#[cfg(test)]
mod long;
pub mod model;
mod named;
pub mod number;
mod pairs;
pub mod plain;
pub mod random;
mod reach;
mod records;
mod show;
mod shrink;
mod tally;
mod tried;
#[cfg(test)]
mod typed;
