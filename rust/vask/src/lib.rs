//! The command `vask`: the five jobs of the proved library on files, answers in words that mend, and the records of a file. Assumes a Unix
//! system for what tells two names of one file apart.
#![forbid(unsafe_code)]

mod arguments;
mod command;
mod files;
mod help;
mod job;
mod json;
mod output;
mod record;
mod report;
mod search;
mod show;
pub mod words;

pub use command::run;
