//! The command itself; all of it is in the library of this crate.
#![forbid(unsafe_code)]
use std::process::ExitCode;

fn main() -> ExitCode {
    vask::run(std::env::args_os().skip(1))
}
