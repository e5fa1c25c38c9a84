//! A host tool in its smallest form: `cargo run --release --example verify -- REQUEST ASSIGNMENT TABLE` checks a table by the proved library
//! and tells the answer by its exit status too. Assumes the archive as the library does.
use std::error::Error;
use std::process::ExitCode;
use std::{env, fs};

fn main() -> Result<ExitCode, Box<dyn Error>> {
    let names: Vec<String> = env::args().skip(1).collect();
    let [request, assignment, table] = &names[..] else {
        return Err("usage: verify REQUEST ASSIGNMENT TABLE".into());
    };
    match vaskunoor::check_tables(fs::read(request)?, fs::read(assignment)?, fs::read(table)?) {
        Ok(()) => {
            println!("the table is right");
            Ok(ExitCode::SUCCESS)
        }
        Err(refusal) => {
            println!("refused with {}: {refusal}", refusal.number());
            Ok(ExitCode::FAILURE)
        }
    }
}
