//! The five jobs on files: read them, ask the library, write what it made, report. Assumes nothing of the files.
use crate::arguments::Job;
use crate::files::{self, is_standard, Input};
use crate::output::Output;
use crate::report::Report;
use crate::search::search;
use crate::words::Files;
use std::ffi::OsStr;
use vaskunoor::sizes::{HEAD_SIZE, LINE_SIZE};
use vaskunoor::{check_assignment, check_tables, make_tables, read_request, Refusal};

/// A report, and whether standard output has a file's bytes, so that the report goes to standard error.
pub struct Reported {
    pub report: Report,
    pub beside_output: bool,
}

impl From<Report> for Reported {
    fn from(report: Report) -> Reported {
        Reported { report, beside_output: false }
    }
}

/// Does a job; an error is wrong usage or a file that cannot be read or written.
pub fn act(job: &Job) -> Result<Reported, String> {
    match job {
        Job::Read { request } => {
            let [request] = inputs([request])?;
            let asked = read_request(&request.bytes);
            Ok(checked("read", asked, Files { request: &request.bytes, ..Files::default() }))
        }
        Job::Allocate { request, assignment, budget } => allocate(request, assignment, *budget),
        Job::Check { request, assignment } => {
            let [request, assignment] = inputs([request, assignment])?;
            let asked = check_assignment(&request.bytes, &assignment.bytes);
            Ok(checked("check", asked, Files { request: &request.bytes, assignment: &assignment.bytes, table: &[] }))
        }
        Job::Make { request, assignment, table } => make(request, assignment, table),
        Job::Verify { request, assignment, table } => {
            let [request, assignment, table] = inputs([request, assignment, table])?;
            let asked = check_tables(&request.bytes, &assignment.bytes, &table.bytes);
            Ok(checked("verify", asked, Files { request: &request.bytes, assignment: &assignment.bytes, table: &table.bytes }))
        }
    }
}

/// Reads the files, of which only one can be standard input.
fn inputs<const N: usize, Name: AsRef<OsStr>>(names: [Name; N]) -> Result<[Input; N], String> {
    if names.iter().filter(|name| is_standard(name.as_ref())).count() > 1 {
        return Err("only one file can be standard input".to_string());
    }
    let mut read = Vec::new();
    for name in &names {
        read.push(files::read(name.as_ref())?);
    }
    read.try_into().map_err(|_| "not every file was read".to_string())
}

fn checked(job: &'static str, asked: Result<(), Refusal>, files: Files) -> Reported {
    match asked {
        Ok(()) => Report::done(job, &[], &[]).into(),
        Err(refusal) => Report::refused(job, &refusal, files).into(),
    }
}

fn allocate(request: &OsStr, assignment: &OsStr, budget: u32) -> Result<Reported, String> {
    let [request] = inputs([request])?;
    let output = Output::prepare(assignment, &[&request])?;
    match search(&request.bytes, budget) {
        Err(refusal) => Ok(refused("allocate", &refusal, Files { request: &request.bytes, ..Files::default() }, &output)),
        Ok(given) => {
            output.put(&given.assignment)?;
            let bytes = given.assignment.len() as u32;
            let report = Report::done("allocate", &[given.visits, bytes], &[("visits", given.visits), ("bytes", bytes)]);
            Ok(Reported { report, beside_output: output.is_standard() })
        }
    }
}

fn make(request: &OsStr, assignment: &OsStr, table: &OsStr) -> Result<Reported, String> {
    let [request, assignment] = inputs([request, assignment])?;
    let output = Output::prepare(table, &[&request, &assignment])?;
    match make_tables(&request.bytes, &assignment.bytes) {
        Err(refusal) => {
            let files = Files { request: &request.bytes, assignment: &assignment.bytes, table: &[] };
            Ok(refused("make", &refusal, files, &output))
        }
        Ok(made) => {
            output.put(&made)?;
            let (bytes, lines) = (made.len() as u32, (made.len() / (HEAD_SIZE + LINE_SIZE)) as u32);
            let report = Report::done("make", &[bytes], &[("bytes", bytes), ("lines", lines)]);
            Ok(Reported { report, beside_output: output.is_standard() })
        }
    }
}

fn refused(job: &'static str, refusal: &Refusal, files: Files, output: &Output) -> Reported {
    Reported { report: Report::refused(job, refusal, files), beside_output: output.is_standard() }
}
