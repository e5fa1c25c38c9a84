//! The command from its words to its exit status: 0 done, 1 refused, 2 wrong usage or a file that cannot be read or written. Assumes
//! standard output and standard error.
use crate::arguments::{parse, Action, Job, Parsed};
use crate::report::failure_json;
use crate::{files, help, job, show};
use std::ffi::{OsStr, OsString};
use std::io::{self, BufWriter, Write};
use std::process::ExitCode;
use std::thread;

const DONE: u8 = 0;
const REFUSED: u8 = 1;
const FAILED: u8 = 2;

/// Enough for the deepest search, whatever the shell allows the main thread.
const STACK: usize = 4 << 20;

/// Runs the command with these words, which are those behind its name.
pub fn run(words: impl Iterator<Item = OsString>) -> ExitCode {
    let words: Vec<OsString> = words.collect();
    let worker = thread::Builder::new().stack_size(STACK).spawn(move || status(words));
    let status = match worker.map(thread::JoinHandle::join) {
        Ok(Ok(status)) => status,
        Ok(Err(_)) => FAILED,
        Err(error) => fail(false, &format!("no thread could be started: {error}")),
    };
    ExitCode::from(status)
}

fn status(words: Vec<OsString>) -> u8 {
    let Parsed { json, action } = parse(words.into_iter());
    let action = match action {
        Ok(action) => action,
        Err(message) => return fail(json, &message),
    };
    let said = match &action {
        Action::Help(text) => say(text),
        Action::Version => say(help::VERSION),
        Action::Show(name) => return show_file(json, name),
        Action::Do(job) => return do_job(json, job),
    };
    said.map_or_else(|message| fail(json, &message), |()| DONE)
}

fn do_job(json: bool, job: &Job) -> u8 {
    let reported = match job::act(job) {
        Ok(reported) => reported,
        Err(message) => return fail(json, &message),
    };
    let text = if json { reported.report.json() } else { reported.report.text() };
    let said = if reported.beside_output { say_beside(&text) } else { say(&text) };
    match said {
        Err(message) => fail(false, &message),
        Ok(()) if reported.report.is_refused() => REFUSED,
        Ok(()) => DONE,
    }
}

fn show_file(json: bool, name: &OsStr) -> u8 {
    let file = match files::read(name) {
        Ok(file) => file,
        Err(message) => return fail(json, &message),
    };
    let mut out = BufWriter::new(io::stdout().lock());
    let shown = if json { show::json(&file.bytes, file.is_front, &mut out) } else { show::text(&file.bytes, &mut out) };
    if let Err(message) = said(shown.and_then(|()| out.flush())) {
        return fail(false, &message);
    }
    if file.is_front {
        return fail(false, &format!("{}: only its first {} bytes are shown", name.to_string_lossy(), file.bytes.len()));
    }
    DONE
}

fn say(text: &str) -> Result<(), String> {
    let mut out = io::stdout().lock();
    said(out.write_all(text.as_bytes()).and_then(|()| out.flush()))
}

/// What became of writing to standard output. A reader that goes away early, as `head` does, has what it wants.
fn said(written: io::Result<()>) -> Result<(), String> {
    match written {
        Err(error) if error.kind() == io::ErrorKind::BrokenPipe => Ok(()),
        written => written.map_err(|error| files::failed("standard output", &error)),
    }
}

fn say_beside(text: &str) -> Result<(), String> {
    io::stderr().write_all(text.as_bytes()).map_err(|error| files::failed("standard error", &error))
}

/// Says why nothing was done, on standard error, and for other tools on standard output too.
fn fail(json: bool, message: &str) -> u8 {
    let name = if message.starts_with("usage:") { "" } else { "vask: " };
    let _ = say_beside(&format!("{name}{}\n", message.trim_end()));
    if json {
        let _ = say(&failure_json(message));
    }
    FAILED
}
