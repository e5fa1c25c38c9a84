//! The proved library, asked one call at a time: the archive that is linked in, or another one in a process of its own. Assumes the calls of
//! the crate vaskunoor, or a program as frames.rs does.
use crate::call::{Answer, Call, Job};
use crate::frames::Frames;
use std::ffi::OsString;
use std::fmt::{self, Display, Formatter};
use vaskunoor::raw;

pub enum Library {
    Linked,
    Through(Frames),
}

impl Library {
    /// The library of a program that speaks frames, by its command line.
    pub fn through(words: Vec<OsString>) -> Result<Library, String> {
        Frames::start(words).map(Library::Through)
    }

    /// The same library once more, for another thread.
    pub fn another(&self) -> Result<Library, String> {
        match self {
            Library::Linked => Ok(Library::Linked),
            Library::Through(frames) => frames.another().map(Library::Through),
        }
    }

    /// The words that make the comparison ask this library.
    pub fn words(&self) -> String {
        match self {
            Library::Linked => String::new(),
            Library::Through(frames) => format!(" --through {frames}"),
        }
    }

    /// What the library answers; an error where it gives no answer at all.
    pub fn answer(&mut self, call: &Call) -> Result<Answer, String> {
        let (mut output, mut details) = (Fenced::new(&call.output), Fenced::new(&call.details));
        let number = match self {
            Library::Linked => linked(call, output.area(), details.area()),
            Library::Through(frames) => through(frames, call, output.area(), details.area())?,
        };
        let stayed_inside = output.is_whole() && details.is_whole();
        Ok(Answer { number, output: output.area().to_vec(), details: details.area().to_vec(), stayed_inside })
    }
}

impl Display for Library {
    fn fmt(&self, to: &mut Formatter) -> fmt::Result {
        match self {
            Library::Linked => to.write_str("linked in"),
            Library::Through(frames) => write!(to, "through {frames}"),
        }
    }
}

fn linked(call: &Call, output: &mut [u8], details: &mut [u8]) -> u32 {
    match call.job {
        Job::Read => raw::read(call.request, details),
        Job::Allocate => raw::allocate(call.request, call.budget, output, details),
        Job::CheckAssignment => raw::check_assignment(call.request, call.assignment, details),
        Job::MakeTables => raw::make_tables(call.request, call.assignment, output, details),
        Job::CheckTables => raw::check_tables(call.request, call.assignment, call.table, details),
    }
}

/// Hands over those parts of the call that are the job's own.
fn through(frames: &mut Frames, call: &Call, output: &mut [u8], details: &mut [u8]) -> Result<u32, String> {
    let (request, assignment, table) = (call.request, call.assignment, call.table);
    match call.job {
        Job::Read => frames.call(call.job, 0, [request, &[], &[]], &mut [], details),
        Job::Allocate => frames.call(call.job, call.budget, [request, &[], &[]], output, details),
        Job::CheckAssignment => frames.call(call.job, 0, [request, assignment, &[]], &mut [], details),
        Job::MakeTables => frames.call(call.job, 0, [request, assignment, &[]], output, details),
        Job::CheckTables => frames.call(call.job, 0, [request, assignment, table], &mut [], details),
    }
}

/// An area with bytes before and behind it that must keep their values.
struct Fenced(Vec<u8>);

const FENCE: [u8; 16] = [0xA5; 16];

impl Fenced {
    fn new(area: &[u8]) -> Fenced {
        Fenced([&FENCE, area, &FENCE].concat())
    }

    fn area(&mut self) -> &mut [u8] {
        let end = self.0.len() - FENCE.len();
        &mut self.0[FENCE.len()..end]
    }

    fn is_whole(&self) -> bool {
        self.0.starts_with(&FENCE) && self.0.ends_with(&FENCE)
    }
}
