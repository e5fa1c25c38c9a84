//! The library in a process of its own, spoken to in frames over its standard input and output, as tests/machines/frames.c does. Assumes a
//! program that reads a whole frame before it answers, and that ends with its input.
use crate::call::Job;
use std::ffi::OsString;
use std::fmt::{self, Display, Formatter};
use std::io::{self, Read, Write};
use std::process::{Child, ChildStdin, ChildStdout, Command, Stdio};

pub struct Frames {
    words: Vec<OsString>,
    process: Child,
    /// The way there and the way back, until they are closed.
    pipes: Option<(ChildStdin, ChildStdout)>,
}

impl Frames {
    /// Starts the program with this command line.
    pub fn start(words: Vec<OsString>) -> Result<Frames, String> {
        let (program, rest) = words.split_first().ok_or("there is no program to ask through")?;
        let started = Command::new(program).args(rest).stdin(Stdio::piped()).stdout(Stdio::piped()).spawn();
        let mut process = started.map_err(|error| format!("cannot start {}: {error}", program.to_string_lossy()))?;
        let pipes = process.stdin.take().zip(process.stdout.take());
        Ok(Frames { words, process, pipes })
    }

    /// Starts the same program once more.
    pub fn another(&self) -> Result<Frames, String> {
        Frames::start(self.words.clone())
    }

    /// Hands the three files and both areas over; the areas come back as the call left them.
    pub fn call(&mut self, job: Job, budget: u32, files: [&[u8]; 3], output: &mut [u8], details: &mut [u8]) -> Result<u32, String> {
        let frame = frame(job, budget, files, output, details);
        let exchanged = self.exchange(&frame, output, details);
        exchanged.map_err(|error| format!("{self} does not answer: {error}"))
    }

    fn exchange(&mut self, frame: &[u8], output: &mut [u8], details: &mut [u8]) -> io::Result<u32> {
        let (calls, answers) = self.pipes.as_mut().ok_or(io::ErrorKind::NotConnected)?;
        calls.write_all(frame)?;
        let mut number = [0; 4];
        answers.read_exact(&mut number)?;
        answers.read_exact(output)?;
        answers.read_exact(details)?;
        Ok(u32::from_le_bytes(number))
    }
}

impl Display for Frames {
    /// The command line.
    fn fmt(&self, to: &mut Formatter) -> fmt::Result {
        let words: Vec<_> = self.words.iter().map(|word| word.to_string_lossy()).collect();
        to.write_str(&words.join(" "))
    }
}

impl Drop for Frames {
    /// The program ends with its input.
    fn drop(&mut self) {
        self.pipes = None;
        if let Err(error) = self.process.wait() {
            eprintln!("the end of {self} is unknown: {error}");
        }
    }
}

/// The job, the budget and the five lengths, 4 bytes each and little-endian, then the five areas.
fn frame(job: Job, budget: u32, files: [&[u8]; 3], output: &[u8], details: &[u8]) -> Vec<u8> {
    let areas = [files[0], files[1], files[2], output, details];
    let lengths = areas.iter().map(|area| area.len() as u32);
    let words = [job as u32, budget].into_iter().chain(lengths);
    let mut frame: Vec<u8> = words.flat_map(u32::to_le_bytes).collect();
    areas.iter().for_each(|area| frame.extend(*area));
    frame
}

#[cfg(test)]
mod tests {
    use super::*;

    fn start(word: &str) -> Result<Frames, String> {
        Frames::start(vec![word.into()])
    }

    #[test]
    fn a_frame_has_seven_numbers_and_five_areas() {
        let frame = frame(Job::CheckTables, 0x1234, [&[1, 2], &[3], &[]], &[4, 5, 6], &[7]);
        let numbers = [4, 0, 0, 0, 0x34, 0x12, 0, 0, 2, 0, 0, 0, 1, 0, 0, 0, 0, 0, 0, 0, 3, 0, 0, 0, 1, 0, 0, 0];
        assert_eq!(frame, [&numbers[..], &[1, 2, 3, 4, 5, 6, 7]].concat());
    }

    #[test]
    fn an_answer_is_a_number_and_two_areas() {
        // cat gives the frame back: its first number, and then as many of its bytes as both areas have
        let (mut output, mut details) = ([0; 4], [0; 8]);
        let answer = start("cat").and_then(|mut cat| cat.call(Job::MakeTables, 9, [&[]; 3], &mut output, &mut details));
        assert_eq!((answer, output, details), (Ok(3), [9, 0, 0, 0], [0; 8]));
    }

    #[test]
    fn a_program_that_ends_or_is_not_there_is_told_and_not_waited_for() {
        let answer = start("true").and_then(|mut program| program.call(Job::Read, 0, [&[]; 3], &mut [], &mut []));
        assert!(answer.is_err_and(|reason| reason.starts_with("true does not answer: ")));
        assert!(start("no-program-of-this-name").is_err_and(|reason| reason.starts_with("cannot start no-program-of-this-name: ")));
        assert!(Frames::start(Vec::new()).is_err());
    }
}
