//! A call as data, and its answer by the plain program. Assumes that a job looks only at those parts of a call that are its own.
use crate::number;
use crate::plain::{self, Told};

pub const DETAILS_SIZE: usize = 16;

#[derive(Clone, Copy, PartialEq, Debug)]
pub enum Job {
    Read,
    Allocate,
    CheckAssignment,
    MakeTables,
    CheckTables,
}

impl Job {
    pub const ALL: [Job; 5] = [Job::Read, Job::Allocate, Job::CheckAssignment, Job::MakeTables, Job::CheckTables];

    pub fn name(self) -> &'static str {
        ["read", "allocate", "check_assignment", "make_tables", "check_tables"][self as usize]
    }

    /// Whether some files lead to this number: 1 to 7 a request, 8 an assignment, 9 a table; then what the job itself tells. Where the
    /// details area has not 16 bytes every job gives 17.
    pub fn can_give(self, number: u32) -> bool {
        match self {
            Job::Read => matches!(number, 0..=7),
            Job::Allocate => matches!(number, 0..=7 | 10 | 11 | 17),
            Job::CheckAssignment => matches!(number, 0..=8 | 12),
            Job::MakeTables => matches!(number, 0..=8 | 12 | 17),
            Job::CheckTables => matches!(number, 0..=9 | 12..=16),
        }
    }
}

/// The bytes handed in; `output` and `details` are the areas as they are before the call.
#[derive(Clone)]
pub struct Call<'a> {
    pub job: Job,
    pub request: &'a [u8],
    pub assignment: &'a [u8],
    pub table: &'a [u8],
    pub budget: u32,
    pub output: Vec<u8>,
    pub details: Vec<u8>,
}

/// The number, and both areas as they are after the call.
#[derive(PartialEq)]
pub struct Answer {
    pub number: u32,
    pub output: Vec<u8>,
    pub details: Vec<u8>,
    /// No byte beside the two areas was written.
    pub stayed_inside: bool,
}

impl Answer {
    /// The details as numbers, as many as the area has room for.
    pub fn detail_numbers(&self) -> Vec<u32> {
        let numbers = self.details.chunks_exact(4).map(|bytes| u32::from_le_bytes([bytes[0], bytes[1], bytes[2], bytes[3]]));
        numbers.collect()
    }
}

impl Call<'_> {
    pub fn plain_answer(&self) -> Answer {
        let (output, details) = (self.output.clone(), self.details.clone());
        let mut answer = Answer { number: number::TOO_SHORT, output, details, stayed_inside: true };
        if answer.details.len() == DETAILS_SIZE {
            let told = self.plain_job(&mut answer.output);
            answer.number = told.number;
            answer.details = told.details.iter().flat_map(|detail| detail.to_le_bytes()).collect();
        }
        answer
    }

    fn plain_job(&self, output: &mut [u8]) -> Told {
        match self.job {
            Job::Read => plain::read(self.request),
            Job::Allocate => plain::allocate(self.request, self.budget, output),
            Job::CheckAssignment => plain::check_assignment(self.request, self.assignment),
            Job::MakeTables => plain::make_tables(self.request, self.assignment, output),
            Job::CheckTables => plain::check_tables(self.request, self.assignment, self.table),
        }
    }
}
