//! Draws the calls on a set of files: areas of many sizes, and budgets around the visits that a search needs. Assumes nothing of the files.
use super::FileSet;
use crate::call::{Call, Job, DETAILS_SIZE};
use crate::number;
use crate::plain;
use crate::random::Random;

/// The visits for a few searches that are followed far.
const VISITS_MOST_FAR: u32 = 100_000;

/// A call, and what is known of it before it is answered.
pub struct Asked<'a> {
    pub call: Call<'a>,
    /// The bytes that its output takes up, if it has one and gets so far.
    pub needed: Option<usize>,
    /// The circuits of its request; 0 where that does not read.
    pub circuits: usize,
}

/// The calls on one set of files.
pub fn draw_calls<'a>(random: &mut Random, files: &'a FileSet) -> Vec<Asked<'a>> {
    let circuits = plain::circuits(&files.request);
    let mut calls = Vec::new();
    for job in [Job::Read, Job::CheckAssignment, Job::CheckTables] {
        let details = draw_details(random);
        calls.push(Asked { call: Call { details, ..bare(job, files) }, needed: None, circuits });
    }
    let needed = needed_bytes(plain::make_tables(&files.request, &files.assignment, &mut []));
    let (output, details) = (draw_output(random, needed), draw_details(random));
    calls.push(Asked { call: Call { output, details, ..bare(Job::MakeTables, files) }, needed, circuits });
    let needed = needed_bytes(plain::allocate(&files.request, 0, &mut []));
    for budget in draw_budgets(random, files, needed) {
        let (output, details) = (draw_output(random, needed), draw_details(random));
        calls.push(Asked { call: Call { budget, output, details, ..bare(Job::Allocate, files) }, needed, circuits });
    }
    calls
}

/// The two checks.
pub fn checks(files: &FileSet) -> [Asked<'_>; 2] {
    let circuits = plain::circuits(&files.request);
    let call = |job| Call { details: vec![0; DETAILS_SIZE], ..bare(job, files) };
    [Job::CheckAssignment, Job::CheckTables].map(|job| Asked { call: call(job), needed: None, circuits })
}

/// A call without a budget and without areas.
fn bare(job: Job, files: &FileSet) -> Call<'_> {
    let FileSet { request, assignment, table, .. } = files;
    Call { job, request, assignment, table, budget: 0, output: Vec::new(), details: Vec::new() }
}

/// The bytes that an answer given for an empty area asks for.
fn needed_bytes(told: plain::Told) -> Option<usize> {
    (told.number == number::TOO_SHORT).then_some(told.details[0] as usize)
}

/// Mostly 16 bytes, as it should be.
fn draw_details(random: &mut Random) -> Vec<u8> {
    let size = if random.once_in(24) { random.pick(&[0, 1, 15, 17, 32]) } else { DETAILS_SIZE };
    random.bytes(size)
}

/// An output area with room, just room, a byte too few, or none.
fn draw_output(random: &mut Random, needed: Option<usize>) -> Vec<u8> {
    let needed = needed.unwrap_or(random.below(64));
    let size = match random.below(20) {
        0 => 0,
        1 => needed.saturating_sub(1),
        2 => random.below(needed + 1),
        3..=11 => needed,
        _ => needed + random.between((1, 40)),
    };
    random.bytes(size)
}

/// Budgets at, below and above the visits that the search needs; where it needs too many, budgets that it exceeds.
fn draw_budgets(random: &mut Random, files: &FileSet, needed: Option<usize>) -> Vec<u32> {
    let most = if random.once_in(400) { VISITS_MOST_FAR } else { files.visits_most };
    let told = plain::allocate(&files.request, most, &mut vec![0; needed.unwrap_or(0)]);
    let any = u32::from_le_bytes([random.byte(), random.byte(), random.byte(), random.byte()]);
    match told.number {
        number::DONE | number::NO_ROOM => {
            let visits = told.details[0];
            let other = [0, random.below(visits as usize + 1) as u32, visits + 1, any.max(visits), u32::MAX];
            vec![visits.saturating_sub(1), visits, random.pick(&other)]
        }
        number::UNFINISHED => vec![most, random.below(most as usize) as u32],
        _ => vec![any],
    }
}
