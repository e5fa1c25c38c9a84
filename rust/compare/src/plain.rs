//! The five jobs by plain means: slots are walked where document 01 has laws about them. Assumes nothing of the bytes it is given, and is
//! written from document 01 and not from crates/, so that it shares no code with the proved library that it is compared with.
mod holding;
pub(crate) mod reading;
mod run;
mod search;
mod tables;

use crate::model::{assignment_file, table_file, Assignment, Line, Request, HEAD_SIZE};
use crate::number;
pub use search::{search, Found};

pub use run::Judgement;
pub use tables::needed_lines;

/// A number and its four details.
#[derive(Clone, Copy, PartialEq, Debug)]
pub struct Told {
    pub number: u32,
    pub details: [u32; 4],
}

impl Told {
    /// The details not given are 0.
    fn new(number: u32, given: &[u32]) -> Told {
        let mut details = [0; 4];
        details[..given.len()].copy_from_slice(given);
        Told { number, details }
    }
}

type Answer = Result<Told, Told>;

pub fn read(request: &[u8]) -> Told {
    either(reading::request(request).map(|_| done()))
}

pub fn allocate(request: &[u8], budget: u32, output: &mut [u8]) -> Told {
    either(try_allocate(request, budget, output))
}

pub fn check_assignment(request: &[u8], assignment: &[u8]) -> Told {
    either(read_without_clash(request, assignment).map(|_| done()))
}

pub fn make_tables(request: &[u8], assignment: &[u8], output: &mut [u8]) -> Told {
    either(try_make_tables(request, assignment, output))
}

pub fn check_tables(request: &[u8], assignment: &[u8], table: &[u8]) -> Told {
    either(try_check_tables(request, assignment, table))
}

/// How many circuits a request has; 0 where it does not read.
pub fn circuits(request: &[u8]) -> usize {
    reading::request(request).map_or(0, |request| request.circuits.len())
}

/// How the run of demand 3 goes with this table; nothing where a file does not read or the run is too long to walk.
pub fn judge_run(request: &[u8], assignment: &[u8], table: &[u8]) -> Option<Judgement> {
    let (request, assignment, lines) = read_all(request, assignment, table).ok()?;
    run::judge(&request, &assignment, &lines)
}

fn done() -> Told {
    Told::new(number::DONE, &[])
}

fn either(answer: Answer) -> Told {
    answer.unwrap_or_else(|refusal| refusal)
}

fn try_allocate(request: &[u8], budget: u32, output: &mut [u8]) -> Answer {
    let request = reading::request(request)?;
    let records = request.circuits.iter().map(|circuit| HEAD_SIZE + circuit.demand);
    require_room(output, records.sum::<usize>() + HEAD_SIZE)?;
    match search(&request, budget) {
        Found::Offsets { visits, assignment } => {
            let written = write(output, &assignment_file(&assignment));
            Ok(Told::new(number::DONE, &[visits, written]))
        }
        Found::NoRoom { visits } => Err(Told::new(number::NO_ROOM, &[visits])),
        Found::Unfinished => Err(Told::new(number::UNFINISHED, &[budget])),
    }
}

fn try_make_tables(request: &[u8], assignment: &[u8], output: &mut [u8]) -> Answer {
    let (request, assignment) = read_without_clash(request, assignment)?;
    let table = table_file(&needed_lines(&request, &assignment));
    require_room(output, table.len())?;
    Ok(Told::new(number::DONE, &[write(output, &table)]))
}

fn try_check_tables(request: &[u8], assignment: &[u8], table: &[u8]) -> Answer {
    let (request, assignment, lines) = read_all(request, assignment, table)?;
    refuse_clash(&request, &assignment)?;
    tables::first_fault(&request, &assignment, &lines).map_or(Ok(done()), Err)
}

fn read_both(request: &[u8], assignment: &[u8]) -> Result<(Request, Assignment), Told> {
    let request = reading::request(request)?;
    let assignment = reading::assignment(assignment, &request.circuits)?;
    Ok((request, assignment))
}

fn read_all(request: &[u8], assignment: &[u8], table: &[u8]) -> Result<(Request, Assignment, Vec<Line>), Told> {
    let (request, assignment) = read_both(request, assignment)?;
    let lines = reading::table(table, &request.network)?;
    Ok((request, assignment, lines))
}

fn read_without_clash(request: &[u8], assignment: &[u8]) -> Result<(Request, Assignment), Told> {
    let (request, assignment) = read_both(request, assignment)?;
    refuse_clash(&request, &assignment)?;
    Ok((request, assignment))
}

fn refuse_clash(request: &Request, assignment: &Assignment) -> Result<(), Told> {
    match holding::first_clash(request, assignment) {
        None => Ok(()),
        Some(clash) => Err(Told::new(number::CLASH, &[clash.lower as u32, clash.higher as u32, clash.slot as u32, clash.what])),
    }
}

fn require_room(output: &[u8], needed: usize) -> Result<(), Told> {
    if output.len() >= needed {
        return Ok(());
    }
    Err(Told::new(number::TOO_SHORT, &[needed as u32]))
}

/// Writes the file to the front of the area; gives the bytes written.
fn write(output: &mut [u8], file: &[u8]) -> u32 {
    output[..file.len()].copy_from_slice(file);
    file.len() as u32
}
