//! The cases that document 01 lists under "Tried by hand", each asked of the plain program and of a library. They are tests of the library
//! that is linked in, and the comparison asks them of any other. Assumes the library as library.rs does.
use crate::call::{Call, Job, DETAILS_SIZE};
use crate::library::Library;
use crate::model::*;
use crate::named::{circuit, full_ring, net_p, net_q, network};
use crate::plain::{judge_run, needed_lines, Judgement};
use std::fmt::Debug;

/// What the output areas hold before a call, and their size.
const OLD: u8 = 0xEE;
const ROOM: usize = 200;

/// The request of net P as document 01 has it in hex.
const P_BYTES: [u8; 40] = [
    0x0A, 0x00, 0x01, 0x00, 0x03, 0x00, 0x03, 0x00, 0x00, 0x01, 0x01, 0x02, 0x02, 0x01, 0x08, 0x00, 0x02, 0x00, 0x04, 0x01, 0x02, 0x00,
    0x00, 0x00, 0x01, 0x00, 0x06, 0x00, 0x02, 0x00, 0x06, 0x02, 0x01, 0x00, 0x01, 0x00, 0x00, 0x00, 0x05, 0x00,
];

/// What does not come out as it should, if anything.
type Outcome = Result<(), String>;

/// A number and its details.
type Told = (u32, [u32; 4]);

/// The same, and the output area after the call.
type Written = (u32, [u32; 4], Vec<u8>);

/// Lists the cases below by name, and makes each a test.
macro_rules! cases {
    ($($case:ident)*) => {
        const CASES: &[(&str, fn(&mut Library) -> Outcome)] = &[$((stringify!($case), $case)),*];

        #[cfg(test)]
        mod tests {
            $(#[test]
            fn $case() -> super::Outcome {
                super::$case(&mut super::Library::Linked)
            })*
        }
    };
}

cases! {
    net_p_is_written_as_in_document_01
    net_p_allocates_in_ten_visits
    net_p_is_unfinished_after_nine_visits
    net_p_makes_four_lines
    net_q_allocates_in_eight_visits
    net_q_clashes_at_its_second_shared_buffer
    cycles_three_and_four_have_no_room_on_one_buffer
    net_p_clashes_in_slot_nine
    net_p_clashes_in_slot_zero_and_its_packets_meet_in_slot_twelve
    a_line_repeated_at_the_end_meets_its_series_too
    a_line_removed_leaves_its_series_without_one
    two_lines_of_twice_the_period_serve_in_part
    a_line_may_lead_elsewhere
    one_line_of_half_the_period_serves_two_series
    no_circuits_need_no_visits
    an_empty_file_is_cut_at_byte_zero
    the_cycle_is_at_most_32
    the_path_has_at_most_16_hops
    the_fullest_table_is_accepted
}

/// Asks every case and names those that fail; gives how many passed and how many failed.
pub fn try_all(library: &mut Library) -> (usize, usize) {
    let mut passed = 0;
    for (name, case) in CASES {
        match case(library) {
            Ok(()) => passed += 1,
            Err(reason) => println!("failed: {name}: {reason}"),
        }
    }
    println!("worked cases: {passed} of {} came out right", CASES.len());
    (passed, CASES.len() - passed)
}

fn expect<T: PartialEq + Debug>(found: T, wanted: T) -> Outcome {
    if found == wanted {
        return Ok(());
    }
    Err(format!("{found:?} in place of {wanted:?}"))
}

fn asked(library: &mut Library, job: Job, files: [&[u8]; 3], budget: u32) -> Result<Written, String> {
    let [request, assignment, table] = files;
    let output = vec![OLD; ROOM];
    let call = Call { job, request, assignment, table, budget, output, details: vec![OLD; DETAILS_SIZE] };
    let (plain, proved) = (call.plain_answer(), library.answer(&call)?);
    if plain != proved {
        let numbers = (plain.number, plain.detail_numbers(), proved.number, proved.detail_numbers());
        return Err(format!("the plain program and the library answer otherwise: {numbers:?}"));
    }
    let details = plain.detail_numbers().try_into().map_err(|_| "there are not four details")?;
    Ok((plain.number, details, plain.output))
}

fn told(library: &mut Library, job: Job, files: [&[u8]; 3]) -> Result<Told, String> {
    let (number, details, _) = asked(library, job, files, 0)?;
    Ok((number, details))
}

fn read(library: &mut Library, request: &[u8]) -> Result<Told, String> {
    told(library, Job::Read, [request, &[], &[]])
}

fn allocate(library: &mut Library, request: &Request, budget: u32) -> Result<Written, String> {
    asked(library, Job::Allocate, [&request_file(request), &[], &[]], budget)
}

fn check_assignment(library: &mut Library, request: &Request, offsets: &[&[usize]]) -> Result<Told, String> {
    told(library, Job::CheckAssignment, [&request_file(request), &assigned(offsets), &[]])
}

fn check_lines(library: &mut Library, request: &Request, offsets: &[&[usize]], lines: &[Line]) -> Result<Told, String> {
    told(library, Job::CheckTables, [&request_file(request), &assigned(offsets), &table_file(lines)])
}

fn walked(offsets: &[&[usize]], lines: &[Line]) -> Result<Judgement, String> {
    judge_run(&P_BYTES, &assigned(offsets), &table_file(lines)).ok_or("the run of net P is not walked".to_string())
}

fn assigned(offsets: &[&[usize]]) -> Vec<u8> {
    assignment_file(&listed(offsets))
}

fn listed(offsets: &[&[usize]]) -> Assignment {
    offsets.iter().map(|of_circuit| of_circuit.to_vec()).collect()
}

fn own_lines(request: &Request, offsets: &[&[usize]]) -> Vec<Line> {
    needed_lines(request, &listed(offsets))
}

/// The area after the file was written to its front.
fn area_with(file: &[u8]) -> Vec<u8> {
    let mut area = vec![OLD; ROOM];
    area[..file.len()].copy_from_slice(file);
    area
}

const P_OFFSETS: [&[usize]; 2] = [&[0], &[0, 2]];
const Q_OFFSETS: [&[usize]; 2] = [&[0], &[1]];

/// One circuit over a row of buffers.
fn single(cycle: usize, hops: usize) -> Request {
    let links: Vec<(usize, usize)> = (0..hops).map(|hop| (hop, hop + 1)).collect();
    let path: Vec<usize> = (0..hops).collect();
    Request { network: network(hops + 1, &links), circuits: vec![circuit(cycle, 1, &path)] }
}

fn net_p_is_written_as_in_document_01(library: &mut Library) -> Outcome {
    expect(&request_file(&net_p())[..], &P_BYTES)?;
    expect(read(library, &P_BYTES)?, (0, [0; 4]))
}

fn net_p_allocates_in_ten_visits(library: &mut Library) -> Outcome {
    let file = assigned(&P_OFFSETS);
    expect(allocate(library, &net_p(), 10)?, (0, [10, file.len() as u32, 0, 0], area_with(&file)))
}

fn net_p_is_unfinished_after_nine_visits(library: &mut Library) -> Outcome {
    expect(allocate(library, &net_p(), 9)?, (11, [9, 0, 0, 0], area_with(&[])))
}

fn net_p_makes_four_lines(library: &mut Library) -> Outcome {
    let line = |router, period, slot, inport, out| Line { router, period, slot, inport, out };
    let lines = [
        line(0, 4, 0, Inport::Local, 0),
        line(1, 4, 1, Inport::Buffer(0), 1),
        line(1, 6, 0, Inport::Local, 1),
        line(1, 6, 2, Inport::Local, 1),
    ];
    let file = table_file(&lines);
    let made = asked(library, Job::MakeTables, [&P_BYTES, &assigned(&P_OFFSETS), &[]], 0)?;
    expect(made, (0, [file.len() as u32, 0, 0, 0], area_with(&file)))?;
    expect(check_lines(library, &net_p(), &P_OFFSETS, &lines)?, (0, [0; 4]))
}

fn net_q_allocates_in_eight_visits(library: &mut Library) -> Outcome {
    let file = assigned(&Q_OFFSETS);
    expect(allocate(library, &net_q(), 8)?, (0, [8, file.len() as u32, 0, 0], area_with(&file)))
}

fn net_q_clashes_at_its_second_shared_buffer(library: &mut Library) -> Outcome {
    expect(check_assignment(library, &net_q(), &[&[0], &[2]])?, (12, [0, 1, 1, 3]))
}

fn cycles_three_and_four_have_no_room_on_one_buffer(library: &mut Library) -> Outcome {
    let request = Request { network: network(2, &[(0, 1)]), circuits: vec![circuit(3, 1, &[0]), circuit(4, 1, &[0])] };
    expect(allocate(library, &request, 17)?, (10, [17, 0, 0, 0], area_with(&[])))?;
    expect(allocate(library, &request, 16)?, (11, [16, 0, 0, 0], area_with(&[])))
}

fn net_p_clashes_in_slot_nine(library: &mut Library) -> Outcome {
    expect(check_assignment(library, &net_p(), &[&[0], &[3, 4]])?, (12, [0, 1, 9, 1]))
}

fn net_p_clashes_in_slot_zero_and_its_packets_meet_in_slot_twelve(library: &mut Library) -> Outcome {
    let offsets: [&[usize]; 2] = [&[3], &[0, 1]];
    expect(check_assignment(library, &net_p(), &offsets)?, (12, [0, 1, 0, 1]))?;
    expect(walked(&offsets, &own_lines(&net_p(), &offsets))?.bad_slot, Some(12))
}

fn a_line_repeated_at_the_end_meets_its_series_too(library: &mut Library) -> Outcome {
    let mut lines = own_lines(&net_p(), &P_OFFSETS);
    lines.push(lines[1]);
    expect(check_lines(library, &net_p(), &P_OFFSETS, &lines)?, (15, [0, 0, 1, 4]))
}

fn a_line_removed_leaves_its_series_without_one(library: &mut Library) -> Outcome {
    let mut lines = own_lines(&net_p(), &P_OFFSETS);
    lines.remove(1);
    expect(check_lines(library, &net_p(), &P_OFFSETS, &lines)?, (13, [0, 0, 1, 65535]))
}

fn two_lines_of_twice_the_period_serve_in_part(library: &mut Library) -> Outcome {
    let mut lines = own_lines(&net_p(), &P_OFFSETS);
    let half = |slot| Line { period: 8, slot, ..lines[1] };
    lines.splice(1..=1, [half(1), half(5)]);
    expect(check_lines(library, &net_p(), &P_OFFSETS, &lines)?, (14, [0, 0, 1, 1]))?;
    let run = walked(&P_OFFSETS, &lines)?;
    expect((run.run_is_good(), run.lines_serve_whole), (true, false))
}

fn a_line_may_lead_elsewhere(library: &mut Library) -> Outcome {
    let mut lines = own_lines(&net_q(), &Q_OFFSETS);
    lines[1].out = 1;
    expect(check_lines(library, &net_q(), &Q_OFFSETS, &lines)?, (16, [0, 0, 1, 1]))
}

fn one_line_of_half_the_period_serves_two_series(library: &mut Library) -> Outcome {
    let request = Request { network: network(2, &[(0, 1)]), circuits: vec![circuit(4, 2, &[0])] };
    let line = Line { router: 0, period: 2, slot: 0, inport: Inport::Local, out: 0 };
    expect(check_lines(library, &request, &[&[0, 2]], &[line])?, (0, [0; 4]))
}

fn no_circuits_need_no_visits(library: &mut Library) -> Outcome {
    let request = Request { network: network(1, &[]), circuits: Vec::new() };
    expect(allocate(library, &request, 0)?, (0, [0, 4, 0, 0], area_with(&[0, 0, 5, 0])))
}

fn an_empty_file_is_cut_at_byte_zero(library: &mut Library) -> Outcome {
    expect(read(library, &[])?, (1, [1, 0, 0, 0]))
}

fn the_cycle_is_at_most_32(library: &mut Library) -> Outcome {
    expect(read(library, &request_file(&single(32, 1)))?, (0, [0; 4]))?;
    expect(read(library, &request_file(&single(33, 1)))?, (4, [1, 10, 0, 0]))
}

/// The length of the circuit's record stands behind 42 bytes of network.
fn the_path_has_at_most_16_hops(library: &mut Library) -> Outcome {
    expect(read(library, &request_file(&single(1, 16)))?, (0, [0; 4]))?;
    let too_long = request_file(&single(1, 17));
    expect(too_long[42], 38)?;
    expect(read(library, &too_long)?, (3, [1, 42, 0, 0]))
}

fn the_fullest_table_is_accepted(library: &mut Library) -> Outcome {
    let request = full_ring();
    let every_offset: Vec<usize> = (0..CYCLE_MOST).collect();
    let offsets = vec![&every_offset[..]; request.circuits.len()];
    let lines = own_lines(&request, &offsets);
    expect(lines.len(), LINES_MOST)?;
    expect(check_lines(library, &request, &offsets, &lines)?, (0, [0; 4]))
}
