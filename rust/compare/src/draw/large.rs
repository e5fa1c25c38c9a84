//! Draws plans of full size that mostly have room, and puts faults late in their offsets and tables. Assumes that their common cycles are
//! short enough that the run of demand 3 is walked.
use super::lines::{lead_elsewhere, split};
use super::{draw_offsets, drawn_from, files, FileSet, Shape};
use crate::model::*;
use crate::plain::{needed_lines, search, Found};
use crate::random::Random;

/// Where none are lost for want of room.
const CIRCUITS_LEAST: usize = 20;
const VISITS_MOST: u32 = 20_000;

/// Long paths: any two cycles have 16 slots to part in.
const DOUBLED: Shape = Shape {
    routers: (56, ROUTERS_MOST),
    buffers: (110, BUFFERS_MOST),
    circuits: (CIRCUITS_MOST, CIRCUITS_MOST),
    cycles: &[16, 32],
    hops: (2, HOPS_MOST),
};
/// Shorter ones: some two cycles have only 6.
const BY_SIX: Shape = Shape { cycles: &[6, 12, 24, 30], hops: (1, 8), ..DOUBLED };

/// One plan in eight has no fault, one a circuit with other offsets, one a circuit twice, and the others a fault in the table.
pub fn file_set(random: &mut Random) -> FileSet {
    let (mut request, mut assignment) = draw_plan(random);
    let fault = random.below(8);
    match fault {
        1 => move_late(random, &request, &mut assignment),
        2 => double_late(random, &mut request, &mut assignment),
        _ => {}
    }
    let mut lines = needed_lines(&request, &assignment);
    if fault > 2 {
        alter_late(random, &mut lines, &request.network);
    }
    let damaged = random.once_in(8);
    let [request, assignment, table] = files(random, (&request, &assignment, &lines), damaged);
    FileSet { request, assignment, table, damaged, visits_most: VISITS_MOST }
}

/// The offsets are those that the search finds, or any where it finds none, which is not often: most requests lose circuits until it does.
fn draw_plan(random: &mut Random) -> (Request, Assignment) {
    let mut request = draw_request(random);
    let is_thinned = !random.once_in(6);
    loop {
        if let Found::Offsets { assignment, .. } = search(&request, VISITS_MOST) {
            return (request, assignment);
        }
        if !is_thinned {
            let assignment = request.circuits.iter().map(|circuit| draw_offsets(random, circuit)).collect();
            return (request, assignment);
        }
        request.circuits.truncate(request.circuits.len() * 7 / 8);
    }
}

/// Half of the time all circuits there can be.
fn draw_request(random: &mut Random) -> Request {
    let shape = random.pick(&[&DOUBLED, &BY_SIX]);
    let mut request = drawn_from(random, shape);
    for circuit in &mut request.circuits {
        circuit.demand = random.between((1, circuit.cycle.div_ceil(16)));
    }
    if random.once_in(2) {
        request.circuits.truncate(random.between((CIRCUITS_LEAST, CIRCUITS_MOST)));
    }
    request
}

/// Gives one late circuit any offsets.
fn move_late(random: &mut Random, request: &Request, assignment: &mut Assignment) {
    let moved = late(random, assignment.len());
    assignment[moved] = draw_offsets(random, &request.circuits[moved]);
}

/// Puts a late circuit in place of the next one too, with its offsets.
fn double_late(random: &mut Random, request: &mut Request, assignment: &mut Assignment) {
    let doubled = late(random, assignment.len());
    let next = (doubled + 1) % assignment.len();
    request.circuits[next] = request.circuits[doubled].clone();
    assignment[next] = assignment[doubled].clone();
}

/// One of the last quarter, counted from 0.
fn late(random: &mut Random, count: usize) -> usize {
    random.between((count * 3 / 4, count - 1))
}

/// Leaves out or doubles a late line, changes its slot or its period, splits it, or leads one elsewhere.
fn alter_late(random: &mut Random, lines: &mut Vec<Line>, network: &Network) {
    let at = late(random, lines.len());
    let line = lines[at];
    match random.below(7) {
        0 => drop(lines.remove(at)),
        1 => lines.insert(random.between((at, lines.len())), line),
        2 => lines[at].slot = random.below(line.period),
        3..=4 => lines[at].period = random.between((line.slot + 1, CYCLE_MOST)),
        5 => split(random, lines, at),
        _ => lead_elsewhere(random, &mut lines[at..], network),
    }
}

#[cfg(test)]
mod tests {
    use super::*;
    use crate::number;
    use crate::plain::check_assignment;

    /// So many plans without a clash.
    fn plans(count: usize) -> Vec<(Request, Assignment)> {
        let plans = (0..).map(|index| draw_plan(&mut Random::new(1, index)));
        plans.filter(|(request, assignment)| first_clash(request, assignment).is_none()).take(count).collect()
    }

    /// The lower and the higher circuit.
    fn first_clash(request: &Request, assignment: &Assignment) -> Option<(usize, usize)> {
        let told = check_assignment(&request_file(request), &assignment_file(assignment));
        (told.number == number::CLASH).then_some((told.details[0] as usize, told.details[1] as usize))
    }

    fn front<T>(of: &[T]) -> &[T] {
        &of[..of.len() * 3 / 4]
    }

    #[test]
    fn most_plans_have_20_circuits_and_many_have_32() {
        let sizes: Vec<usize> = plans(40).iter().map(|(request, _)| request.circuits.len()).collect();
        assert!(sizes.iter().filter(|&&size| size >= CIRCUITS_LEAST).count() > 30);
        assert!(sizes.iter().filter(|&&size| size == CIRCUITS_MOST).count() > 10);
    }

    #[test]
    fn a_fault_in_the_table_leaves_its_front() {
        for (index, (request, assignment)) in plans(40).iter().enumerate() {
            let lines = needed_lines(request, assignment);
            let mut altered = lines.clone();
            alter_late(&mut Random::new(2, index as u64), &mut altered, &request.network);
            assert!(altered.starts_with(front(&lines)), "plan {index}");
        }
    }

    #[test]
    fn a_moved_circuit_leaves_those_in_front() {
        for (index, (request, assignment)) in plans(40).iter().enumerate() {
            let mut moved = assignment.clone();
            move_late(&mut Random::new(2, index as u64), request, &mut moved);
            assert!(moved.starts_with(front(assignment)), "plan {index}");
        }
    }

    #[test]
    fn a_doubled_circuit_clashes_with_its_double_first() {
        for (index, (mut request, mut assignment)) in plans(40).into_iter().enumerate() {
            double_late(&mut Random::new(2, index as u64), &mut request, &mut assignment);
            let (lower, higher) = first_clash(&request, &assignment).expect("the two hold the same");
            let last = assignment.len() - 1;
            assert!(higher == lower + 1 && lower >= assignment.len() * 3 / 4 || (lower, higher) == (0, last), "plan {index}");
        }
    }
}
