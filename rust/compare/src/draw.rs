//! Draws requests, assignments and tables of many shapes, and damages some of them. Assumes that what is drawn may be refused by any rule,
//! and that it is damage alone that makes a file unreadable.
pub mod calls;
mod large;
mod lines;

use crate::damage::damage;
use crate::model::*;
use crate::named::{circuit, full_ring, net_p, net_q, network};
use crate::plain::{search, Found};
use crate::random::Random;

pub struct FileSet {
    pub request: Vec<u8>,
    pub assignment: Vec<u8>,
    pub table: Vec<u8>,
    pub damaged: bool,
    /// The visits after which a search for its slots is not followed any further.
    pub visits_most: u32,
}

/// From least to most, both included.
type Bounds = (usize, usize);

struct Shape {
    routers: Bounds,
    buffers: Bounds,
    circuits: Bounds,
    cycles: &'static [usize],
    hops: Bounds,
}

const EVERY_CYCLE: [usize; CYCLE_MOST] = {
    let mut cycles = [0; CYCLE_MOST];
    let mut at = 0;
    while at < CYCLE_MOST {
        cycles[at] = at + 1;
        at += 1;
    }
    cycles
};

const NO_CIRCUITS: Shape =
    Shape { routers: (1, ROUTERS_MOST), buffers: (0, BUFFERS_MOST), circuits: (0, 0), cycles: &EVERY_CYCLE, hops: (1, 1) };
const TINY: Shape = Shape { routers: (2, 4), buffers: (1, 6), circuits: (1, 3), cycles: &[1, 2, 3, 4, 5, 6], hops: (1, 4) };
/// So many on so few buffers that there is often no room.
const CROWDED: Shape = Shape { routers: (2, 3), buffers: (1, 3), circuits: (2, 5), cycles: &[2, 3, 4, 5, 6], hops: (1, 3) };
/// Common cycles of two up to 992 slots.
const LONG_CYCLES: Shape = Shape { routers: (2, 6), buffers: (1, 8), circuits: (2, 4), cycles: &EVERY_CYCLE, hops: (1, 8) };
const MIDDLE: Shape = Shape { routers: (3, 12), buffers: (4, 30), circuits: (2, 8), cycles: &[2, 3, 4, 6, 8, 9, 12], hops: (1, 8) };
/// Common cycles short enough that the run is walked, however many circuits there are.
const DOUBLING: Shape = Shape { routers: (4, 24), buffers: (8, 60), circuits: (3, 16), cycles: &[2, 4, 8, 16, 32], hops: (1, 12) };
/// Any cycles, so that many circuits seldom have room.
const LARGE: Shape = Shape {
    routers: (8, ROUTERS_MOST),
    buffers: (20, BUFFERS_MOST),
    circuits: (4, CIRCUITS_MOST),
    cycles: &EVERY_CYCLE,
    hops: (1, HOPS_MOST),
};
const FULL: Shape = Shape {
    routers: (ROUTERS_MOST, ROUTERS_MOST),
    buffers: (BUFFERS_MOST, BUFFERS_MOST),
    circuits: (CIRCUITS_MOST, CIRCUITS_MOST),
    cycles: &[CYCLE_MOST],
    hops: (HOPS_MOST, HOPS_MOST),
};

/// The visits after which a search for the offsets to write down is given up.
const VISITS_TO_FIND: u32 = 2000;

/// One set in so many is a plan of full size that mostly has room.
const LARGE_ONCE_IN: usize = 60;

pub fn file_set(random: &mut Random) -> FileSet {
    if random.once_in(LARGE_ONCE_IN) {
        return large::file_set(random);
    }
    let request = draw_request(random);
    let assignment = draw_assignment(random, &request);
    let lines = lines::draw_lines(random, &request, &assignment);
    let damaged = random.once_in(2);
    let [request, assignment, table] = files(random, (&request, &assignment, &lines), damaged);
    FileSet { request, assignment, table, damaged, visits_most: VISITS_TO_FIND }
}

/// The bytes of the three; one of them damaged if so wished, and now and then in a second place.
fn files(random: &mut Random, (request, assignment, lines): (&Request, &Assignment, &[Line]), damaged: bool) -> [Vec<u8>; 3] {
    let mut files = [request_file(request), assignment_file(assignment), table_file(lines)];
    if damaged {
        let which = random.below(3);
        damage(random, &mut files[which]);
        if random.once_in(6) {
            let which = random.below(3);
            damage(random, &mut files[which]);
        }
    }
    files
}

/// Half of the requests are thinned out until the search finds offsets, so that tables without a clash are common.
fn draw_request(random: &mut Random) -> Request {
    let mut request = draw_circuits(random);
    if random.once_in(2) {
        while !matches!(search(&request, VISITS_TO_FIND), Found::Offsets { .. }) {
            request.circuits.truncate(request.circuits.len() * 2 / 3);
        }
    }
    request
}

fn draw_circuits(random: &mut Random) -> Request {
    if random.once_in(4000) {
        return full_ring();
    }
    match random.below(100) {
        0..=3 => drawn_from(random, &NO_CIRCUITS),
        4..=9 => vary(random, net_p()),
        10..=15 => vary(random, net_q()),
        16..=17 => two_that_meet_late(random),
        18..=39 => drawn_from(random, &TINY),
        40..=54 => drawn_from(random, &CROWDED),
        55..=69 => drawn_from(random, &LONG_CYCLES),
        70..=82 => drawn_from(random, &MIDDLE),
        83..=94 => drawn_from(random, &DOUBLING),
        95..=98 => drawn_from(random, &LARGE),
        _ => drawn_from(random, &FULL),
    }
}

/// Half of the time as it stands in document 01, else with other cycles and demands.
fn vary(random: &mut Random, mut request: Request) -> Request {
    if random.once_in(2) {
        return request;
    }
    for circuit in &mut request.circuits {
        circuit.cycle = random.between((1, 8));
        circuit.demand = draw_demand(random, circuit.cycle);
    }
    request
}

/// Two circuits on one buffer whose first clash may be as late as slot 991.
fn two_that_meet_late(random: &mut Random) -> Request {
    let mut long = || circuit(random.between((CYCLE_MOST - 4, CYCLE_MOST)), 1, &[0]);
    Request { network: network(2, &[(0, 1)]), circuits: vec![long(), long()] }
}

fn drawn_from(random: &mut Random, shape: &Shape) -> Request {
    let mut request = Request { network: draw_network(random, shape), circuits: Vec::new() };
    if request.network.buffers.is_empty() {
        return request;
    }
    for _ in 0..random.between(shape.circuits) {
        let circuit = draw_circuit(random, shape, &request);
        request.circuits.push(circuit);
    }
    request
}

/// Half of the nets begin with a ring, so that long paths are found.
fn draw_network(random: &mut Random, shape: &Shape) -> Network {
    let routers = random.between(shape.routers);
    let count = random.between(shape.buffers).min(routers * (routers - 1));
    let mut buffers: Vec<Buffer> = Vec::new();
    if random.once_in(2) {
        buffers.extend((0..routers.min(count)).map(|from| Buffer { from, to: (from + 1) % routers }));
    }
    while buffers.len() < count {
        let buffer = Buffer { from: random.below(routers), to: random.below(routers) };
        if buffer.from != buffer.to && !buffers.contains(&buffer) {
            buffers.push(buffer);
        }
    }
    Network { routers, buffers }
}

fn draw_circuit(random: &mut Random, shape: &Shape, request: &Request) -> Circuit {
    let cycle = random.pick(shape.cycles);
    let demand = draw_demand(random, cycle);
    let hops = random.between(shape.hops);
    let path = draw_path(random, request, hops);
    Circuit { cycle, demand, path }
}

fn draw_demand(random: &mut Random, cycle: usize) -> usize {
    let most = if random.once_in(6) { cycle } else { 1 + cycle / 5 };
    random.between((1, most))
}

/// A random walk that takes no buffer twice; every third one starts on the path of a circuit drawn before.
fn draw_path(random: &mut Random, request: &Request, hops: usize) -> Vec<usize> {
    let buffers = &request.network.buffers;
    let mut here = random.below(buffers.len());
    if !request.circuits.is_empty() && random.once_in(3) {
        let before = random.below(request.circuits.len());
        here = random.pick(&request.circuits[before].path);
    }
    let mut path = vec![here];
    while path.len() < hops {
        let leads_on = |next: &usize| buffers[*next].from == buffers[here].to && !path.contains(next);
        let onward: Vec<usize> = (0..buffers.len()).filter(leads_on).collect();
        if onward.is_empty() {
            break;
        }
        here = random.pick(&onward);
        path.push(here);
    }
    path
}

/// Mostly what the search finds, so that nothing clashes; else any offsets, evenly spread ones among them.
fn draw_assignment(random: &mut Random, request: &Request) -> Assignment {
    let found = match random.below(4) {
        0 => None,
        _ => Some(search(request, VISITS_TO_FIND)),
    };
    let Some(Found::Offsets { mut assignment, .. }) = found else {
        return request.circuits.iter().map(|circuit| draw_offsets(random, circuit)).collect();
    };
    if !assignment.is_empty() && random.once_in(4) {
        let moved = random.below(assignment.len());
        assignment[moved] = draw_offsets(random, &request.circuits[moved]);
    }
    assignment
}

fn draw_offsets(random: &mut Random, circuit: &Circuit) -> Vec<usize> {
    if circuit.cycle.is_multiple_of(circuit.demand) && random.once_in(2) {
        let step = circuit.cycle / circuit.demand;
        let first = random.below(step);
        return (0..circuit.demand).map(|at| first + at * step).collect();
    }
    let mut left: Vec<usize> = (0..circuit.cycle).collect();
    while left.len() > circuit.demand {
        left.remove(random.below(left.len()));
    }
    left
}
