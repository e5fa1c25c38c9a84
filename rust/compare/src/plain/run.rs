//! The run of demand 3, slot by slot, each packet an object that only the lines move. Assumes files that read and lines whose common
//! cycle with the circuits is short enough to walk.
use super::tables::{all_series, Service};
use crate::model::{common_cycle, Assignment, Inport, Line, Request, BUFFERS_MOST, ROUTERS_MOST};

/// Longer common cycles are not walked.
const SLOTS_MOST: usize = 3000;

pub struct Judgement {
    /// The first slot in which a packet is not alone, does not find exactly one line, or is not led to its next buffer.
    pub bad_slot: Option<usize>,
    /// Each line serves all of a series or none of it.
    pub lines_serve_whole: bool,
}

impl Judgement {
    pub fn run_is_good(&self) -> bool {
        self.bad_slot.is_none()
    }
}

struct Packet {
    circuit: usize,
    place: Inport,
}

struct Run<'a> {
    request: &'a Request,
    assignment: &'a Assignment,
    lines_at: Vec<Vec<&'a Line>>,
    packets: Vec<Packet>,
}

/// A packet alone, or no packet: whatever stands in a place a second time in a slot is not alone.
struct Places([bool; BUFFERS_MOST + ROUTERS_MOST]);

impl Places {
    fn empty() -> Self {
        Places([false; BUFFERS_MOST + ROUTERS_MOST])
    }

    fn alone(&mut self, place: usize) -> bool {
        !std::mem::replace(&mut self.0[place], true)
    }
}

/// Judges the run, or says nothing where its common cycle is too long to walk.
pub fn judge(request: &Request, assignment: &Assignment, lines: &[Line]) -> Option<Judgement> {
    let slots = slots_that_tell(request, assignment, lines)?;
    let mut run = Run::new(request, assignment, lines);
    let bad_slot = (0..slots).find(|&slot| !run.step(slot));
    let series = all_series(request, assignment);
    let lines_serve_whole = series.iter().all(|series| lines.iter().all(|line| series.service(line) != Service::Part));
    Some(Judgement { bad_slot, lines_serve_whole })
}

/// While a run is good its packets keep definition 1's slots. So once the last offset's first packet has gone its whole way, all repeats
/// with the common cycle of circuits and lines, and a run that is good one common cycle longer is good for ever.
fn slots_that_tell(request: &Request, assignment: &Assignment, lines: &[Line]) -> Option<usize> {
    let cycles = request.circuits.iter().map(|circuit| circuit.cycle);
    let mut common = 1;
    for cycle in cycles.chain(lines.iter().map(|line| line.period)) {
        common = common_cycle(common, cycle);
        if common > SLOTS_MOST {
            return None;
        }
    }
    let series = all_series(request, assignment);
    let last_first_slot = series.iter().map(|series| series.offset + series.hop).max();
    Some(last_first_slot.unwrap_or(0) + common)
}

impl<'a> Run<'a> {
    fn new(request: &'a Request, assignment: &'a Assignment, lines: &'a [Line]) -> Self {
        let mut lines_at = vec![Vec::new(); BUFFERS_MOST + ROUTERS_MOST];
        for line in lines {
            lines_at[inport_number(line.inport, line.router)].push(line);
        }
        Run { request, assignment, lines_at, packets: Vec::new() }
    }

    /// One slot of the run; false where it goes wrong.
    fn step(&mut self, slot: usize) -> bool {
        self.let_leave();
        self.admit(slot);
        let (mut inports, mut outs) = (Places::empty(), Places::empty());
        for at in 0..self.packets.len() {
            let inport = self.inport_of(&self.packets[at]);
            let next = self.next_buffer(&self.packets[at]);
            let mut matching = self.lines_at[inport].iter().filter(|line| line.matches(slot));
            let (Some(line), None) = (matching.next(), matching.next()) else {
                return false;
            };
            if !inports.alone(inport) || line.out != next || !outs.alone(line.out) {
                return false;
            }
            self.packets[at].place = Inport::Buffer(line.out);
        }
        true
    }

    fn let_leave(&mut self) {
        let last = |packet: &Packet| self.request.circuits[packet.circuit].path.last().copied();
        self.packets.retain(|packet| packet.place != Inport::Buffer(last(packet).expect("a path has a buffer")));
    }

    fn admit(&mut self, slot: usize) {
        for (circuit, offsets) in self.assignment.iter().enumerate() {
            let cycle = self.request.circuits[circuit].cycle;
            if offsets.iter().any(|&offset| slot >= offset && (slot - offset).is_multiple_of(cycle)) {
                self.packets.push(Packet { circuit, place: Inport::Local });
            }
        }
    }

    fn inport_of(&self, packet: &Packet) -> usize {
        inport_number(packet.place, self.request.first_router(&self.request.circuits[packet.circuit]))
    }

    /// The buffer that follows the packet's place on its path.
    fn next_buffer(&self, packet: &Packet) -> usize {
        let circuit = &self.request.circuits[packet.circuit];
        let hop = (0..circuit.path.len()).find(|&hop| circuit.inport(hop) == packet.place);
        circuit.path[hop.expect("a packet is on its path while the run is good")]
    }
}

fn inport_number(inport: Inport, router: usize) -> usize {
    match inport {
        Inport::Buffer(buffer) => buffer,
        Inport::Local => BUFFERS_MOST + router,
    }
}
