//! The lines that an assignment needs, and what a table does for each series, by walking slots. Assumes files that read.
use super::Told;
use crate::model::{common_cycle, Assignment, Line, Request};
use crate::number;

/// One circuit, offset and hop: packets stand before the hop's buffer in slot `offset + hop` and every cycle later.
pub struct Series {
    pub circuit: usize,
    pub offset: usize,
    pub hop: usize,
    /// The line that serves just this series; its period is the circuit's cycle.
    own_line: Line,
}

/// How a line stands to a series.
#[derive(Clone, Copy, PartialEq)]
pub enum Service {
    None,
    Part,
    Whole,
}

/// Told in place of a line where there is none.
const LINE_MISSING: usize = 65535;

impl Series {
    fn new(request: &Request, circuit: usize, offset: usize, hop: usize) -> Series {
        let booked = &request.circuits[circuit];
        let out = booked.path[hop];
        let own_line = Line {
            router: request.network.buffers[out].from,
            period: booked.cycle,
            slot: (offset + hop) % booked.cycle,
            inport: booked.inport(hop),
            out,
        };
        Series { circuit, offset, hop, own_line }
    }

    /// Walks the slots of the series over one common cycle with the line.
    pub fn service(&self, line: &Line) -> Service {
        if (line.router, line.inport) != (self.own_line.router, self.own_line.inport) {
            return Service::None;
        }
        let (first, cycle) = (self.offset + self.hop, self.own_line.period);
        let slots = (first..first + common_cycle(cycle, line.period)).step_by(cycle);
        let all = slots.len();
        match slots.filter(|&slot| line.matches(slot)).count() {
            0 => Service::None,
            met if met == all => Service::Whole,
            _ => Service::Part,
        }
    }

    fn refusal(&self, number: u32, line: usize) -> Told {
        Told::new(number, &[self.circuit as u32, self.offset as u32, self.hop as u32, line as u32])
    }

    /// What is wrong with the lines for this series, if anything.
    fn fault(&self, lines: &[Line]) -> Option<Told> {
        let services = lines.iter().map(|line| self.service(line)).enumerate();
        let met: Vec<(usize, Service)> = services.filter(|&(_, service)| service != Service::None).collect();
        let Some(&(only, _)) = met.first() else {
            return Some(self.refusal(number::NO_LINE, LINE_MISSING));
        };
        if let Some(&(part, _)) = met.iter().find(|&&(_, service)| service == Service::Part) {
            return Some(self.refusal(number::IN_PART, part));
        }
        if let Some(&(second, _)) = met.get(1) {
            return Some(self.refusal(number::TWO_LINES, second));
        }
        (lines[only].out != self.own_line.out).then(|| self.refusal(number::ELSEWHERE, only))
    }
}

/// Every series in order: by circuit, then offset, then hop.
pub fn all_series(request: &Request, assignment: &Assignment) -> Vec<Series> {
    let mut series = Vec::new();
    for (circuit, offsets) in assignment.iter().enumerate() {
        for &offset in offsets {
            let hops = 0..request.circuits[circuit].path.len();
            series.extend(hops.map(|hop| Series::new(request, circuit, offset, hop)));
        }
    }
    series
}

pub fn needed_lines(request: &Request, assignment: &Assignment) -> Vec<Line> {
    all_series(request, assignment).iter().map(|series| series.own_line).collect()
}

/// The first fault in the order of the series.
pub fn first_fault(request: &Request, assignment: &Assignment, lines: &[Line]) -> Option<Told> {
    all_series(request, assignment).iter().find_map(|series| series.fault(lines))
}
