//! Draws tables: the maker's own lines, what other tools might make of them, and lines with faults. Assumes a network and offsets that read.
use crate::model::{Assignment, Inport, Line, Network, Request, CYCLE_MOST};
use crate::plain::needed_lines;
use crate::random::Random;

/// The maker's own lines, or what another tool might make of them, or lines with faults.
pub fn draw_lines(random: &mut Random, request: &Request, assignment: &Assignment) -> Vec<Line> {
    let mut lines = needed_lines(request, assignment);
    let network = &request.network;
    match random.below(8) {
        0..=2 => {}
        3..=4 => loosen(random, &mut lines),
        5 => add_any_lines(random, &mut lines, network),
        _ => {
            for _ in 0..random.between((1, 3)) {
                alter_line(random, &mut lines, network);
            }
        }
    }
    lines
}

/// Divides periods, so that one line may serve several series, and drops the lines that became equal.
fn loosen(random: &mut Random, lines: &mut Vec<Line>) {
    for line in lines.iter_mut() {
        if random.once_in(2) {
            let divisors: Vec<usize> = (1..=line.period).filter(|divisor| line.period.is_multiple_of(*divisor)).collect();
            line.period = random.pick(&divisors);
            line.slot %= line.period;
        }
    }
    let mut kept: Vec<Line> = Vec::new();
    for line in lines.iter() {
        if !kept.contains(line) {
            kept.push(*line);
        }
    }
    *lines = kept;
}

/// Adds lines that may meet nothing.
fn add_any_lines(random: &mut Random, lines: &mut Vec<Line>, network: &Network) {
    for _ in 0..random.between((1, 4)) {
        if let Some(line) = draw_line(random, network) {
            lines.insert(random.below(lines.len() + 1), line);
        }
    }
}

/// Any line that reads; there is none without buffers.
fn draw_line(random: &mut Random, network: &Network) -> Option<Line> {
    if network.buffers.is_empty() {
        return None;
    }
    let out = random.below(network.buffers.len());
    let router = network.buffers[out].from;
    let period = random.between((1, CYCLE_MOST));
    let slot = random.below(period);
    Some(Line { router, period, slot, inport: draw_inport(random, network, router), out })
}

fn draw_inport(random: &mut Random, network: &Network, router: usize) -> Inport {
    let leads_here = |buffer: &usize| network.buffers[*buffer].to == router;
    let mut inports: Vec<Inport> = (0..network.buffers.len()).filter(leads_here).map(Inport::Buffer).collect();
    inports.push(Inport::Local);
    random.pick(&inports)
}

/// Changes one line to another that reads, or drops, doubles, moves or splits one.
fn alter_line(random: &mut Random, lines: &mut Vec<Line>, network: &Network) {
    if lines.is_empty() {
        return;
    }
    let (at, other) = (random.below(lines.len()), random.below(lines.len()));
    let line = lines[at];
    match random.below(10) {
        0 => drop(lines.remove(at)),
        1 => lines.insert(other, line),
        2 => lines.swap(at, other),
        3 => split(random, lines, at),
        4 => lines[at].period = random.between((line.slot + 1, CYCLE_MOST)),
        5 => lines[at].slot = random.below(line.period),
        6 => lines[at].inport = draw_inport(random, network, line.router),
        7 => lines[at] = draw_line(random, network).expect("a line has an out buffer"),
        _ => lead_elsewhere(random, lines, network),
    }
}

/// Leads one line to another buffer of its router, where some router has two.
pub fn lead_elsewhere(random: &mut Random, lines: &mut [Line], network: &Network) {
    let mut ways: Vec<(usize, usize)> = Vec::new();
    for (at, line) in lines.iter().enumerate() {
        let elsewhere = |out: &usize| network.buffers[*out].from == line.router && *out != line.out;
        ways.extend((0..network.buffers.len()).filter(elsewhere).map(|out| (at, out)));
    }
    if !ways.is_empty() {
        let (at, out) = random.pick(&ways);
        lines[at].out = out;
    }
}

/// Puts several lines of a multiple of the period in place of one: together they match in the same slots.
pub fn split(random: &mut Random, lines: &mut Vec<Line>, at: usize) {
    let line = lines[at];
    let parts = random.between((1, CYCLE_MOST / line.period));
    let part = |k: usize| Line { period: line.period * parts, slot: line.slot + k * line.period, ..line };
    lines.splice(at..=at, (0..parts).map(part));
}
