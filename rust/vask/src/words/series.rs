//! What is wrong with the lines of a series, and the line that it needs, ready to paste. Assumes that the three files read.
use super::clash::divisor;
use super::{listed, plain, Explanation, Files};
use crate::json::Json;
use vaskunoor::{Assignment, Inport, Line, Refusal, Request, Series, Table};

pub fn explain(refusal: &Refusal, files: Files) -> Option<Explanation> {
    let series = match *refusal {
        Refusal::NoLine { series } => series,
        Refusal::InPart { series, .. } | Refusal::TwoLines { series, .. } | Refusal::Elsewhere { series, .. } => series,
        _ => return None,
    };
    let request = Request::read(files.request).ok()?;
    Assignment::read(&request, files.assignment).ok()?;
    let table = Table::read(&request, files.table).ok()?;
    let needed = needed(&request, series)?;
    let meeting: Vec<usize> = (0..table.lines().len()).filter(|&number| meets(&table.lines()[number], &needed)).collect();
    let mut explanation = plain(refusal);
    tell_lines(&mut explanation, refusal, &table, &meeting);
    let hex: Vec<String> = needed.to_bytes().iter().map(|byte| format!("{byte:02X}")).collect();
    explanation.add(format!("the line that they need: {needed} (router, period, slot, in, out)"));
    explanation.add(format!("as bytes of a table: {}", hex.join(" ")));
    explanation.fact("needed", line_json(&needed));
    Some(explanation)
}

/// The line of a series: the one that the maker makes for it.
fn needed(request: &Request, series: Series) -> Option<Line> {
    let circuit = request.circuits().get(series.circuit as usize)?;
    let hop = series.hop as usize;
    let out = circuit.path().nth(hop)?;
    let inport = match hop {
        0 => Inport::Local,
        _ => Inport::Buffer(circuit.path().nth(hop - 1)?),
    };
    let router = request.network().links().get(out)?.from();
    Line::new(router, circuit.cycle(), (series.offset as usize + hop) % circuit.cycle(), inport, out).ok()
}

/// Whether a line meets the series of this other line: some slot matches both.
fn meets(line: &Line, needed: &Line) -> bool {
    let by = divisor(line.period(), needed.period());
    (line.router(), line.inport()) == (needed.router(), needed.inport()) && line.slot() % by == needed.slot() % by
}

/// The lines of the table that meet the series, and what is wrong with the one that is told.
fn tell_lines(explanation: &mut Explanation, refusal: &Refusal, table: &Table, meeting: &[usize]) {
    let line = |number: u32| table.lines().get(number as usize);
    match *refusal {
        Refusal::InPart { series: _, line: number } => {
            if let Some(line) = line(number) {
                explanation.add(format!(
                    "line {number} is {line}: its period {} does not divide the cycle of the circuit, so it misses some",
                    line.period()
                ));
            }
        }
        Refusal::TwoLines { .. } => {
            explanation.add(format!("the lines that meet these packets: {}", listed(meeting)));
            for &number in meeting.iter().take(2) {
                explanation.add(format!("line {number} is {}", table.lines()[number]));
            }
        }
        Refusal::Elsewhere { series: _, line: number } => {
            if let Some(line) = line(number) {
                explanation.add(format!("line {number} is {line}: it leads to buffer {}", line.out()));
            }
        }
        _ => {}
    }
    explanation.fact("meeting", Json::from_iter(meeting.iter().copied()));
}

pub fn line_json(line: &Line) -> Json {
    let inport = match line.inport() {
        Inport::Local => Json::from("local"),
        Inport::Buffer(buffer) => buffer.into(),
    };
    Json::Object(vec![
        ("router", line.router().into()),
        ("period", line.period().into()),
        ("slot", line.slot().into()),
        ("in", inport),
        ("out", line.out().into()),
    ])
}
