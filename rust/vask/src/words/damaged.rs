//! What is wrong with a record: the field, its value, where it stands and what is allowed, for the numbers 1 to 9. Assumes that the records
//! before it are in order, as the library reads them in order.
use super::{Explanation, Files};
use crate::json::Json;
use crate::record::{kind_name, Record, CIRCUIT, END, LINE, NETWORK, OFFSETS};
use std::fmt::{self, Display, Formatter};
use vaskunoor::sizes::*;
use vaskunoor::{Circuit, Fault, File, Link, Request};

/// What a field may have.
enum Allowed {
    Span(usize, usize),
    Words(String),
}

impl Display for Allowed {
    fn fmt(&self, to: &mut Formatter) -> fmt::Result {
        match self {
            Allowed::Span(least, most) if least == most => least.fmt(to),
            Allowed::Span(least, most) => write!(to, "{least} to {most}"),
            Allowed::Words(words) => to.write_str(words),
        }
    }
}

/// A fault as the file shows it.
struct Found {
    field: &'static str,
    value: Option<usize>,
    /// The least and the most that the field may have, where that is all.
    span: Option<(usize, usize)>,
    /// Where the field stands in the file.
    byte: usize,
    says: String,
}

impl Found {
    /// A field whose value is not allowed. `at` is counted from the record's first byte.
    fn field(record: &Record, field: &'static str, at: usize, value: usize, allowed: Allowed) -> Found {
        let byte = record.start + at;
        let says = format!("{field} is {value}, at byte {byte}; allowed is {allowed}");
        let span = match allowed {
            Allowed::Span(least, most) => Some((least, most)),
            Allowed::Words(_) => None,
        };
        Found { field, value: Some(value), span, byte, says }
    }

    fn other(record: &Record, field: &'static str, at: usize, says: impl ToString) -> Found {
        Found { field, value: None, span: None, byte: record.start + at, says: says.to_string() }
    }
}

pub fn explain(file: File, fault: Fault, byte: usize, files: Files) -> Option<Explanation> {
    let bytes = match file {
        File::Request => files.request,
        File::Assignment => files.assignment,
        File::Table => files.table,
    };
    let record = Record::at(bytes, byte);
    let found = find(file, fault, &record, files)?;
    let subject = subject(file, fault, &record);
    let mut explanation = Explanation::default();
    explanation.add(format!("{file}, byte {byte}: {subject}{}", found.says));
    explanation.fact("file", file.to_string());
    if !subject.is_empty() {
        explanation.fact("subject", subject.trim_end_matches(": "));
    }
    explanation.fact("field", found.field);
    explanation.fact("byte", found.byte);
    if let Some(value) = found.value {
        explanation.fact("value", value);
    }
    if let Some((least, most)) = found.span {
        explanation.fact("allowed", Json::from_iter([least, most]));
    }
    if let Some(hint) = swapped(file, fault, &record) {
        explanation.add(hint);
    }
    Some(explanation)
}

/// Which record it is, with a colon behind; nothing where there is no record.
fn subject(file: File, fault: Fault, record: &Record) -> String {
    if !record.has_head() || matches!(fault, Fault::AfterEnd | Fault::Kind) {
        return String::new();
    }
    let index = record.index;
    match (file, record.kind()) {
        (_, END) => "end record: ".to_string(),
        (File::Request, NETWORK) => "network: ".to_string(),
        (File::Request, _) => format!("circuit {}: ", index.saturating_sub(1)),
        (File::Assignment, _) => format!("offsets of circuit {index}: "),
        (File::Table, _) => format!("line {index}: "),
    }
}

/// The kinds that a file may have at this place.
fn allowed_kinds(file: File, record: &Record) -> &'static [usize] {
    match file {
        File::Request if record.index == 0 => &[NETWORK],
        File::Request => &[CIRCUIT, END],
        File::Assignment => &[OFFSETS, END],
        File::Table => &[LINE, END],
    }
}

/// Whether the file is one of the other two, named in a wrong place.
fn swapped(file: File, fault: Fault, record: &Record) -> Option<String> {
    let other = match record.kind() {
        NETWORK => File::Request,
        OFFSETS => File::Assignment,
        LINE => File::Table,
        _ => return None,
    };
    let begins_so = fault == Fault::Kind && record.index == 0 && other != file;
    begins_so.then(|| {
        format!("a file that begins so is a{} {other}: are the files in the right order?", if other == File::Assignment { "n" } else { "" })
    })
}

fn find(file: File, fault: Fault, record: &Record, files: Files) -> Option<Found> {
    match fault {
        Fault::Cut => Some(cut(record)),
        Fault::Kind => Some(kind(file, record)),
        Fault::Length => Some(length(record)),
        Fault::Count if record.kind() == NETWORK => network_count(record),
        Fault::Count if record.kind() == LINE => Some(Found::other(record, "lines", 0, format!("there are more than {LINES_MOST} lines"))),
        Fault::Count => circuit_count(record),
        Fault::Value if record.kind() == NETWORK => bad_link(record),
        Fault::Value => circuit_value(record, &Record::at(record.file, 0)),
        Fault::Path => broken_path(record, &Record::at(record.file, 0)),
        Fault::AfterEnd => {
            Some(Found::other(record, "end", 0, format!("bytes behind the end record: {}; none are allowed", record.left())))
        }
        Fault::Offsets => offsets(record, Request::read(files.request).ok()?.circuits()),
        Fault::Line => line(record, &Request::read(files.request).ok()?),
        _ => None,
    }
}

fn cut(record: &Record) -> Found {
    let left = record.left();
    if record.file.is_empty() {
        return Found::other(record, "end", 0, "the file is empty");
    }
    if left == 0 {
        return Found::other(record, "end", 0, "the file ends here without an end record, which is 00 00 05 00");
    }
    if !record.has_head() {
        return Found::other(record, "head", 0, format!("cut short: a record starts with {HEAD_SIZE} bytes, and here are {left}"));
    }
    let says = format!("cut short: its length says {} bytes behind the head, and there are {}", record.length(), left - HEAD_SIZE);
    Found { value: Some(record.length()), ..Found::other(record, "length", 0, says) }
}

fn named(kind: usize) -> String {
    match kind_name(kind) {
        Some(name) => format!("{kind} ({name})"),
        None => kind.to_string(),
    }
}

fn kind(file: File, record: &Record) -> Found {
    let allowed: Vec<String> = allowed_kinds(file, record).iter().map(|&kind| named(kind)).collect();
    let found = Found::field(record, "kind", 2, record.kind(), Allowed::Words(allowed.join(" or ")));
    let says = found.says.replacen(&record.kind().to_string(), &named(record.kind()), 1);
    Found { says, ..found }
}

fn length(record: &Record) -> Found {
    let (least, most, each, count) = match record.kind() {
        END => return Found::field(record, "length", 0, record.length(), Allowed::Span(0, 0)),
        LINE => return Found::field(record, "length", 0, record.length(), Allowed::Span(LINE_SIZE, LINE_SIZE)),
        OFFSETS => return Found::field(record, "length", 0, record.length(), Allowed::Span(1, CYCLE_MOST)),
        NETWORK => (COUNTS_SIZE, COUNTS_SIZE + 2 * BUFFERS_MOST, "buffers", record.word(HEAD_SIZE + 2)),
        _ => (COUNTS_SIZE + 2, COUNTS_SIZE + 2 * HOPS_MOST, "hops", record.byte(HEAD_SIZE + 2)),
    };
    let possible = record.length().is_multiple_of(2) && (least..=most).contains(&record.length());
    let allowed = match possible {
        true => format!("{}, because the record says that it has {count} {each}", COUNTS_SIZE + 2 * count),
        false => format!("an even number, {}", Allowed::Span(least, most)),
    };
    Found::field(record, "length", 0, record.length(), Allowed::Words(allowed))
}

fn outside(record: &Record, field: &'static str, at: usize, value: usize, (least, most): (usize, usize)) -> Option<Found> {
    (!(least..=most).contains(&value)).then(|| Found::field(record, field, at, value, Allowed::Span(least, most)))
}

fn network_count(record: &Record) -> Option<Found> {
    let routers = outside(record, "number of routers", HEAD_SIZE, record.word(HEAD_SIZE), (1, ROUTERS_MOST));
    routers.or_else(|| outside(record, "number of buffers", HEAD_SIZE + 2, record.word(HEAD_SIZE + 2), (0, BUFFERS_MOST)))
}

fn circuit_count(record: &Record) -> Option<Found> {
    if record.index > CIRCUITS_MOST {
        return Some(Found::other(record, "circuits", 0, format!("there are more than {CIRCUITS_MOST} circuits")));
    }
    let [cycle, demand, hops] = [0, 1, 2].map(|at| record.byte(HEAD_SIZE + at));
    let of_cycle = outside(record, "cycle", HEAD_SIZE, cycle, (1, CYCLE_MOST));
    let of_demand = || {
        let found = outside(record, "demand", HEAD_SIZE + 1, demand, (1, cycle))?;
        Some(Found { says: format!("{}, the cycle", found.says), ..found })
    };
    of_cycle.or_else(of_demand).or_else(|| outside(record, "number of hops", HEAD_SIZE + 2, hops, (1, HOPS_MOST)))
}

/// Where the two routers of a buffer stand in the network record.
fn link_at(buffer: usize) -> usize {
    HEAD_SIZE + COUNTS_SIZE + 2 * buffer
}

fn link(network: &Record, buffer: usize) -> (usize, usize) {
    (network.byte(link_at(buffer)), network.byte(link_at(buffer) + 1))
}

fn bad_link(network: &Record) -> Option<Found> {
    let (routers, buffers) = (network.word(HEAD_SIZE), network.word(HEAD_SIZE + 2));
    (0..buffers).find_map(|buffer| {
        let (from, to) = link(network, buffer);
        let ends = [("from-router", link_at(buffer), from), ("to-router", link_at(buffer) + 1, to)];
        if let Some(unknown) =
            ends.iter().find_map(|&(field, at, router)| outside(network, field, at, router, (0, routers.saturating_sub(1))))
        {
            return Some(Found { says: format!("buffer {buffer}: {}", unknown.says), ..unknown });
        }
        let way = format!("buffer {buffer}, at byte {}, leads from router {from} to router {to}", network.start + link_at(buffer));
        if from == to {
            return Some(Found::other(network, "pair", link_at(buffer), format!("{way}; the two must differ")));
        }
        let twin = (0..buffer).find(|&before| link(network, before) == (from, to))?;
        Some(Found::other(network, "pair", link_at(buffer), format!("{way}, as buffer {twin} does; no two may have the same pair")))
    })
}

/// Where a hop's buffer stands in a circuit record.
fn hop_at(hop: usize) -> usize {
    HEAD_SIZE + COUNTS_SIZE + 2 * hop
}

fn hops(circuit: &Record) -> Vec<usize> {
    (0..circuit.byte(HEAD_SIZE + 2)).map(|hop| circuit.word(hop_at(hop))).collect()
}

fn spare(record: &Record) -> Option<Found> {
    let value = record.byte(HEAD_SIZE + 3);
    (value != 0).then(|| Found::field(record, "spare byte", HEAD_SIZE + 3, value, Allowed::Span(0, 0)))
}

/// What may be named by number where there are so many.
fn known(count: usize, noun: &str) -> Allowed {
    match count {
        0 => Allowed::Words(format!("nothing, since the network has no {noun}")),
        _ => Allowed::Span(0, count - 1),
    }
}

fn circuit_value(circuit: &Record, network: &Record) -> Option<Found> {
    let buffers = network.word(HEAD_SIZE + 2);
    let unknown = || {
        let path = hops(circuit);
        let hop = path.iter().position(|&buffer| buffer >= buffers)?;
        let found = Found::field(circuit, "buffer", hop_at(hop), path[hop], known(buffers, "buffers"));
        Some(Found { says: format!("hop {hop}: {}", found.says), ..found })
    };
    spare(circuit).or_else(unknown)
}

fn broken_path(circuit: &Record, network: &Record) -> Option<Found> {
    let path = hops(circuit);
    (1..path.len()).find_map(|hop| {
        let (before, here) = (path[hop - 1], path[hop]);
        if let Some(first) = path[..hop].iter().position(|&buffer| buffer == here) {
            let says = format!("hop {hop}: buffer {here} comes twice, at hops {first} and {hop}");
            return Some(Found { value: Some(here), ..Found::other(circuit, "path", hop_at(hop), says) });
        }
        let ((_, leads_to), (owner, _)) = (link(network, before), link(network, here));
        let says = format!(
            "hop {hop}: buffer {before} leads to router {leads_to}, and buffer {here}, which follows it, belongs to router {owner}"
        );
        (leads_to != owner).then(|| Found { value: Some(here), ..Found::other(circuit, "path", hop_at(hop), says) })
    })
}

fn offsets(record: &Record, circuits: &[Circuit]) -> Option<Found> {
    let many = circuits.len();
    if record.kind() == END {
        let says = format!("it comes behind the offsets of {} circuits, and the request has {many}", record.index);
        return Some(Found::other(record, "records", 0, says));
    }
    let Some(circuit) = circuits.get(record.index) else {
        return Some(Found::other(record, "records", 0, format!("one record too many: the request has {many} circuits")));
    };
    if record.length() != circuit.demand() {
        let allowed = format!("{}, the demand of circuit {}", circuit.demand(), record.index);
        return Some(Found::field(record, "number of offsets", 0, record.length(), Allowed::Words(allowed)));
    }
    (0..record.length()).find_map(|place| bad_offset(record, place, circuit.cycle()))
}

fn bad_offset(record: &Record, place: usize, cycle: usize) -> Option<Found> {
    let at = HEAD_SIZE + place;
    let least = if place == 0 { 0 } else { record.byte(at - 1) + 1 };
    if least >= cycle {
        let says = format!("offset {} has no room behind {}: offsets rise and are below the cycle {cycle}", record.byte(at), least - 1);
        return Some(Found::other(record, "offset", at, says));
    }
    let found = outside(record, "offset", at, record.byte(at), (least, cycle - 1))?;
    Some(Found { says: format!("{}, rising and below the cycle {cycle}", found.says), ..found })
}

fn line(record: &Record, request: &Request) -> Option<Found> {
    let [router, period, slot] = [0, 1, 2].map(|at| record.byte(HEAD_SIZE + at));
    let network = request.network();
    outside(record, "router", HEAD_SIZE, router, (0, network.routers() - 1))
        .or_else(|| outside(record, "period", HEAD_SIZE + 1, period, (1, CYCLE_MOST)))
        .or_else(|| {
            let found = outside(record, "slot", HEAD_SIZE + 2, slot, (0, period - 1))?;
            Some(Found { says: format!("{}, below the period {period}", found.says), ..found })
        })
        .or_else(|| spare(record))
        .or_else(|| bad_port(record, "in", HEAD_SIZE + 4, network.links(), |link| link.to() == router))
        .or_else(|| bad_port(record, "out", HEAD_SIZE + 6, network.links(), |link| link.from() == router))
}

/// An inport or outport that is not one of the buffers that fit; an inport may be local too.
fn bad_port(record: &Record, field: &'static str, at: usize, links: &[Link], fits: impl Fn(&Link) -> bool) -> Option<Found> {
    let (port, router) = (record.word(at), record.byte(HEAD_SIZE));
    if links.get(port).is_some_and(&fits) || (field == "in" && port == LOCAL) {
        return None;
    }
    let mut allowed: Vec<String> = (0..links.len()).filter(|&buffer| fits(&links[buffer])).map(|buffer| buffer.to_string()).collect();
    if field == "in" {
        allowed.push(format!("{LOCAL} (local)"));
    }
    let allowed = match allowed.is_empty() {
        true => format!("nothing, since router {router} owns no buffer"),
        false => format!("{} at router {router}", allowed.join(" or ")),
    };
    let found = Found::field(record, field, at, port, Allowed::Words(allowed));
    let says = match links.get(port) {
        Some(link) => format!("{}; buffer {port} leads from router {} to router {}", found.says, link.from(), link.to()),
        None => found.says,
    };
    Some(Found { says, ..found })
}
