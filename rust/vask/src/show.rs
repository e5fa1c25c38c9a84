//! The records of a file, one to a line, whatever is wrong with it. Assumes nothing.
use crate::json::Json;
use crate::record::{kind_name, records, Record, CIRCUIT, END, LINE, NETWORK, OFFSETS};
use std::io::{self, Write};
use vaskunoor::sizes::{COUNTS_SIZE, HEAD_SIZE, LINE_SIZE, LOCAL};

pub fn text(file: &[u8], to: &mut impl Write) -> io::Result<()> {
    records(file).try_for_each(|record| writeln!(to, "byte {}: {}", record.start, line(&record)))
}

/// One record in words; a network has a line for each buffer too.
fn line(record: &Record) -> String {
    let (kind, length) = (record.kind(), record.length());
    if !record.has_head() {
        return "cut short".to_string();
    }
    if !record.has_body() {
        return format!("kind {kind} of length {length}, cut short");
    }
    match (kind, length) {
        (NETWORK, _) => network(record),
        (CIRCUIT, _) => circuit(record),
        (OFFSETS, _) => format!("offsets of circuit {}:{}", record.index, spaced(offsets(record))),
        (LINE, LINE_SIZE) => table_line(record),
        (END, _) => "end".to_string(),
        _ => format!("kind {kind} of length {length}, as in no file"),
    }
}

fn spaced(numbers: impl IntoIterator<Item = usize>) -> String {
    numbers.into_iter().map(|number| format!(" {number}")).collect()
}

/// How many parts of two bytes a record has behind its counts.
fn parts(record: &Record) -> usize {
    record.length().saturating_sub(COUNTS_SIZE) / 2
}

fn links<'a>(record: &'a Record<'a>) -> impl Iterator<Item = [usize; 2]> + 'a {
    let first = HEAD_SIZE + COUNTS_SIZE;
    (0..parts(record)).map(move |buffer| [record.byte(first + 2 * buffer), record.byte(first + 2 * buffer + 1)])
}

fn path<'a>(record: &'a Record<'a>) -> impl Iterator<Item = usize> + 'a {
    (0..parts(record)).map(move |hop| record.word(HEAD_SIZE + COUNTS_SIZE + 2 * hop))
}

fn offsets<'a>(record: &'a Record<'a>) -> impl Iterator<Item = usize> + 'a {
    (0..record.length()).map(move |place| record.byte(HEAD_SIZE + place))
}

fn network(record: &Record) -> String {
    let mut text = format!("network, routers {}, buffers {}", record.word(HEAD_SIZE), record.word(HEAD_SIZE + 2));
    for (buffer, [from, to]) in links(record).enumerate() {
        text += &format!("\n  buffer {buffer}: from router {from} to router {to}");
    }
    text
}

/// Record k of a request is circuit k - 1.
fn circuit(record: &Record) -> String {
    let number = record.index.checked_sub(1).map_or(String::new(), |number| format!(" {number}"));
    let [cycle, demand] = [0, 1].map(|at| record.byte(HEAD_SIZE + at));
    format!("circuit{number}, cycle {cycle}, demand {demand}, path{}", spaced(path(record)))
}

fn inport(record: &Record) -> Json {
    match record.word(HEAD_SIZE + 4) {
        LOCAL => Json::from("local"),
        buffer => buffer.into(),
    }
}

fn table_line(record: &Record) -> String {
    let [router, period, slot] = [0, 1, 2].map(|at| record.byte(HEAD_SIZE + at));
    let inport = inport(record).to_string().replace('"', "");
    format!("line {}, router {router}, period {period}, slot {slot}, in {inport}, out {}", record.index, record.word(HEAD_SIZE + 6))
}

/// The records as JSON, in one object.
pub fn json(file: &[u8], is_front: bool, to: &mut impl Write) -> io::Result<()> {
    write!(to, "{{\"records\":[")?;
    records(file).try_for_each(|record| {
        let comma = if record.index == 0 { "" } else { "," };
        write!(to, "{comma}{}", Json::Object(fields(&record)))
    })?;
    writeln!(to, "],\"whole\":{}}}", !is_front)
}

fn fields(record: &Record) -> Vec<(&'static str, Json)> {
    let mut fields = vec![("byte", record.start.into())];
    if !record.has_head() {
        fields.push(("cut", Json::Flag(true)));
        return fields;
    }
    fields.push(("kind", record.kind().into()));
    fields.push(("length", record.length().into()));
    if !record.has_body() {
        fields.push(("cut", Json::Flag(true)));
        return fields;
    }
    if let Some(name) = kind_name(record.kind()) {
        fields.push(("name", name.into()));
    }
    fields.extend(body(record));
    fields
}

fn body(record: &Record) -> Vec<(&'static str, Json)> {
    let byte = |at: usize| Json::from(record.byte(HEAD_SIZE + at));
    match (record.kind(), record.length()) {
        (NETWORK, _) => vec![("routers", record.word(HEAD_SIZE).into()), ("links", links(record).map(Json::from_iter).collect())],
        (CIRCUIT, _) => vec![("cycle", byte(0)), ("demand", byte(1)), ("path", path(record).collect())],
        (OFFSETS, _) => vec![("offsets", offsets(record).collect())],
        (LINE, LINE_SIZE) => vec![
            ("router", byte(0)),
            ("period", byte(1)),
            ("slot", byte(2)),
            ("in", inport(record)),
            ("out", record.word(HEAD_SIZE + 6).into()),
        ],
        _ => Vec::new(),
    }
}
