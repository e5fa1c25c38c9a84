//! The words held against random files: what they say of a file is so, and what they say would mend it does. Assumes the files that the
//! comparison draws, and its plain search.
use super::{explain, room, Explanation, Files};
use crate::json::Json;
use compare::draw::{file_set, FileSet};
use compare::model;
use compare::plain::{search, Found};
use compare::random::Random;
use std::collections::BTreeMap;
use std::time::Duration;
use vaskunoor::{allocate, check_assignment, check_tables, Assignment, Circuit, Fault, File, Refusal, Request, Resource, Table};

const SEED: u64 = 11;

fn sets(many: u64) -> impl Iterator<Item = FileSet> {
    (0..many).map(|index| file_set(&mut Random::new(SEED, index)))
}

fn files(set: &FileSet) -> Files<'_> {
    Files { request: &set.request, assignment: &set.assignment, table: &set.table }
}

fn verify(files: Files) -> Result<(), Refusal> {
    check_tables(files.request, files.assignment, files.table)
}

fn fact<'a>(explanation: &'a Explanation, name: &str) -> Option<&'a Json> {
    explanation.facts.iter().find(|fact| fact.0 == name).map(|fact| &fact.1)
}

fn number(explanation: &Explanation, name: &str) -> Option<usize> {
    match fact(explanation, name) {
        Some(Json::Number(number)) => Some(*number as usize),
        _ => None,
    }
}

fn numbers(explanation: &Explanation, name: &str) -> Option<Vec<usize>> {
    let Some(Json::List(list)) = fact(explanation, name) else {
        return None;
    };
    let number = |value: &Json| if let Json::Number(number) = value { Some(*number as usize) } else { None };
    list.iter().map(number).collect()
}

/// The file with another number in the field that an explanation names.
fn with_field(file: &[u8], explanation: &Explanation, value: usize) -> Vec<u8> {
    let words = ["kind", "length", "number of routers", "number of buffers", "buffer", "in", "out"];
    let is_word = words.iter().any(|field| fact(explanation, "field") == Some(&Json::from(*field)));
    let mut changed = file.to_vec();
    let at = number(explanation, "byte").expect("a field stands somewhere");
    changed[at] = value as u8;
    if is_word {
        changed[at + 1] = (value >> 8) as u8;
    }
    changed
}

/// Where a fault is, and which field.
fn place(refusal: &Refusal, files: Files) -> (u32, [u32; 4], Option<Json>, Option<usize>) {
    let explanation = explain(refusal, files);
    (refusal.number(), refusal.details(), fact(&explanation, "field").cloned(), number(&explanation, "byte"))
}

/// A field with an allowed number in it is no longer what is told.
fn assert_mends(file: File, refusal: &Refusal, explanation: &Explanation, files: Files, value: usize) {
    let mut other = files;
    let changed = match file {
        File::Request => with_field(files.request, explanation, value),
        File::Assignment => with_field(files.assignment, explanation, value),
        File::Table => with_field(files.table, explanation, value),
    };
    match file {
        File::Request => other.request = &changed,
        File::Assignment => other.assignment = &changed,
        File::Table => other.table = &changed,
    }
    let before = place(refusal, files);
    let after = verify(other).err().map(|refusal| place(&refusal, other));
    assert_ne!(after, Some(before), "{:?} with {value}", explanation.lines);
}

#[test]
fn each_fault_of_a_record_is_found_and_what_is_allowed_mends_it() {
    let mut met: BTreeMap<(u32, String), usize> = BTreeMap::new();
    for set in sets(40_000).filter(|set| set.damaged) {
        let Err(refusal @ Refusal::Damaged { file, fault, .. }) = verify(files(&set)) else {
            continue;
        };
        let explanation = explain(&refusal, files(&set));
        let field = fact(&explanation, "field").unwrap_or_else(|| panic!("{refusal}: not found in the file"));
        *met.entry((fault.number(), field.to_string())).or_default() += 1;
        if let (Some(_), Some(allowed)) = (number(&explanation, "value"), numbers(&explanation, "allowed")) {
            allowed.iter().for_each(|&value| assert_mends(file, &refusal, &explanation, files(&set), value));
        }
    }
    let faults = [Fault::Cut, Fault::Kind, Fault::Length, Fault::Count, Fault::Value, Fault::Path, Fault::AfterEnd, Fault::Offsets];
    for number in faults.iter().map(|fault| fault.number()).chain([Fault::Line.number()]) {
        assert!(met.keys().any(|(met, _)| *met == number), "no file had the fault {number}");
    }
    assert!(met.len() >= 28, "only these fields were met: {met:?}");
}

/// The first slot in which packets of two circuits are at one place, by walking the slots: a packet is its slot of admission.
fn walked_meeting(request: &Request, pair: [&Circuit; 2], offsets: [&[usize]; 2]) -> Option<usize> {
    let owner = |circuit: &Circuit| circuit.path().next().map(|first| request.network().links()[first].from() as u32);
    let here = |circuit: &Circuit, offsets: &[usize], slot: usize| -> Vec<Resource> {
        let mut places = Vec::new();
        for (hop, buffer) in circuit.path().enumerate() {
            let admitted = slot.checked_sub(hop);
            let is_here = |offset: &usize| admitted.is_some_and(|slot| slot >= *offset && (slot - offset).is_multiple_of(circuit.cycle()));
            if offsets.iter().any(is_here) {
                places.push(Resource::Buffer(buffer as u32));
                places.extend(owner(circuit).filter(|_| hop == 0).map(Resource::Inport));
            }
        }
        places
    };
    (0..3000).find(|&slot| {
        let [one, other] = [0, 1].map(|side| here(pair[side], offsets[side], slot));
        one.iter().any(|place| other.contains(place))
    })
}

#[test]
fn packets_first_meet_in_the_slot_that_is_told() {
    let (mut met, mut later) = (0, 0);
    for set in sets(6_000) {
        let Err(refusal @ Refusal::Clash { lower, higher, slot, .. }) = check_assignment(&set.request, &set.assignment) else {
            continue;
        };
        let explanation = explain(&refusal, files(&set));
        let Some(Json::Object(meeting)) = fact(&explanation, "meeting") else {
            panic!("no meeting is told of {refusal}");
        };
        let request = Request::read(&set.request).expect("a clash is told of files that read");
        let assignment = Assignment::read(&request, &set.assignment).expect("a clash is told of files that read");
        let offsets: Vec<Vec<usize>> = assignment.offsets().map(Iterator::collect).collect();
        let [one, other] = [lower as usize, higher as usize];
        let walked = walked_meeting(&request, [&request.circuits()[one], &request.circuits()[other]], [&offsets[one], &offsets[other]]);
        assert_eq!(Some(&meeting[0].1), walked.map(Json::from).as_ref(), "{refusal}");
        met += 1;
        later += usize::from(walked != Some(slot as usize));
    }
    assert!(met > 300 && later > 30, "{met} clashes, {later} with packets that meet later");
}

fn series_of(refusal: &Refusal) -> Option<vaskunoor::Series> {
    match *refusal {
        Refusal::NoLine { series } => Some(series),
        Refusal::InPart { series, .. } | Refusal::TwoLines { series, .. } | Refusal::Elsewhere { series, .. } => Some(series),
        _ => None,
    }
}

/// The bytes that are told, without blanks.
fn told_bytes(explanation: &Explanation) -> Vec<u8> {
    let line = explanation.lines.iter().find_map(|line| line.strip_prefix("as bytes of a table: ")).expect("the bytes are told");
    line.split(' ').map(|byte| u8::from_str_radix(byte, 16).expect("a byte in hex")).collect()
}

#[test]
fn the_line_that_is_told_serves_its_series() {
    let mut met = [0; 4];
    for set in sets(12_000) {
        let Err(refusal) = verify(files(&set)) else {
            continue;
        };
        let Some(series) = series_of(&refusal) else {
            continue;
        };
        let explanation = explain(&refusal, files(&set));
        let meeting = numbers(&explanation, "meeting").expect("the lines that meet are told");
        let request = Request::read(&set.request).expect("the files read");
        let table = Table::read(&request, &set.table).expect("the files read");
        let mut mended = told_bytes(&explanation);
        let others = table.lines().iter().enumerate().filter(|(number, _)| !meeting.contains(number));
        others.for_each(|(_, line)| mended.extend(line.to_bytes()));
        mended.extend([0, 0, 5, 0]);
        let after = verify(Files { table: &mended, ..files(&set) }).err();
        assert_ne!(after.as_ref().and_then(series_of), Some(series), "{refusal}, then {after:?}");
        met[refusal.number() as usize - 13] += 1;
    }
    assert!(met.iter().all(|&times| times > 20), "13 to 16 were met {met:?} times");
}

/// The same request for the plain search.
fn plain_request(request: &Request, circuits: &[usize]) -> model::Request {
    let buffers = request.network().links().iter().map(|link| model::Buffer { from: link.from(), to: link.to() }).collect();
    let circuit = |circuit: &Circuit| model::Circuit { cycle: circuit.cycle(), demand: circuit.demand(), path: circuit.path().collect() };
    let circuits = circuits.iter().map(|&number| circuit(&request.circuits()[number])).collect();
    model::Request { network: model::Network { routers: request.network().routers(), buffers }, circuits }
}

#[test]
fn the_circuits_that_are_told_have_no_room_and_none_can_be_left_out() {
    const VISITS: u32 = 300_000;
    let (mut met, mut larger) = (0, 0);
    for set in sets(5_000) {
        let Err(refusal @ Refusal::NoRoom { .. }) = allocate(&set.request, 50_000) else {
            continue;
        };
        let request = Request::read(&set.request).expect("the request reads");
        let explanation = room::explain(&refusal, &request, Duration::from_secs(60));
        let circuits = numbers(&explanation, "circuits").expect("circuits are told");
        if numbers(&explanation, "unsettled") != Some(Vec::new()) {
            continue;
        }
        if matches!(search(&plain_request(&request, &circuits), VISITS), Found::Unfinished) {
            continue;
        }
        assert!(matches!(search(&plain_request(&request, &circuits), VISITS), Found::NoRoom { .. }), "{circuits:?} have room");
        for left_out in &circuits {
            let rest: Vec<usize> = circuits.iter().copied().filter(|circuit| circuit != left_out).collect();
            let found = search(&plain_request(&request, &rest), VISITS);
            assert!(!matches!(found, Found::NoRoom { .. }), "{left_out} can be left out of {circuits:?}");
        }
        met += 1;
        larger += usize::from(circuits.len() > 2);
    }
    assert!(met > 100 && larger > 10, "{met} without room, {larger} of more than two circuits");
}
