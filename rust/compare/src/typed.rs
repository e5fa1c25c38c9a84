//! The typed files of the crate vaskunoor against the independent reader, on random files: both read the same ones and refuse the others
//! alike, what they read is the same, and built anew from that it has the same bytes. Assumes the library linked in.
use crate::draw::file_set;
use crate::model;
use crate::plain::{reading, Told};
use crate::random::Random;
use vaskunoor::{Assignment, Circuit, Inport, Invalid, Line, Network, Refusal, Request, Table};

const SEED: u64 = 5;
const SETS: u64 = 24_000;

/// How many files of one kind read, and how many did not.
#[derive(Default)]
struct Met {
    good: u32,
    damaged: u32,
}

/// What the two readers make of a file.
struct Readings<Plain, Typed> {
    plain: Result<Plain, Told>,
    typed: Result<Typed, Refusal>,
}

impl<Plain, Typed: AsRef<[u8]> + PartialEq> Readings<Plain, Typed> {
    /// Both, where both read the file; `built` builds it anew from what the independent reader found.
    fn agreed(
        self,
        file: &[u8],
        met: &mut Met,
        built: impl FnOnce(&Plain) -> Result<Typed, Invalid>,
    ) -> Result<Option<(Plain, Typed)>, String> {
        match (self.plain, self.typed) {
            (Ok(plain), Ok(typed)) => {
                met.good += 1;
                ensure(typed.as_ref() == file, "the typed file has other bytes")?;
                ensure(built(&plain).is_ok_and(|built| built == typed), "built anew it is another")?;
                Ok(Some((plain, typed)))
            }
            (Err(told), Err(refusal)) => {
                met.damaged += 1;
                ensure((told.number, told.details) == (refusal.number(), refusal.details()), "the readers refuse it otherwise")?;
                Ok(None)
            }
            (Ok(_), Err(refusal)) => Err(format!("only the typed reader refuses it: {refusal}")),
            (Err(told), Ok(_)) => Err(format!("only the independent reader refuses it: {told:?}")),
        }
    }
}

fn ensure(holds: bool, reason: &str) -> Result<(), String> {
    holds.then_some(()).ok_or(reason.to_string())
}

fn built_request(plain: &model::Request) -> Result<Request, Invalid> {
    let network = Network::new(plain.network.routers, links(plain))?;
    let circuit = |circuit: &model::Circuit| Circuit::new(circuit.cycle, circuit.demand, circuit.path.iter().copied());
    let circuits = plain.circuits.iter().map(circuit).collect::<Result<Vec<Circuit>, _>>()?;
    Request::new(network, circuits)
}

fn links(plain: &model::Request) -> impl Iterator<Item = (usize, usize)> + '_ {
    plain.network.buffers.iter().map(|buffer| (buffer.from, buffer.to))
}

fn same_request(plain: &model::Request, typed: &Request) -> bool {
    let same_circuit = |(plain, typed): (&model::Circuit, &Circuit)| {
        (plain.cycle, plain.demand) == (typed.cycle(), typed.demand()) && typed.path().eq(plain.path.iter().copied())
    };
    plain.network.routers == typed.network().routers()
        && typed.network().links().iter().map(|link| (link.from(), link.to())).eq(links(plain))
        && plain.circuits.len() == typed.circuits().len()
        && plain.circuits.iter().zip(typed.circuits()).all(same_circuit)
}

fn same_offsets(plain: &model::Assignment, typed: &Assignment) -> bool {
    typed.offsets().map(Vec::from_iter).eq(plain.iter().cloned())
}

fn same_lines(plain: &[model::Line], typed: &Table) -> bool {
    let same_line = |(plain, typed): (&model::Line, &Line)| {
        (plain.router, plain.period, plain.slot) == (typed.router(), typed.period(), typed.slot())
            && (inport(plain), plain.out) == (typed.inport(), typed.out())
    };
    plain.len() == typed.lines().len() && plain.iter().zip(typed.lines()).all(same_line)
}

fn inport(plain: &model::Line) -> Inport {
    match plain.inport {
        model::Inport::Buffer(buffer) => Inport::Buffer(buffer),
        model::Inport::Local => Inport::Local,
    }
}

/// One set of files; the assignment and the table are read against its request.
fn try_set(index: u64, [requests, assignments, tables]: &mut [Met; 3]) -> Result<(), String> {
    let set = file_set(&mut Random::new(SEED, index));
    let readings = Readings { plain: reading::request(&set.request), typed: Request::read(&set.request) };
    let Some((plain, request)) = readings.agreed(&set.request, requests, built_request)? else {
        return Ok(());
    };
    ensure(same_request(&plain, &request), "the request says otherwise")?;

    let typed = Assignment::read(&request, &set.assignment);
    let readings = Readings { plain: reading::assignment(&set.assignment, &plain.circuits), typed };
    let built = |plain: &model::Assignment| Assignment::new(&request, plain.iter().map(|offsets| offsets.iter().copied()));
    if let Some((plain, assignment)) = readings.agreed(&set.assignment, assignments, built)? {
        ensure(same_offsets(&plain, &assignment), "the assignment says otherwise")?;
    }

    let readings = Readings { plain: reading::table(&set.table, &plain.network), typed: Table::read(&request, &set.table) };
    let line = |plain: &model::Line| Line::new(plain.router, plain.period, plain.slot, inport(plain), plain.out);
    let built = |plain: &Vec<model::Line>| Table::new(&request, plain.iter().map(line).collect::<Result<Vec<Line>, _>>()?);
    match readings.agreed(&set.table, tables, built)? {
        Some((plain, table)) => ensure(same_lines(&plain, &table), "the table says otherwise"),
        None => Ok(()),
    }
}

/// Every second set from this one on; each kind of file must be met good and damaged.
fn try_half(first: u64) -> Result<(), String> {
    let mut met = <[Met; 3]>::default();
    for index in (first..SETS).step_by(2) {
        try_set(index, &mut met).map_err(|reason| format!("seed {SEED}, set {index}: {reason}"))?;
    }
    for (kind, met) in ["requests", "assignments", "tables"].iter().zip(&met) {
        println!("{kind} that read: {}, that do not: {}", met.good, met.damaged);
        ensure(met.good > 0 && met.damaged > 0, &format!("not both good and damaged {kind} were met"))?;
    }
    Ok(())
}

#[test]
fn the_files_of_even_sets_with_types_are_those_of_the_independent_reader() -> Result<(), String> {
    try_half(0)
}

#[test]
fn the_files_of_odd_sets_with_types_are_those_of_the_independent_reader() -> Result<(), String> {
    try_half(1)
}
