//! A clash: which offsets at which hops bring it about, and when packets themselves first meet. Assumes that both files read.
use super::{plain, Explanation, Files};
use crate::json::Json;
use vaskunoor::{Assignment, Circuit, Network, Refusal, Request, Resource};

/// What a circuit holds with one of its offsets: `first` is the slot in which its first packet is there.
#[derive(Clone, Copy)]
struct Use {
    what: Resource,
    offset: usize,
    hop: usize,
}

impl Use {
    fn first(&self) -> usize {
        self.offset + self.hop
    }
}

/// Packets of two circuits in one slot at one resource.
struct Meeting {
    slot: usize,
    what: Resource,
}

pub fn explain(refusal: &Refusal, files: Files) -> Option<Explanation> {
    let Refusal::Clash { lower, higher, slot, what } = *refusal else {
        return None;
    };
    let request = Request::read(files.request).ok()?;
    let assignment = Assignment::read(&request, files.assignment).ok()?;
    let sides = [lower, higher].map(|number| side(&request, &assignment, number as usize));
    let [Some((one, uses)), Some((other, other_uses))] = &sides else {
        return None;
    };
    let holding = |circuit: &Circuit, uses: &[Use]| {
        let holds = |used: &&Use| used.what == what && agree(slot as usize, used.first(), circuit.cycle());
        uses.iter().find(holds).copied()
    };
    let (held, other_held) = (holding(one, uses)?, holding(other, other_uses)?);
    let meeting = first_meeting((one.cycle(), uses), (other.cycle(), other_uses))?;
    let mut explanation = plain(refusal);
    let by = divisor(one.cycle(), other.cycle());
    explanation.add(format!(
        "offset {} of circuit {lower} and offset {} of circuit {higher} come there: {} and {} leave the same remainder by {by}, {}",
        held.offset,
        other_held.offset,
        sum(&held),
        sum(&other_held),
        divisor_words(one.cycle(), other.cycle()),
    ));
    explanation.add(format!("packets of the two first meet in slot {}, at {}", meeting.slot, meeting.what));
    explanation.fact("offsets", Json::from_iter([held.offset, other_held.offset]));
    explanation.fact("meeting", Json::Object(vec![("slot", meeting.slot.into()), ("what", meeting.what.what().into())]));
    Some(explanation)
}

/// The offset and the hops to the resource, as they are added up.
fn sum(used: &Use) -> String {
    match used.hop {
        0 => used.offset.to_string(),
        hop => format!("{} + {hop}", used.offset),
    }
}

fn divisor_words(one: usize, other: usize) -> String {
    match one == other {
        true => "the cycle of both".to_string(),
        false => format!("the greatest common divisor of their cycles {one} and {other}"),
    }
}

fn side<'a>(request: &'a Request, assignment: &Assignment, number: usize) -> Option<(&'a Circuit, Vec<Use>)> {
    let circuit = request.circuits().get(number)?;
    let offsets = assignment.offsets().nth(number)?;
    Some((circuit, offsets.flat_map(|offset| uses(request.network(), circuit, offset)).collect()))
}

/// What one offset holds: its local inport with the first hop, and a buffer at each hop.
fn uses(network: &Network, circuit: &Circuit, offset: usize) -> Vec<Use> {
    let buffers = circuit.path().enumerate().map(|(hop, buffer)| Use { what: Resource::Buffer(buffer as u32), offset, hop });
    let owner = circuit.path().next().and_then(|first| network.links().get(first)).map(|link| link.from() as u32);
    buffers.chain(owner.map(|router| Use { what: Resource::Inport(router), offset, hop: 0 })).collect()
}

fn agree(slot: usize, other: usize, cycle: usize) -> bool {
    slot % cycle == other % cycle
}

pub fn divisor(one: usize, other: usize) -> usize {
    match other {
        0 => one,
        _ => divisor(other, one % other),
    }
}

/// The least slot in which packets of both are at one resource, and the least such resource.
fn first_meeting((cycle, uses): (usize, &[Use]), (other_cycle, other_uses): (usize, &[Use])) -> Option<Meeting> {
    let common = cycle / divisor(cycle, other_cycle) * other_cycle;
    let pairs = uses.iter().flat_map(|used| other_uses.iter().map(move |other| (used, other)));
    let shared = pairs.filter(|(used, other)| used.what == other.what);
    let meetings = shared.filter_map(|(used, other)| {
        let start = used.first().max(other.first());
        let meets = |slot: &usize| agree(*slot, used.first(), cycle) && agree(*slot, other.first(), other_cycle);
        (start..start + common).find(meets).map(|slot| Meeting { slot, what: used.what })
    });
    meetings.min_by_key(|meeting| (meeting.slot, meeting.what.what()))
}
