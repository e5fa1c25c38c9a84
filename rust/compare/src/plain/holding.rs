//! Which circuit holds what in which slot, and the first clash, by walking the slots of the common cycle of two circuits.
//! Assumes files that read.
use crate::model::{common_cycle, Assignment, Circuit, Request, BUFFERS_MOST, CYCLE_MOST};

/// What is held in one slot: a bit for each buffer, and one for the local inport of each router.
#[derive(Clone, Copy, Default)]
struct Held {
    buffers: u128,
    inports: u64,
}

impl Held {
    fn both(self, other: Held) -> Held {
        Held { buffers: self.buffers & other.buffers, inports: self.inports & other.inports }
    }

    fn least(self) -> Option<u32> {
        if self.buffers != 0 {
            return Some(self.buffers.trailing_zeros());
        }
        (self.inports != 0).then(|| BUFFERS_MOST as u32 + self.inports.trailing_zeros())
    }
}

pub struct Clash {
    pub lower: usize,
    pub higher: usize,
    pub slot: usize,
    pub what: u32,
}

/// What the circuit holds in each slot of its cycle.
fn held_by_slot(request: &Request, circuit: &Circuit, offsets: &[usize]) -> Vec<Held> {
    let mut slots = vec![Held::default(); circuit.cycle];
    for &offset in offsets {
        for (hop, &buffer) in circuit.path.iter().enumerate() {
            slots[(offset + hop) % circuit.cycle].buffers |= 1 << buffer;
        }
        slots[offset].inports |= 1 << request.first_router(circuit);
    }
    slots
}

/// The least slot in which both hold the same, and the least that they both hold then.
fn first_meeting(one: &[Held], other: &[Held]) -> Option<(usize, u32)> {
    let slots = 0..common_cycle(one.len(), other.len());
    let mut meetings = slots.filter_map(|slot| {
        let both = one[slot % one.len()].both(other[slot % other.len()]);
        both.least().map(|what| (slot, what))
    });
    meetings.next()
}

pub fn first_clash(request: &Request, assignment: &Assignment) -> Option<Clash> {
    let circuits = request.circuits.iter().zip(assignment);
    let held: Vec<Vec<Held>> = circuits.map(|(circuit, offsets)| held_by_slot(request, circuit, offsets)).collect();
    for lower in 0..held.len() {
        for higher in lower + 1..held.len() {
            if let Some((slot, what)) = first_meeting(&held[lower], &held[higher]) {
                return Some(Clash { lower, higher, slot, what });
            }
        }
    }
    None
}

/// The offsets of two circuits that clash, in pairs, each pair once.
pub fn clashing_offsets(request: &Request, one: &Circuit, other: &Circuit) -> Vec<(usize, usize)> {
    let mut seen = [[false; CYCLE_MOST]; CYCLE_MOST];
    let mut clashing = Vec::new();
    for (hop, other_hop) in shared_hops(request, one, other) {
        for slot in 0..common_cycle(one.cycle, other.cycle) {
            let (offset, other_offset) = (holder(one, hop, slot), holder(other, other_hop, slot));
            if !std::mem::replace(&mut seen[offset][other_offset], true) {
                clashing.push((offset, other_offset));
            }
        }
    }
    clashing
}

/// The hops at which two circuits use the same buffer; a local inport is used with the first hop.
fn shared_hops(request: &Request, one: &Circuit, other: &Circuit) -> Vec<(usize, usize)> {
    let mut shared = Vec::new();
    for (hop, buffer) in one.path.iter().enumerate() {
        if let Some(other_hop) = other.path.iter().position(|b| b == buffer) {
            shared.push((hop, other_hop));
        }
    }
    if request.first_router(one) == request.first_router(other) {
        shared.push((0, 0));
    }
    shared
}

/// The offset whose packets are in the hop's buffer in this slot.
fn holder(circuit: &Circuit, hop: usize, slot: usize) -> usize {
    (slot + hop * (circuit.cycle - 1)) % circuit.cycle
}
