//! Counts what the compared calls reach: plans of full size, late faults, and the slots of clashes. Assumes that a mark passes only where it
//! was reached.
use crate::call::Job;
use crate::check::Check;
use crate::model::CIRCUITS_MOST;
use crate::number;
use crate::pairs::SLOTS;
use std::collections::BTreeSet;

/// A plan with so many circuits is large.
const MANY: usize = 20;
/// From this circuit on a fault is late.
const LATE: u32 = 16;

/// A call whose details were told.
#[derive(Clone, Copy)]
pub struct Seen {
    pub job: Job,
    /// The circuits of its request; 0 where that does not read.
    pub circuits: usize,
    pub number: u32,
    /// The first and the third detail: the lower circuit and the slot of a clash, the circuit and the hop of a series.
    pub circuit: u32,
    pub slot: u32,
}

struct Mark {
    name: &'static str,
    is_reached: fn(&Seen) -> bool,
}

const MARKS: [Mark; 11] = [
    Mark { name: "allocations searched, 20 circuits or more", is_reached: |seen| seen.searched() && seen.circuits >= MANY },
    Mark { name: "allocations done, 20 circuits or more", is_reached: |seen| seen.allocated() && seen.circuits >= MANY },
    Mark { name: "allocations done, 32 circuits", is_reached: |seen| seen.allocated() && seen.circuits == CIRCUITS_MOST },
    Mark { name: "assignment checks, 20 circuits or more", is_reached: |seen| seen.judged(Job::CheckAssignment) && seen.circuits >= MANY },
    Mark { name: "table checks, 20 circuits or more", is_reached: |seen| seen.judged(Job::CheckTables) && seen.circuits >= MANY },
    Mark { name: "table checks past 12, 32 circuits", is_reached: |seen| seen.past_clashes() && seen.circuits == CIRCUITS_MOST },
    Mark { name: "12 with a lower circuit of 16 or more", is_reached: |seen| seen.names_late(number::CLASH) },
    Mark { name: "13 with circuit 16 or more", is_reached: |seen| seen.names_late(number::NO_LINE) },
    Mark { name: "14 with circuit 16 or more", is_reached: |seen| seen.names_late(number::IN_PART) },
    Mark { name: "15 with circuit 16 or more", is_reached: |seen| seen.names_late(number::TWO_LINES) },
    Mark { name: "16 with circuit 16 or more", is_reached: |seen| seen.names_late(number::ELSEWHERE) },
];

impl Seen {
    fn searched(&self) -> bool {
        self.job == Job::Allocate && matches!(self.number, number::DONE | number::NO_ROOM | number::UNFINISHED)
    }

    fn allocated(&self) -> bool {
        self.job == Job::Allocate && self.number == number::DONE
    }

    /// All files of this check were read without a fault.
    fn judged(&self, check: Job) -> bool {
        self.job == check && matches!(self.number, number::DONE | number::CLASH..=number::ELSEWHERE)
    }

    fn past_clashes(&self) -> bool {
        self.judged(Job::CheckTables) && self.number != number::CLASH
    }

    fn names_late(&self, number: u32) -> bool {
        self.number == number && self.circuit >= LATE
    }
}

#[derive(Default)]
pub struct Reach {
    counts: [u64; MARKS.len()],
    clash_slots: BTreeSet<u32>,
}

impl Reach {
    /// Adds what another one reached.
    pub fn add(&mut self, other: &Reach) {
        self.counts.iter_mut().zip(&other.counts).for_each(|(count, more)| *count += more);
        self.clash_slots.extend(&other.clash_slots);
    }

    pub fn count(&mut self, seen: &Seen) {
        for (count, mark) in self.counts.iter_mut().zip(&MARKS) {
            *count += u64::from((mark.is_reached)(seen));
        }
        if seen.number == number::CLASH {
            self.clash_slots.insert(seen.slot);
        }
    }

    pub fn print(&self) {
        for (count, mark) in self.counts.iter().zip(&MARKS) {
            println!("{}: {count}", mark.name);
        }
        let highest = self.clash_slots.last().map_or("none".to_string(), u32::to_string);
        println!("slots of clashes: {} of {SLOTS}, the highest {highest}", self.clash_slots.len());
    }

    /// Each mark by its name, and whether it was reached.
    pub fn checks(&self) -> Vec<Check> {
        let marks = self.counts.iter().zip(&MARKS).map(|(&count, mark)| Check::reached(mark.name.to_string(), count > 0));
        let every_slot = self.clash_slots.iter().copied().eq(0..SLOTS);
        marks.chain([Check::reached("clashes in every slot from 0 to 991".to_string(), every_slot)]).collect()
    }
}

#[cfg(test)]
mod tests {
    use super::*;
    use crate::check::{names, State};

    /// The names of the marks that one call reaches.
    fn reached(seen: Seen) -> Vec<String> {
        let mut reach = Reach::default();
        reach.count(&seen);
        names(&reach.checks(), State::Good)
    }

    const CALL: Seen = Seen { job: Job::CheckTables, circuits: 19, number: number::DONE, circuit: 0, slot: 0 };

    #[test]
    fn a_plan_of_19_circuits_reaches_nothing() {
        Job::ALL.iter().for_each(|&job| assert!(reached(Seen { job, ..CALL }).is_empty()));
    }

    #[test]
    fn a_plan_of_20_circuits_is_large() {
        let large = |job| reached(Seen { job, circuits: 20, ..CALL });
        assert_eq!(large(Job::CheckAssignment), ["assignment checks, 20 circuits or more"]);
        assert_eq!(large(Job::CheckTables), ["table checks, 20 circuits or more"]);
        assert_eq!(large(Job::Allocate), ["allocations searched, 20 circuits or more", "allocations done, 20 circuits or more"]);
        assert!(large(Job::Read).is_empty() && large(Job::MakeTables).is_empty());
    }

    #[test]
    fn a_refused_file_reaches_nothing() {
        for job in Job::ALL {
            for number in number::CUT..=number::LINE {
                assert!(reached(Seen { job, number, circuits: 32, circuit: 16, ..CALL }).is_empty());
            }
        }
    }

    #[test]
    fn a_table_with_a_clash_is_not_past_12() {
        let checked = |number| reached(Seen { circuits: 32, number, ..CALL });
        assert_eq!(checked(number::CLASH), ["table checks, 20 circuits or more"]);
        assert_eq!(checked(number::TWO_LINES), ["table checks, 20 circuits or more", "table checks past 12, 32 circuits"]);
    }

    #[test]
    fn a_fault_is_late_from_circuit_16_on() {
        for number in number::CLASH..=number::ELSEWHERE {
            assert!(reached(Seen { number, circuit: 15, ..CALL }).is_empty());
            assert_eq!(reached(Seen { number, circuit: 16, ..CALL }).len(), 1);
        }
    }

    #[test]
    fn the_slots_are_those_of_clashes_and_all_must_be_met() {
        let every_slot = |number, most| {
            let mut reach = Reach::default();
            (0..=most).for_each(|slot| reach.count(&Seen { number, slot, ..CALL }));
            reach.checks().last().is_some_and(|check| check.state == State::Good)
        };
        assert!(every_slot(number::CLASH, 991));
        assert!(!every_slot(number::CLASH, 990));
        assert!(!every_slot(number::NO_LINE, 991));
    }

    #[test]
    fn what_two_reach_one_after_the_other_is_reached() {
        let mut halves = [Reach::default(), Reach::default()];
        (0..SLOTS).for_each(|slot| halves[slot as usize % 2].count(&Seen { number: number::CLASH, slot, circuits: 32, ..CALL }));
        let [mut one, other] = halves;
        one.add(&other);
        assert_eq!(names(&one.checks(), State::Good), ["table checks, 20 circuits or more", "clashes in every slot from 0 to 991"]);
        assert_eq!(one.counts.iter().sum::<u64>(), u64::from(SLOTS));
    }
}
