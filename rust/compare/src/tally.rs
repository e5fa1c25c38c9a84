//! Counts what was compared and what disagreed, and says so. Assumes that a number passes only where each job that can give it gave it.
use crate::call::{Answer, Call, Job, DETAILS_SIZE};
use crate::check::{names, Check, State};
use crate::draw::calls::Asked;
use crate::number;
use crate::plain::Judgement;
use crate::reach::{Reach, Seen};

/// The row of the calls whose details area has another length: they are 17 too, and nothing is told of them.
const OTHER_DETAILS: usize = number::HOW_MANY;
const ROWS: usize = number::HOW_MANY + 1;

type Counts = [[u64; ROWS]; Job::ALL.len()];

#[derive(Default)]
pub struct Tally {
    valid_sets: u64,
    damaged_sets: u64,
    met: Counts,
    disagreed: Counts,
    areas_empty: u64,
    areas_short: u64,
    areas_exact: u64,
    areas_long: u64,
    runs_bad: u64,
    runs_good: u64,
    runs_good_in_part: u64,
    reach: Reach,
}

fn row(call: &Call, number: u32) -> usize {
    if call.details.len() == DETAILS_SIZE {
        number as usize
    } else {
        OTHER_DETAILS
    }
}

fn row_name(row: usize) -> String {
    match row {
        OTHER_DETAILS => "17 details".to_string(),
        _ => row.to_string(),
    }
}

impl Tally {
    /// Adds what another one counted.
    pub fn add(&mut self, other: &Tally) {
        self.valid_sets += other.valid_sets;
        self.damaged_sets += other.damaged_sets;
        add_counts(&mut self.met, &other.met);
        add_counts(&mut self.disagreed, &other.disagreed);
        self.areas_empty += other.areas_empty;
        self.areas_short += other.areas_short;
        self.areas_exact += other.areas_exact;
        self.areas_long += other.areas_long;
        self.runs_bad += other.runs_bad;
        self.runs_good += other.runs_good;
        self.runs_good_in_part += other.runs_good_in_part;
        self.reach.add(&other.reach);
    }

    pub fn count_set(&mut self, damaged: bool) {
        self.damaged_sets += u64::from(damaged);
        self.valid_sets += u64::from(!damaged);
    }

    /// One compared call, with the answer that the plain program gave.
    pub fn count(&mut self, asked: &Asked, answer: &Answer, agreed: bool) {
        let (call, row) = (&asked.call, row(&asked.call, answer.number));
        self.met[call.job as usize][row] += 1;
        self.disagreed[call.job as usize][row] += u64::from(!agreed);
        self.count_output(call, asked.needed);
        if row != OTHER_DETAILS {
            let details = answer.detail_numbers();
            let (circuit, slot) = (details[0], details[2]);
            self.reach.count(&Seen { job: call.job, circuits: asked.circuits, number: answer.number, circuit, slot });
        }
    }

    /// The output area of one call; `needed` are the bytes that its output takes up.
    fn count_output(&mut self, call: &Call, needed: Option<usize>) {
        let Some(needed) = needed else {
            return;
        };
        let counter = match call.output.len() {
            0 => &mut self.areas_empty,
            size if size < needed => &mut self.areas_short,
            size if size == needed => &mut self.areas_exact,
            _ => &mut self.areas_long,
        };
        *counter += 1;
    }

    /// One walked run of demand 3.
    pub fn count_run(&mut self, judgement: &Judgement) {
        let counter = match (judgement.run_is_good(), judgement.lines_serve_whole) {
            (false, _) => &mut self.runs_bad,
            (true, true) => &mut self.runs_good,
            (true, false) => &mut self.runs_good_in_part,
        };
        *counter += 1;
    }

    pub fn print(&self) {
        self.print_numbers();
        let cases: u64 = self.met.iter().flatten().sum();
        println!("cases {cases}; files {}", 3 * (self.valid_sets + self.damaged_sets));
        println!("sets of three files: valid {}, damaged {}", self.valid_sets, self.damaged_sets);
        println!(
            "output areas long {}, exact {}, short {}, empty {}",
            self.areas_long, self.areas_exact, self.areas_short, self.areas_empty
        );
        println!(
            "runs of demand 3 walked: good {}, good but for lines that serve a series in part {}, bad {}",
            self.runs_good, self.runs_good_in_part, self.runs_bad
        );
        self.reach.print();
    }

    pub fn print_failed(&self) {
        names(&self.checks(), State::Bad).iter().for_each(|name| println!("failed: {name}"));
    }

    pub fn print_missed(&self) {
        names(&self.checks(), State::Missed).iter().for_each(|name| println!("not reached: {name}"));
    }

    /// How often each number was met, in all and by each call; a dash where a call cannot give it.
    fn print_numbers(&self) {
        print!("number          all");
        Job::ALL.iter().for_each(|job| print!(" {:>16}", job.name()));
        println!();
        for row in 0..ROWS {
            print!("{:>10} {:>8}", row_name(row), self.met.iter().map(|of_job| of_job[row]).sum::<u64>());
            Job::ALL.iter().for_each(|&job| print!(" {:>16}", self.cell(job, row)));
            println!();
        }
    }

    fn cell(&self, job: Job, row: usize) -> String {
        match self.met[job as usize][row] {
            0 if !can_be_met(job, row) => "-".to_string(),
            met => met.to_string(),
        }
    }

    /// By name, what should be so: each job gave each number that it can give and no other, with no answer that differed, and full size was
    /// reached.
    fn checks(&self) -> Vec<Check> {
        let mut checks = Vec::new();
        for job in Job::ALL {
            for row in 0..ROWS {
                let state = match (can_be_met(job, row), self.met[job as usize][row], self.disagreed[job as usize][row]) {
                    (false, 0, _) => continue,
                    (true, 0, _) => State::Missed,
                    (true, _, 0) => State::Good,
                    _ => State::Bad,
                };
                checks.push(Check { name: format!("{} {}", job.name(), row_name(row)), state });
            }
        }
        checks.extend(self.reach.checks());
        checks
    }

    /// What was not reached counts as failed where all must be reached, and not at all else.
    pub fn passed_and_failed(&self, must_reach_all: bool) -> (usize, usize) {
        let checks = self.checks();
        let [good, missed, bad] = [State::Good, State::Missed, State::Bad].map(|state| names(&checks, state).len());
        (good, if must_reach_all { missed + bad } else { bad })
    }
}

fn add_counts(to: &mut Counts, from: &Counts) {
    to.iter_mut().flatten().zip(from.iter().flatten()).for_each(|(to, from)| *to += from);
}

fn can_be_met(job: Job, row: usize) -> bool {
    row == OTHER_DETAILS || job.can_give(row as u32)
}

#[cfg(test)]
mod tests {
    use super::*;

    fn count(tally: &mut Tally, job: Job, number: u32, details_size: usize, agreed: bool) {
        let details = vec![0; details_size];
        let call = Call { job, request: &[], assignment: &[], table: &[], budget: 0, output: Vec::new(), details: details.clone() };
        let answer = Answer { number, output: Vec::new(), details, stayed_inside: true };
        tally.count(&Asked { call, needed: None, circuits: 0 }, &answer, agreed);
    }

    /// Every job met each number that it can give, but for one number of one job.
    fn all_but(left_out: Option<(Job, u32)>) -> Tally {
        let mut tally = Tally::default();
        for job in Job::ALL {
            let numbers = (0..number::HOW_MANY as u32).filter(|&number| job.can_give(number) && left_out != Some((job, number)));
            numbers.for_each(|number| count(&mut tally, job, number, DETAILS_SIZE, true));
            count(&mut tally, job, number::TOO_SHORT, 0, true);
        }
        tally
    }

    /// The names of what failed where all must be reached, without the marks of full size.
    fn failed(tally: &Tally) -> Vec<String> {
        let marks = tally.reach.checks().len();
        let checks = tally.checks();
        let cells = &checks[..checks.len() - marks];
        [names(cells, State::Missed), names(cells, State::Bad)].concat()
    }

    #[test]
    fn each_number_is_wanted_of_each_job_that_can_give_it() {
        assert!(failed(&all_but(None)).is_empty());
        assert_eq!(failed(&all_but(Some((Job::MakeTables, number::CLASH)))), ["make_tables 12"]);
        assert_eq!(failed(&all_but(Some((Job::Read, number::AFTER_END)))), ["read 7"]);
    }

    #[test]
    fn no_job_may_give_a_number_that_it_cannot_give() {
        let mut tally = all_but(None);
        count(&mut tally, Job::Read, number::OFFSETS, DETAILS_SIZE, true);
        assert_eq!(failed(&tally), ["read 8"]);
    }

    #[test]
    fn one_answer_that_differs_fails_its_number() {
        let mut tally = all_but(None);
        count(&mut tally, Job::Allocate, number::NO_ROOM, DETAILS_SIZE, false);
        assert_eq!(failed(&tally), ["allocate 10"]);
    }

    #[test]
    fn details_of_another_length_are_no_short_output_area() {
        let mut tally = all_but(Some((Job::Allocate, number::TOO_SHORT)));
        count(&mut tally, Job::Allocate, number::TOO_SHORT, 15, true);
        assert_eq!(failed(&tally), ["allocate 17"]);
        count(&mut tally, Job::Allocate, number::TOO_SHORT, DETAILS_SIZE, true);
        assert!(failed(&tally).is_empty());
        assert_eq!(tally.met[Job::Allocate as usize][OTHER_DETAILS], 2);
    }

    #[test]
    fn full_size_must_be_reached_where_all_must_be() {
        let (passed, failed) = all_but(None).passed_and_failed(true);
        assert_eq!(failed, Reach::default().checks().len());
        assert_eq!(all_but(None).passed_and_failed(false), (passed, 0));
    }

    #[test]
    fn a_difference_fails_whether_all_must_be_reached_or_not() {
        let mut tally = Tally::default();
        count(&mut tally, Job::Read, number::DONE, DETAILS_SIZE, true);
        count(&mut tally, Job::Read, number::CUT, DETAILS_SIZE, false);
        assert_eq!(tally.passed_and_failed(false), (1, 1));
        assert!(tally.passed_and_failed(true).1 > 1);
    }

    #[test]
    fn two_tallies_add_up_to_one() {
        let mut tally = all_but(Some((Job::Read, number::DONE)));
        let mut other = Tally::default();
        count(&mut other, Job::Read, number::DONE, DETAILS_SIZE, true);
        count(&mut other, Job::Allocate, number::DONE, DETAILS_SIZE, false);
        other.count_set(true);
        tally.add(&other);
        assert_eq!(failed(&tally), ["allocate 0"]);
        assert_eq!((tally.met[Job::Allocate as usize][0], tally.damaged_sets, tally.valid_sets), (2, 1, 0));
    }
}
