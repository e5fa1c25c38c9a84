//! The comparison: draws files, asks the library and the plain program, and stops at the first answer that differs, which it shrinks.
//! Assumes that a seed and the index of a set of files give the same calls again.
use crate::call::{Answer, Call, Job, DETAILS_SIZE};
use crate::draw::calls::{checks, draw_calls, Asked};
use crate::draw::file_set;
use crate::library::Library;
use crate::number;
use crate::pairs;
use crate::plain::{self, Judgement};
use crate::random::Random;
use crate::show::print_call;
use crate::shrink::{shrink, Files};
use crate::tally::Tally;
use crate::tried;
use std::sync::atomic::{AtomicU64, Ordering};
use std::thread;

/// From so many sets of files on every job must give each number that it can give, and full size must be reached.
const SETS_THAT_REACH_ALL: u64 = 30_000;

/// Compares the worked cases where the library is not linked in, then every pair of offsets of two long cycles and then sets of files, until
/// one disagrees; true where none did, and all was reached that so many sets must reach.
pub fn compare(library: Library, seed: u64, sets: u64) -> Result<bool, String> {
    println!("seed {seed}, {sets} sets of random files, the library {library}");
    let mut comparison = Comparison { library, tally: Tally::default(), tell: Tell::Difference };
    let (tried_passed, tried_failed) = comparison.worked_cases();
    let agreed = comparison.pairs_agree().is_ok() && comparison.sets_agree(seed, sets)?;
    comparison.tally.print();
    let must_reach_all = agreed && sets >= SETS_THAT_REACH_ALL;
    println!("{}", rule(agreed, must_reach_all));
    comparison.tally.print_failed();
    if agreed {
        comparison.tally.print_missed();
    }
    let (passed, failed) = comparison.tally.passed_and_failed(must_reach_all);
    Ok(finish(tried_passed + passed, tried_failed + failed))
}

/// Which numbers and marks count as failed.
fn rule(agreed: bool, must_reach_all: bool) -> String {
    match (agreed, must_reach_all) {
        (false, _) => "it ended at the first difference, so what was not reached does not count".to_string(),
        (true, true) => format!("with {SETS_THAT_REACH_ALL} sets or more, what was not reached counts as failed"),
        (true, false) => format!("with fewer than {SETS_THAT_REACH_ALL} sets, what was not reached does not count"),
    }
}

/// Compares one set of files and prints each answer.
pub fn compare_one(library: Library, seed: u64, index: u64) -> Result<bool, String> {
    println!("seed {seed}, case {index}, the library {library}");
    let mut comparison = Comparison { library, tally: Tally::default(), tell: Tell::All };
    let agreed = comparison.set_agrees(seed, index).is_ok();
    Ok(finish(usize::from(agreed), usize::from(!agreed)))
}

fn finish(passed: usize, failed: usize) -> bool {
    println!("{passed} passed, {failed} failed");
    failed == 0
}

/// Which answers are printed.
#[derive(PartialEq)]
enum Tell {
    Nothing,
    /// One that differs, shrunk.
    Difference,
    All,
}

/// What does not agree, if anything.
type Agreed = Result<(), String>;

struct Comparison {
    library: Library,
    tally: Tally,
    tell: Tell,
}

impl Comparison {
    /// How many worked cases passed and how many failed; those of a library that is linked in are tests of this crate.
    fn worked_cases(&mut self) -> (usize, usize) {
        match self.library {
            Library::Linked => (0, 0),
            Library::Through(_) => tried::try_all(&mut self.library),
        }
    }

    fn pairs_agree(&mut self) -> Agreed {
        pairs::file_sets().try_for_each(|files| {
            self.tally.count_set(files.damaged);
            checks(&files).iter().try_for_each(|asked| self.agrees(asked))
        })
    }

    /// Each core of the machine takes the next set; shows the first set that differs, if one does.
    fn sets_agree(&mut self, seed: u64, sets: u64) -> Result<bool, String> {
        let cores = thread::available_parallelism().map_or(1, usize::from);
        let libraries = (0..cores).map(|_| self.library.another()).collect::<Result<Vec<Library>, String>>()?;
        let share = Share { seed, sets, next: AtomicU64::new(0), differing: AtomicU64::new(u64::MAX) };
        let done: Vec<Work> = thread::scope(|scope| {
            let workers = Vec::from_iter(libraries.into_iter().map(|library| scope.spawn(|| share.work(library))));
            workers.into_iter().map(|worker| worker.join().expect("a worker ends by itself")).collect()
        });
        done.iter().for_each(|work| self.tally.add(&work.tally));
        let Some((index, reason)) = done.into_iter().filter_map(|work| work.difference).min() else {
            return Ok(true);
        };
        println!("seed {seed}, case {index}: {reason}");
        let mut again = Comparison { library: self.library.another()?, tally: Tally::default(), tell: Tell::Difference };
        if again.set_agrees(seed, index).is_ok() {
            println!("asked again, it agrees");
        }
        Ok(false)
    }

    fn set_agrees(&mut self, seed: u64, index: u64) -> Agreed {
        let mut random = Random::new(seed, index);
        let files = file_set(&mut random);
        self.tally.count_set(files.damaged);
        let agreed = draw_calls(&mut random, &files).iter().try_for_each(|asked| self.agrees(asked));
        if agreed.is_err() && self.tell != Tell::Nothing {
            println!("again, before it was shrunk: compare --seed {seed} --case {index}{}", self.library.words());
        }
        agreed
    }

    fn agrees(&mut self, asked: &Asked) -> Agreed {
        let both = Both::to(&asked.call, &mut self.library);
        if let Some(run) = &both.run {
            self.tally.count_run(run);
        }
        let agreed = both.agreed();
        self.tally.count(asked, &both.plain, agreed.is_ok());
        if self.tell == Tell::All {
            print_call(&asked.call, &both.plain, &both.proved);
        }
        if agreed.is_err() && self.tell != Tell::Nothing {
            self.print_difference(&asked.call, &both);
        }
        agreed
    }

    /// Prints the call with the smallest files that were found on which the two sides still do not agree; as it is where the library gave no
    /// answer, since it may not give one any more.
    fn print_difference(&mut self, call: &Call, both: &Both) {
        if both.proved.is_err() {
            return print_call(call, &both.plain, &both.proved);
        }
        let files = [call.request, call.assignment, call.table].map(<[u8]>::to_vec);
        let small = shrink(&files, &mut |files| Both::to(&with_files(call, files), &mut self.library).agreed().is_err());
        let call = with_files(call, &small);
        let both = Both::to(&call, &mut self.library);
        println!("shrunk from {} bytes to {}:", files.concat().len(), small.concat().len());
        print_call(&call, &both.plain, &both.proved);
        println!("{}", both.agreed().err().unwrap_or("the library does not answer twice alike".to_string()));
    }
}

/// What the workers of a comparison share.
struct Share {
    seed: u64,
    sets: u64,
    /// The next set that no worker has taken.
    next: AtomicU64,
    /// The first set that differs, as far as is known.
    differing: AtomicU64,
}

/// What one worker did.
struct Work {
    tally: Tally,
    /// The first set of its own that differed, and how.
    difference: Option<(u64, String)>,
}

impl Share {
    /// Compares sets until there are none left, or one before the next differs.
    fn work(&self, library: Library) -> Work {
        let mut comparison = Comparison { library, tally: Tally::default(), tell: Tell::Nothing };
        let mut difference = None;
        while difference.is_none() {
            let index = self.next.fetch_add(1, Ordering::Relaxed);
            if index >= self.sets || index > self.differing.load(Ordering::Relaxed) {
                break;
            }
            if let Err(reason) = comparison.set_agrees(self.seed, index) {
                self.differing.fetch_min(index, Ordering::Relaxed);
                difference = Some((index, reason));
            }
        }
        Work { tally: comparison.tally, difference }
    }
}

fn with_files<'a>(call: &Call, [request, assignment, table]: &'a Files) -> Call<'a> {
    let (output, details) = (call.output.clone(), call.details.clone());
    Call { job: call.job, request, assignment, table, budget: call.budget, output, details }
}

/// What both sides answer to a call, and the run of demand 3 beside a table check, where it can be walked.
struct Both {
    plain: Answer,
    proved: Result<Answer, String>,
    run: Option<Judgement>,
}

impl Both {
    fn to(call: &Call, library: &mut Library) -> Both {
        let is_told = call.job == Job::CheckTables && call.details.len() == DETAILS_SIZE;
        let run = if is_told { plain::judge_run(call.request, call.assignment, call.table) } else { None };
        Both { plain: call.plain_answer(), proved: library.answer(call), run }
    }

    fn agreed(&self) -> Agreed {
        let proved = self.proved.as_ref().map_err(|reason| format!("no answer: {reason}"))?;
        if *proved != self.plain {
            return Err("the answers differ".to_string());
        }
        match &self.run {
            Some(run) if !fits_judgement(self.plain.number, run) => Err("the number does not fit the run of demand 3".to_string()),
            _ => Ok(()),
        }
    }
}

/// A table is accepted exactly where the run is good and each line serves all of a series or none of it.
fn fits_judgement(told: u32, judgement: &Judgement) -> bool {
    match told {
        number::DONE => judgement.run_is_good() && judgement.lines_serve_whole,
        number::IN_PART => !judgement.lines_serve_whole,
        _ => !judgement.run_is_good(),
    }
}

#[cfg(test)]
mod tests {
    use super::*;

    #[test]
    fn the_linked_library_agrees_on_a_few_sets() {
        assert_eq!(compare(Library::Linked, 1, 200), Ok(true));
        assert_eq!(compare_one(Library::Linked, 1, 0), Ok(true));
    }

    #[test]
    fn a_library_that_gives_no_answer_does_not_agree() {
        let mute = || Library::through(vec!["true".into()]).expect("true is there");
        assert_eq!(compare(mute(), 1, 200), Ok(false));
        assert_eq!(compare_one(mute(), 1, 0), Ok(false));
        let mut silent = Comparison { library: mute(), tally: Tally::default(), tell: Tell::Nothing };
        assert_eq!(silent.sets_agree(1, 200), Ok(false));
        assert_eq!(silent.tally.passed_and_failed(false).0, 0);
    }
}
