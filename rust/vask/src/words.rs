//! A refusal in words that help to mend it: what the files themselves show beside the number and the details. Assumes that the library gave
//! the refusal for these very files; where the files do not show what it says, the library's own words stand alone.
mod clash;
mod damaged;
#[cfg(test)]
mod drawn;
mod room;
mod series;

use crate::json::Json;
use std::time::Duration;
use vaskunoor::{Refusal, Request};

/// The files of a job as bytes; those that a job does not have are empty.
#[derive(Clone, Copy, Default)]
pub struct Files<'a> {
    /// The request.
    pub request: &'a [u8],
    /// The assignment.
    pub assignment: &'a [u8],
    /// The table.
    pub table: &'a [u8],
}

/// Lines for people, and the same facts by name for other tools.
#[derive(Clone, Debug, Default)]
pub struct Explanation {
    /// The lines, the first of which says what the refusal is.
    pub lines: Vec<String>,
    pub(crate) facts: Vec<(&'static str, Json)>,
}

impl Explanation {
    fn add(&mut self, line: impl Into<String>) {
        self.lines.push(line.into());
    }

    fn fact(&mut self, name: &'static str, value: impl Into<Json>) {
        self.facts.push((name, value.into()));
    }
}

/// How long a set of circuits without room is looked for.
pub const ROOM_TIME: Duration = Duration::from_secs(5);

/// What a refusal says, and what the files show of it.
pub fn explain(refusal: &Refusal, files: Files) -> Explanation {
    let known = match *refusal {
        Refusal::Damaged { file, fault, byte } => damaged::explain(file, fault, byte as usize, files),
        Refusal::NoRoom { .. } => Request::read(files.request).ok().map(|request| room::explain(refusal, &request, ROOM_TIME)),
        Refusal::Unfinished { visits } => Some(unfinished(refusal, visits)),
        Refusal::Clash { .. } => clash::explain(refusal, files),
        _ => series::explain(refusal, files),
    };
    known.unwrap_or_else(|| plain(refusal))
}

/// The library's own words alone.
fn plain(refusal: &Refusal) -> Explanation {
    Explanation { lines: vec![refusal.to_string()], facts: Vec::new() }
}

fn unfinished(refusal: &Refusal, budget: u32) -> Explanation {
    let mut explanation = plain(refusal);
    explanation.fact("budget", budget);
    match budget {
        u32::MAX => explanation.add("this is the largest budget; fewer circuits, lower demands or other paths make the search shorter"),
        _ => {
            let larger = budget.max(1).saturating_mul(10);
            explanation.add(format!("give a larger one behind the files, as {larger}; the largest is {}", u32::MAX));
            explanation.fact("larger", larger);
        }
    }
    explanation
}

/// Numbers as words: "0", "0 and 1", "0, 1 and 2".
fn listed<T: ToString>(numbers: &[T]) -> String {
    let words: Vec<String> = numbers.iter().map(T::to_string).collect();
    match words.split_last() {
        Some((last, before)) if !before.is_empty() => format!("{} and {last}", before.join(", ")),
        _ => words.concat(),
    }
}

#[cfg(test)]
mod tests {
    use super::*;

    #[test]
    fn a_larger_budget_is_named_where_there_is_one() {
        let lines = |budget| unfinished(&Refusal::Unfinished { visits: budget }, budget).lines;
        assert_eq!(lines(0)[1], "give a larger one behind the files, as 10; the largest is 4294967295");
        assert_eq!(lines(1_000_000_000)[1], "give a larger one behind the files, as 4294967295; the largest is 4294967295");
        assert!(lines(u32::MAX)[1].starts_with("this is the largest budget"));
    }

    #[test]
    fn numbers_are_listed() {
        assert_eq!([listed(&[1]), listed(&[1, 2]), listed(&[1, 2, 3])], ["1", "1 and 2", "1, 2 and 3"]);
    }
}
