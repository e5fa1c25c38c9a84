//! The words of the command line. Assumes nothing.
use crate::help::{self, Entry};
use std::ffi::{OsStr, OsString};

/// The budget of a search where none is given.
const BUDGET: u32 = 1_000_000;

/// What is asked for. Files are names, or `-`.
#[derive(Debug, PartialEq)]
pub enum Action {
    Help(String),
    Version,
    Show(OsString),
    Do(Job),
}

/// A job of the library on files.
#[derive(Debug, PartialEq)]
pub enum Job {
    Read { request: OsString },
    Allocate { request: OsString, assignment: OsString, budget: u32 },
    Check { request: OsString, assignment: OsString },
    Make { request: OsString, assignment: OsString, table: OsString },
    Verify { request: OsString, assignment: OsString, table: OsString },
}

#[derive(Debug, PartialEq)]
pub struct Parsed {
    pub json: bool,
    pub action: Result<Action, String>,
}

pub fn parse(words: impl Iterator<Item = OsString>) -> Parsed {
    let (mut json, mut help, mut version, mut plain) = (false, false, false, false);
    let mut wrong = None;
    let mut names: Vec<OsString> = Vec::new();
    for word in words {
        match word.to_str() {
            _ if plain => names.push(word),
            Some("--") => plain = true,
            Some("--json") => json = true,
            Some("--help" | "-h") => help = true,
            Some("--version" | "-V") => version = true,
            Some(option) if option.len() > 1 && option.starts_with('-') => wrong = wrong.or(Some(unknown(option, names.first()))),
            _ => names.push(word),
        }
    }
    let action = match wrong {
        _ if help => Ok(Action::Help(help_text(names.first()))),
        _ if version => Ok(Action::Version),
        Some(message) => Err(message),
        None => action(names),
    };
    Parsed { json, action }
}

fn named(word: Option<&OsString>) -> Option<&'static Entry> {
    word.and_then(|word| word.to_str()).and_then(help::job)
}

fn help_text(word: Option<&OsString>) -> String {
    named(word).map_or_else(help::whole, help::of_job)
}

fn unknown(option: &str, job: Option<&OsString>) -> String {
    format!("there is no option {option}{}", see(named(job)))
}

fn see(job: Option<&Entry>) -> String {
    match job {
        Some(job) => format!("; `vask {} --help` says more", job.name),
        None => "; `vask --help` says more".to_string(),
    }
}

fn action(mut names: Vec<OsString>) -> Result<Action, String> {
    if names.is_empty() {
        return Err(help::whole());
    }
    let word = names.remove(0);
    if word == OsStr::new("help") {
        return Ok(Action::Help(help_text(names.first())));
    }
    let Some(job) = named(Some(&word)) else {
        return Err(format!("there is no job {}{}", word.to_string_lossy(), see(None)));
    };
    let mut files = names.into_iter();
    let words = [files.next(), files.next(), files.next(), files.next()];
    of_job(job, words).unwrap_or_else(|| Err(format!("{} takes {}{}", job.name, job.words, see(Some(job)))))
}

/// The action of a job with these words; nothing where they are too few or too many.
fn of_job(job: &Entry, words: [Option<OsString>; 4]) -> Option<Result<Action, String>> {
    let job = match (job.name, words) {
        ("show", [Some(file), None, None, None]) => return Some(Ok(Action::Show(file))),
        ("read", [Some(request), None, None, None]) => Job::Read { request },
        ("allocate", [Some(request), Some(assignment), budget, None]) => match budget.map_or(Ok(BUDGET), |word| budget_of(&word)) {
            Ok(budget) => Job::Allocate { request, assignment, budget },
            Err(message) => return Some(Err(message)),
        },
        ("check", [Some(request), Some(assignment), None, None]) => Job::Check { request, assignment },
        ("make", [Some(request), Some(assignment), Some(table), None]) => Job::Make { request, assignment, table },
        ("verify", [Some(request), Some(assignment), Some(table), None]) => Job::Verify { request, assignment, table },
        _ => return None,
    };
    Some(Ok(Action::Do(job)))
}

fn budget_of(word: &OsStr) -> Result<u32, String> {
    let digits = word.to_str().filter(|text| text.bytes().all(|byte| byte.is_ascii_digit()));
    let budget = digits.and_then(|digits| digits.parse().ok());
    budget.ok_or_else(|| format!("the budget {} is not a number from 0 to {}", word.to_string_lossy(), u32::MAX))
}

#[cfg(test)]
mod tests {
    use super::*;

    fn parsed(line: &str) -> Parsed {
        parse(line.split_whitespace().map(OsString::from))
    }

    fn wrong(line: &str) -> String {
        parsed(line).action.expect_err(line)
    }

    #[test]
    fn jobs_take_their_files() {
        let check = Job::Check { request: "r".into(), assignment: "a".into() };
        assert_eq!(parsed("check r a"), Parsed { json: false, action: Ok(Action::Do(check)) });
        let allocate = |budget| Ok(Action::Do(Job::Allocate { request: "r".into(), assignment: "-".into(), budget }));
        assert_eq!(parsed("allocate r -").action, allocate(BUDGET));
        assert_eq!(parsed("allocate r - 4294967295").action, allocate(u32::MAX));
        assert_eq!(parsed("show -- --help").action, Ok(Action::Show("--help".into())));
        assert!(parsed("--json read r").json && parsed("read r --json").json);
    }

    #[test]
    fn help_is_never_a_file() {
        for line in ["--help", "help", "allocate r --help", "--help allocate", "help allocate", "allocate -h", "verify --help --nothing"] {
            assert!(matches!(parsed(line).action, Ok(Action::Help(_))), "{line}");
        }
        assert_eq!(parsed("--version").action, Ok(Action::Version));
    }

    #[test]
    fn what_is_wrong_is_said() {
        assert!(wrong("").starts_with("usage: vask JOB"));
        assert_eq!(wrong("book r"), "there is no job book; `vask --help` says more");
        assert_eq!(wrong("read"), "read takes REQUEST; `vask read --help` says more");
        assert_eq!(wrong("verify r a"), "verify takes REQUEST ASSIGNMENT TABLE; `vask verify --help` says more");
        assert_eq!(wrong("read r a b c d"), "read takes REQUEST; `vask read --help` says more");
        assert_eq!(wrong("read r --fast"), "there is no option --fast; `vask read --help` says more");
        for budget in ["4294967296", "10x", "+1", "1.5"] {
            let message = format!("the budget {budget} is not a number from 0 to 4294967295");
            assert_eq!(wrong(&format!("allocate r a {budget}")), message);
        }
        assert_eq!(wrong("allocate r a -1"), "there is no option -1; `vask allocate --help` says more");
    }
}
