//! `compare [--seed N] [--files N] [--case K] [--through PROGRAM WORDS..]`: compares the five jobs of the proved library with an independent
//! program on random files, after the pairs of pairs.rs. Assumes the library as library.rs does. The last line is 'N passed, M failed'; the
//! exit status is 0 where M is 0, 1 where it is not, and 2 where nothing could be compared.
use compare::comparison;
use compare::library::Library;
use std::env;
use std::ffi::OsString;
use std::process::ExitCode;

const USAGE: &str = "usage: compare [--seed N] [--files N] [--case K] [--through PROGRAM WORDS..]
  --seed N      the seed of the random files; 1 if not given
  --files N     how many sets of three files are drawn; 70000 if not given
  --case K      looks at one set only, by its index, and prints each answer
  --through ..  asks a program that speaks frames and not the archive that is linked in; all words behind it are its command line";

#[derive(Debug, PartialEq)]
struct Options {
    seed: u64,
    /// How many sets of three files are drawn.
    files: u64,
    /// The only set to look at, by its index.
    case: Option<u64>,
    /// The command line of a program that speaks frames.
    through: Option<Vec<OsString>>,
}

fn main() -> ExitCode {
    match options(env::args_os().skip(1)).and_then(run) {
        Ok(true) => ExitCode::SUCCESS,
        Ok(false) => ExitCode::FAILURE,
        Err(reason) => {
            eprintln!("{reason}");
            ExitCode::from(2)
        }
    }
}

/// True where all agreed, or where only the usage was asked for.
fn run(options: Option<Options>) -> Result<bool, String> {
    let Some(options) = options else {
        println!("{USAGE}");
        return Ok(true);
    };
    let library = options.through.map_or(Ok(Library::Linked), Library::through)?;
    match options.case {
        Some(index) => comparison::compare_one(library, options.seed, index),
        None => comparison::compare(library, options.seed, options.files),
    }
}

/// What the words ask for; nothing where it is the usage.
fn options(mut words: impl Iterator<Item = OsString>) -> Result<Option<Options>, String> {
    let mut options = Options { seed: 1, files: 70_000, case: None, through: None };
    while let Some(word) = words.next() {
        match word.to_str() {
            Some("--help") => return Ok(None),
            Some("--seed") => options.seed = number("--seed", words.next())?,
            Some("--files") => options.files = number("--files", words.next())?,
            Some("--case") => options.case = Some(number("--case", words.next())?),
            Some("--through") => options.through = Some(words.by_ref().collect()),
            _ => return Err(format!("'{}' is not known here\n{USAGE}", word.to_string_lossy())),
        }
    }
    Ok(Some(options))
}

fn number(name: &str, word: Option<OsString>) -> Result<u64, String> {
    let number = word.as_ref().and_then(|word| word.to_str()).and_then(|word| word.parse().ok());
    number.ok_or(format!("{name} wants a whole number from 0 to {}\n{USAGE}", u64::MAX))
}

#[cfg(test)]
mod tests {
    use super::*;

    fn given(words: &str) -> Result<Option<Options>, String> {
        options(words.split_whitespace().map(OsString::from))
    }

    #[test]
    fn without_words_the_linked_library_is_compared_in_full() {
        assert_eq!(given(""), Ok(Some(Options { seed: 1, files: 70_000, case: None, through: None })));
    }

    #[test]
    fn all_words_behind_through_are_its_own() {
        let through = Some(["emulator", "--seed", "program"].map(OsString::from).to_vec());
        let wanted = Options { seed: 7, files: 10, case: Some(3), through };
        assert_eq!(given("--files 10 --case 3 --seed 7 --through emulator --seed program"), Ok(Some(wanted)));
    }

    #[test]
    fn other_words_are_refused_with_the_usage() {
        for words in ["compare", "--seed", "--seed one", "--files -1", "--case 1 2", "--Help"] {
            assert!(given(words).is_err_and(|reason| reason.ends_with(USAGE)), "{words}");
        }
        assert_eq!(given("--help"), Ok(None));
    }
}
