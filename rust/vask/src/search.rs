//! A search with a line on the terminal that says how far it is, where it takes longer than a second. Assumes that the library is asked with
//! a small budget first: a larger one never changes an answer other than "unfinished".
use std::io::{self, IsTerminal, Write};
use std::sync::mpsc::{channel, Receiver, RecvTimeoutError};
use std::thread;
use std::time::{Duration, Instant};
use vaskunoor::{allocate, Allocated, Refusal};

/// The visits of the first try, some milliseconds.
const FIRST_VISITS: u32 = 2_000_000;
const SECOND: Duration = Duration::from_secs(1);

pub fn search(request: &[u8], budget: u32) -> Result<Allocated, Refusal> {
    if budget <= FIRST_VISITS {
        return allocate(request, budget);
    }
    let start = Instant::now();
    let first = allocate(request, FIRST_VISITS);
    if !matches!(first, Err(Refusal::Unfinished { .. })) {
        return first;
    }
    let whole = start.elapsed().mul_f64(f64::from(budget) / f64::from(FIRST_VISITS));
    if !io::stderr().is_terminal() {
        return allocate(request, budget);
    }
    let (end, ended) = channel();
    let teller = thread::spawn(move || tell(&ended, start, whole, budget));
    let found = allocate(request, budget);
    drop(end);
    let _ = teller.join();
    found
}

/// Says every second how long it has been, until the other end is gone; then wipes the line.
fn tell(ended: &Receiver<()>, start: Instant, whole: Duration, budget: u32) {
    let mut told = false;
    while ended.recv_timeout(SECOND) == Err(RecvTimeoutError::Timeout) {
        told = true;
        let line = progress(start.elapsed(), whole, budget);
        let _ = write!(io::stderr(), "\r{line}\x1b[K");
    }
    if told {
        let _ = write!(io::stderr(), "\r\x1b[K");
    }
}

fn progress(gone: Duration, whole: Duration, budget: u32) -> String {
    let share = (100.0 * gone.as_secs_f64() / whole.as_secs_f64().max(0.001)).min(99.0);
    format!(
        "searching for {} s: about {share:.0} % of a budget of {budget} visits, {} s at most or so",
        gone.as_secs(),
        whole.as_secs().max(gone.as_secs()) + 1
    )
}

#[cfg(test)]
mod tests {
    use super::*;

    #[test]
    fn progress_never_says_that_it_is_over() {
        let line = progress(Duration::from_secs(30), Duration::from_secs(10), u32::MAX);
        assert_eq!(line, "searching for 30 s: about 99 % of a budget of 4294967295 visits, 31 s at most or so");
    }

    #[test]
    fn both_tries_answer_as_one() {
        let request = [10, 0, 1, 0, 3, 0, 3, 0, 0, 1, 1, 2, 2, 1, 8, 0, 2, 0, 4, 1, 2, 0, 0, 0, 1, 0, 0, 0, 5, 0];
        assert_eq!(search(&request, u32::MAX), allocate(request, u32::MAX));
        assert_eq!(search(&request, 1), allocate(request, 1));
    }
}
