//! Which circuits have no room: a set that alone has none, and from which none can be left out. Found by leaving circuits out and asking the
//! library each time. Assumes that the request reads and has no room.
use super::{listed, plain, Explanation};
use crate::json::Json;
use std::time::{Duration, Instant};
use vaskunoor::{allocate, Refusal, Request};

/// The visits of one try: some tenths of a second at most.
const TRY_VISITS: u32 = 50_000_000;
/// The visits of one try of a pair, of which there may be hundreds.
const PAIR_VISITS: u32 = 200_000;

/// Circuits that have no room.
struct Crowd {
    circuits: Vec<usize>,
    /// Those of which it is not known whether they can be left out.
    unsettled: Vec<usize>,
    tries: usize,
}

pub fn explain(refusal: &Refusal, request: &Request, time: Duration) -> Explanation {
    let mut explanation = plain(refusal);
    let crowd = Search { request, tries: 0, until: Instant::now() + time }.smallest();
    let circuits = listed(&crowd.circuits);
    explanation.add(match (crowd.circuits.len() < request.circuits().len(), crowd.unsettled.is_empty()) {
        (true, true) => format!("circuits {circuits} alone have no room; leave any one of them out, and the rest of them have"),
        (false, true) => "that takes all of its circuits: leave any one of them out, and the rest have room".to_string(),
        (_, false) => format!("circuits {circuits} have no room; whether {} can be left out was not settled", listed(&crowd.unsettled)),
    });
    let tries = if crowd.tries == 1 { "1 try".to_string() } else { format!("{} tries", crowd.tries) };
    explanation.add(format!("(found by leaving circuits out, in {tries}; the time for that is {} s)", time.as_secs()));
    explanation.add("to mend it, lower a demand, choose cycles with a larger common divisor, or lead a path elsewhere");
    explanation.fact("circuits", Json::from_iter(crowd.circuits));
    explanation.fact("unsettled", Json::from_iter(crowd.unsettled));
    explanation
}

struct Search<'a> {
    request: &'a Request,
    tries: usize,
    until: Instant,
}

impl Search<'_> {
    /// Two circuits that have no room, else all of them with as many left out as can be.
    fn smallest(mut self) -> Crowd {
        let many = self.request.circuits().len();
        let pairs = (0..many).flat_map(|higher| (0..higher).map(move |lower| [lower, higher]));
        if let Some(pair) = pairs.into_iter().find(|pair| self.has_room(pair, PAIR_VISITS) == Some(false)) {
            return Crowd { circuits: pair.to_vec(), unsettled: Vec::new(), tries: self.tries };
        }
        self.leave_out((0..many).collect())
    }

    /// Circuits are left out one by one. One that was needed among more is needed among fewer, so only those that were not settled are
    /// tried again, as long as something was left out since.
    fn leave_out(mut self, mut circuits: Vec<usize>) -> Crowd {
        let mut unsettled = circuits.clone();
        loop {
            let before = circuits.len();
            let mut still = Vec::new();
            for &circuit in &unsettled {
                let others: Vec<usize> = circuits.iter().copied().filter(|&other| other != circuit).collect();
                match self.has_room(&others, TRY_VISITS) {
                    Some(false) => circuits = others,
                    Some(true) => {}
                    None => still.push(circuit),
                }
            }
            unsettled = still;
            if unsettled.is_empty() || circuits.len() == before {
                return Crowd { circuits, unsettled, tries: self.tries };
            }
        }
    }

    /// Whether these circuits alone have room; nothing where that is not settled.
    fn has_room(&mut self, circuits: &[usize], visits: u32) -> Option<bool> {
        if Instant::now() >= self.until {
            return None;
        }
        self.tries += 1;
        let chosen = circuits.iter().filter_map(|&number| self.request.circuits().get(number).cloned());
        let part = Request::new(self.request.network().clone(), chosen).ok()?;
        match allocate(&part, visits) {
            Ok(_) => Some(true),
            Err(Refusal::NoRoom { .. }) => Some(false),
            Err(_) => None,
        }
    }
}

#[cfg(test)]
mod tests {
    use super::*;
    use vaskunoor::{Circuit, Network};

    /// A row of buffers, and circuits (cycle, demand, buffer) of one hop.
    fn one_hop(circuits: &[(usize, usize, usize)]) -> Request {
        let network = Network::new(8, (0..7).map(|router| (router, router + 1))).unwrap();
        let circuits = circuits.iter().map(|&(cycle, demand, buffer)| Circuit::new(cycle, demand, [buffer]).unwrap());
        Request::new(network, circuits).unwrap()
    }

    fn crowd(request: &Request, time: Duration) -> Crowd {
        assert!(matches!(allocate(request, u32::MAX), Err(Refusal::NoRoom { .. })));
        Search { request, tries: 0, until: Instant::now() + time }.smallest()
    }

    #[test]
    fn a_pair_is_found() {
        let request = one_hop(&[(4, 1, 0), (3, 1, 1), (4, 1, 2), (4, 1, 1)]);
        assert_eq!(crowd(&request, Duration::from_secs(5)).circuits, [1, 3]);
    }

    #[test]
    fn three_of_five_are_found_and_none_can_be_left_out() {
        let request = one_hop(&[(4, 2, 0), (4, 1, 3), (4, 1, 0), (4, 1, 5), (4, 2, 0)]);
        let crowd = crowd(&request, Duration::from_secs(5));
        assert_eq!((crowd.circuits, crowd.unsettled), (vec![0, 2, 4], vec![]));
    }

    #[test]
    fn without_time_nothing_is_settled() {
        let crowd = crowd(&one_hop(&[(4, 2, 0), (4, 1, 0), (4, 2, 0)]), Duration::ZERO);
        assert_eq!((crowd.circuits, crowd.unsettled, crowd.tries), (vec![0, 1, 2], vec![0, 1, 2], 0));
    }
}
