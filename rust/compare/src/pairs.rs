//! Every pair of offsets of cycles 31 and 32, on a net where the two circuits share one buffer and part behind it. Assumes nothing: the
//! cycles have no common divisor, so every pair clashes, and no two pairs in the same slot below 992.
use crate::draw::FileSet;
use crate::model::{assignment_file, request_file, table_file, Request};
use crate::named::{circuit, network};
use crate::plain::needed_lines;

/// The slots before the two cycles come round together.
pub const SLOTS: u32 = 992;

/// They come to router 2 by ways of two hops and of one, share the buffer to router 3, and go on to routers 4 and 6.
fn crossing() -> Request {
    let links = [(0, 1), (1, 2), (2, 3), (3, 4), (5, 2), (3, 6)];
    Request { network: network(7, &links), circuits: vec![circuit(31, 1, &[0, 1, 2, 3]), circuit(32, 1, &[4, 2, 5])] }
}

/// For each pair the request, the two offsets and their own lines.
pub fn file_sets() -> impl Iterator<Item = FileSet> {
    let request = crossing();
    let [first, second] = [0, 1].map(|which: usize| request.circuits[which].cycle);
    let pairs = (0..first).flat_map(move |one| (0..second).map(move |other| vec![vec![one], vec![other]]));
    pairs.map(move |assignment| FileSet {
        request: request_file(&request),
        table: table_file(&needed_lines(&request, &assignment)),
        assignment: assignment_file(&assignment),
        damaged: false,
        visits_most: 0,
    })
}

#[cfg(test)]
mod tests {
    use super::*;
    use crate::number;
    use crate::plain::check_assignment;

    #[test]
    fn every_slot_below_992_has_one_pair() {
        let clash = |files: FileSet| {
            let told = check_assignment(&files.request, &files.assignment);
            assert_eq!((told.number, told.details[0], told.details[1], told.details[3]), (number::CLASH, 0, 1, 2));
            told.details[2]
        };
        let mut slots: Vec<u32> = file_sets().map(clash).collect();
        slots.sort();
        assert_eq!(slots, Vec::from_iter(0..SLOTS));
    }
}
