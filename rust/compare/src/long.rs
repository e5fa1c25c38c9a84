//! Files longer than any good one: the library answers about the front that the programs read as about the whole file. Assumes the library
//! as library.rs does.
use crate::call::{Answer, Call, Job, DETAILS_SIZE};
use crate::draw::file_set;
use crate::library::Library;
use crate::model::HEAD_SIZE;
use crate::random::Random;

/// How much of a request, an assignment and a table the programs read.
const FRONTS: [usize; 3] = [4096, 4096, 65536];
const SETS: u64 = 3000;

/// The file with more bytes behind it, or with its own records over and over in place of its end.
fn lengthened(random: &mut Random, file: &[u8], least: usize) -> Vec<u8> {
    let mut long = file.to_vec();
    let more = least + random.below(2000);
    if random.once_in(3) {
        long.extend(random.bytes(more));
        return long;
    }
    long.truncate(file.len().saturating_sub(HEAD_SIZE));
    let records = long.split_off(random.below(long.len() + 1));
    let records = if records.is_empty() { vec![0, 0, 5, 0] } else { records };
    long.extend(records.iter().cycle().take(more));
    long
}

fn answer(library: &mut Library, files: [&[u8]; 3]) -> Answer {
    let [request, assignment, table] = files;
    let details = vec![0; DETAILS_SIZE];
    let answer = library.answer(&Call { job: Job::CheckTables, request, assignment, table, budget: 0, output: Vec::new(), details });
    answer.expect("a library that is linked in answers")
}

#[test]
fn the_front_of_a_long_file_tells_all() {
    let mut library = Library::Linked;
    let mut numbers = std::collections::BTreeSet::new();
    for index in 0..SETS {
        let mut random = Random::new(1, index);
        let set = file_set(&mut random);
        let mut files = [set.request, set.assignment, set.table];
        let which = random.below(files.len());
        files[which] = lengthened(&mut random, &files[which], FRONTS[which]);
        let whole = answer(&mut library, [&files[0], &files[1], &files[2]]);
        let front = |which: usize| &files[which][..files[which].len().min(FRONTS[which])];
        assert!(whole == answer(&mut library, [front(0), front(1), front(2)]), "seed 1, set {index}: the front is answered otherwise");
        numbers.insert(whole.number);
    }
    assert!(numbers.len() > 8, "only these numbers were met: {numbers:?}");
}
