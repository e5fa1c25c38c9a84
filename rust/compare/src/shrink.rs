//! Shrinks files on which something shows to smaller ones on which it still does. Assumes nothing of the files, damaged ones among them.
use crate::model::{CIRCUIT, HEAD_SIZE, LINE, LINE_SIZE, LOCAL, NETWORK, OFFSETS};
use crate::records::{records, set_word, word};

/// The request, the assignment and the table.
pub type Files = [Vec<u8>; 3];

const REQUEST: usize = 0;
const ASSIGNMENT: usize = 1;
const TABLE: usize = 2;

/// Where things stand in a record: the count of buffers and the first pair, the demand, the hops and the path, the in and the out.
const BUFFERS_AT: usize = HEAD_SIZE + 2;
const PAIRS_AT: usize = HEAD_SIZE + 4;
const DEMAND_AT: usize = HEAD_SIZE + 1;
const HOPS_AT: usize = HEAD_SIZE + 2;
const PATH_AT: usize = HEAD_SIZE + 4;
const PORTS_AT: [usize; 2] = [HEAD_SIZE + 4, HEAD_SIZE + 6];

/// Takes circuits away, then links, then offsets, then lines and all other records, over and over until nothing can go.
pub fn shrink(files: &Files, shows: &mut dyn FnMut(&Files) -> bool) -> Files {
    let mut pieces = Pieces::of(files);
    loop {
        let size = pieces.size();
        PARTS.iter().for_each(|part| part.take_away(&mut pieces, shows));
        if pieces.size() == size {
            return pieces.files();
        }
    }
}

/// The records of each file; what stands behind the last whole one is one more piece.
#[derive(Clone)]
struct Pieces([Vec<Vec<u8>>; 3]);

/// Something of which files have several, counted from 0.
struct Part {
    count: fn(&Pieces) -> usize,
    take: fn(&mut Pieces, usize),
}

const PARTS: [Part; 4] = [
    Part { count: |pieces| pieces.places(REQUEST, CIRCUIT).len(), take: take_circuit },
    Part { count: count_links, take: take_link },
    Part { count: count_offsets, take: take_offset },
    Part { count: |pieces| pieces.0.iter().map(Vec::len).sum(), take: take_piece },
];

impl Part {
    /// Takes runs of these away, long ones first and single ones last.
    fn take_away(&self, pieces: &mut Pieces, shows: &mut dyn FnMut(&Files) -> bool) {
        let mut run = (self.count)(pieces);
        while run > 0 {
            let mut start = 0;
            while start < (self.count)(pieces) {
                let end = (self.count)(pieces).min(start + run);
                let mut fewer = pieces.clone();
                (start..end).rev().for_each(|which| (self.take)(&mut fewer, which));
                if fewer.size() < pieces.size() && shows(&fewer.files()) {
                    *pieces = fewer;
                } else {
                    start = end;
                }
            }
            run /= 2;
        }
    }
}

impl Pieces {
    fn of(files: &Files) -> Pieces {
        Pieces(files.each_ref().map(|file| {
            let records = records(file);
            let rest = records.last().map_or(0, |last| last.end)..file.len();
            let pieces = records.into_iter().chain([rest]).filter(|piece| !piece.is_empty());
            pieces.map(|piece| file[piece].to_vec()).collect()
        }))
    }

    fn files(&self) -> Files {
        self.0.each_ref().map(|pieces| pieces.concat())
    }

    fn size(&self) -> usize {
        self.0.iter().flatten().map(Vec::len).sum()
    }

    /// Where the records of this kind stand among the pieces of the file.
    fn places(&self, file: usize, kind: u16) -> Vec<usize> {
        let pieces = &self.0[file];
        (0..pieces.len()).filter(|&at| is_record(&pieces[at], kind)).collect()
    }

    fn network(&self) -> Option<&Vec<u8>> {
        self.0[REQUEST].first().filter(|piece| is_record(piece, NETWORK) && piece.len() >= PAIRS_AT)
    }
}

fn is_record(piece: &[u8], kind: u16) -> bool {
    piece.len() >= HEAD_SIZE && piece.len() == HEAD_SIZE + word(piece, 0) as usize && word(piece, 2) == kind
}

fn correct_length(record: &mut [u8]) {
    set_word(record, 0, (record.len() - HEAD_SIZE) as u16);
}

/// A circuit goes with its offsets.
fn take_circuit(pieces: &mut Pieces, which: usize) {
    for (file, kind) in [(REQUEST, CIRCUIT), (ASSIGNMENT, OFFSETS)] {
        if let Some(&at) = pieces.places(file, kind).get(which) {
            pieces.0[file].remove(at);
        }
    }
}

fn count_links(pieces: &Pieces) -> usize {
    pieces.network().map_or(0, |network| (network.len() - PAIRS_AT) / 2)
}

/// A link goes out of the paths too, and with the lines that name it; the links behind it have numbers less by one then.
fn take_link(pieces: &mut Pieces, which: usize) {
    let network = &mut pieces.0[REQUEST][0];
    network.drain(PAIRS_AT + 2 * which..PAIRS_AT + 2 * which + 2);
    let buffers = word(network, BUFFERS_AT).wrapping_sub(1);
    set_word(network, BUFFERS_AT, buffers);
    correct_length(network);
    let link = which as u16;
    for circuit in &mut pieces.0[REQUEST] {
        if is_record(circuit, CIRCUIT) && circuit.len() >= PATH_AT {
            take_from_path(circuit, link);
        }
    }
    let is_line = |piece: &[u8]| is_record(piece, LINE) && piece.len() == HEAD_SIZE + LINE_SIZE;
    pieces.0[TABLE].retain(|piece| !is_line(piece) || PORTS_AT.iter().all(|&at| word(piece, at) != link));
    for line in pieces.0[TABLE].iter_mut().filter(|piece| is_line(piece)) {
        for at in PORTS_AT {
            let port = renumbered(word(line, at), link);
            set_word(line, at, port);
        }
    }
}

fn take_from_path(circuit: &mut Vec<u8>, link: u16) {
    let path = circuit.split_off(PATH_AT);
    let hops = path.chunks_exact(2).map(|hop| word(hop, 0));
    let kept = hops.filter(|&hop| hop != link).map(|hop| renumbered(hop, link));
    circuit.extend(kept.flat_map(u16::to_le_bytes));
    let lost = (path.len() - (circuit.len() - PATH_AT)) / 2;
    circuit[HOPS_AT] = circuit[HOPS_AT].wrapping_sub(lost as u8);
    correct_length(circuit);
}

fn renumbered(port: u16, link: u16) -> u16 {
    match port {
        LOCAL => LOCAL,
        _ => port - u16::from(port > link),
    }
}

fn count_offsets(pieces: &Pieces) -> usize {
    pieces.places(ASSIGNMENT, OFFSETS).iter().map(|&at| pieces.0[ASSIGNMENT][at].len() - HEAD_SIZE).sum()
}

/// An offset goes out of the demand too.
fn take_offset(pieces: &mut Pieces, which: usize) {
    let mut left = which;
    for (circuit, at) in pieces.places(ASSIGNMENT, OFFSETS).into_iter().enumerate() {
        let offsets = &mut pieces.0[ASSIGNMENT][at];
        if left < offsets.len() - HEAD_SIZE {
            offsets.remove(HEAD_SIZE + left);
            correct_length(offsets);
            lower_demand(pieces, circuit);
            return;
        }
        left -= offsets.len() - HEAD_SIZE;
    }
}

fn lower_demand(pieces: &mut Pieces, circuit: usize) {
    let place = pieces.places(REQUEST, CIRCUIT).get(circuit).copied();
    if let Some(demand) = place.and_then(|at| pieces.0[REQUEST][at].get_mut(DEMAND_AT)) {
        *demand = demand.wrapping_sub(1);
    }
}

fn take_piece(pieces: &mut Pieces, which: usize) {
    let mut left = which;
    for file in &mut pieces.0 {
        if left < file.len() {
            file.remove(left);
            return;
        }
        left -= file.len();
    }
}

#[cfg(test)]
mod tests {
    use super::*;
    use crate::model::{assignment_file, request_file, table_file, Request, BUFFERS_MOST};
    use crate::named::full_ring;
    use crate::number;
    use crate::plain::{check_tables, needed_lines, read};

    /// Both ways round 64 routers, each circuit with two slots in 32 and five hops.
    fn ring() -> Request {
        let mut request = full_ring();
        for circuit in &mut request.circuits {
            circuit.demand = 2;
            circuit.path.truncate(5);
        }
        request
    }

    /// The files of the ring, where the line for the second hop of circuit 6 leads back.
    fn led_back() -> Files {
        let request = ring();
        let assignment = vec![vec![3, 7]; request.circuits.len()];
        let mut lines = needed_lines(&request, &assignment);
        let line = &mut lines[6 * 2 * 5 + 1];
        let back = |&buffer: &usize| request.network.buffers[buffer].from == line.router && buffer != line.out;
        line.out = (0..BUFFERS_MOST).find(back).expect("the ring goes both ways");
        [request_file(&request), assignment_file(&assignment), table_file(&lines)]
    }

    /// A library that accepts lines that lead elsewhere, if there were one.
    fn leads_elsewhere(files: &Files) -> bool {
        check_tables(&files[REQUEST], &files[ASSIGNMENT], &files[TABLE]).number == number::ELSEWHERE
    }

    #[test]
    fn a_made_up_difference_shrinks_to_one_circuit_and_the_links_in_question() {
        let files = led_back();
        assert!(leads_elsewhere(&files));
        let small = shrink(&files, &mut leads_elsewhere);
        assert!(leads_elsewhere(&small));
        let pieces = Pieces::of(&small);
        assert_eq!(pieces.places(REQUEST, CIRCUIT).len(), 1);
        assert_eq!(count_offsets(&pieces), 1);
        assert_eq!(count_links(&pieces), 3, "the buffer before, the next one, and the one that it is led to");
        assert_eq!(pieces.places(TABLE, LINE).len(), 2);
        assert_eq!(small.concat().len(), 4 + 10 + 12 + 4 + 5 + 4 + 24 + 4);
    }

    #[test]
    fn a_damaged_file_shrinks_to_the_record_in_question() {
        let mut files = led_back();
        let place = Pieces::of(&files).places(REQUEST, CIRCUIT)[3];
        let start = records(&files[REQUEST])[place].start;
        files[REQUEST][start + HEAD_SIZE] = 33;
        files[REQUEST].extend([1, 2, 3]);
        let mut shows = |files: &Files| read(&files[REQUEST]).number == number::COUNT;
        let small = shrink(&files, &mut shows);
        assert_eq!(small[ASSIGNMENT].len() + small[TABLE].len(), 0);
        assert_eq!(small[REQUEST].len(), 10 + 10, "a network of one link, a circuit of one hop, and no end record");
    }

    #[test]
    fn what_shows_on_all_bytes_only_keeps_them() {
        let files = led_back();
        let whole = files.clone();
        assert!(shrink(&files, &mut |files| *files == whole) == files);
    }

    #[test]
    fn what_always_shows_leaves_nothing() {
        assert!(shrink(&led_back(), &mut |_| true).concat().is_empty());
    }
}
