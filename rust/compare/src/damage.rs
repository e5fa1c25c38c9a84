//! Damages the bytes of a file, with an eye to its records: heads, counts, spare bytes, limits. Assumes any file, damaged before or not.
use crate::model::{put_record, CIRCUIT, CIRCUITS_MOST, HEAD_SIZE, LINE, LINES_MOST};
use crate::random::Random;
use crate::records::{records, set_word, word};
use std::ops::Range;

/// Damages that keep the length of the file.
const IN_PLACE: [fn(&mut Random, &mut [u8]); 7] =
    [change_byte, change_byte, change_kind, change_length, set_edge_byte, set_edge_word, copy_word];

const RESHAPING: [fn(&mut Random, &mut Vec<u8>); 8] =
    [cut, extend, drop_record, double_record, swap_records, insert_record, resize_body, grow_counted];

/// Values at and beside the limits of document 01.
const EDGES: [u16; 20] = [0, 1, 2, 3, 4, 15, 16, 17, 31, 32, 33, 63, 64, 65, 127, 128, 129, 255, 256, 65535];

pub fn damage(random: &mut Random, file: &mut Vec<u8>) {
    match random.below(60) {
        0 => fill_to_limit(random, file),
        1..=29 => random.pick(&IN_PLACE)(random, file),
        _ => random.pick(&RESHAPING)(random, file),
    }
}

fn pick_record(random: &mut Random, file: &[u8]) -> Option<Range<usize>> {
    let records = records(file);
    (!records.is_empty()).then(|| records[random.below(records.len())].clone())
}

/// A record that has a body.
fn pick_full_record(random: &mut Random, file: &[u8]) -> Option<Range<usize>> {
    let full: Vec<Range<usize>> = records(file).into_iter().filter(|record| record.len() > HEAD_SIZE).collect();
    (!full.is_empty()).then(|| full[random.below(full.len())].clone())
}

fn change_byte(random: &mut Random, file: &mut [u8]) {
    if file.is_empty() {
        return;
    }
    let at = random.below(file.len());
    file[at] = match random.below(4) {
        0 => file[at].wrapping_add(1),
        1 => file[at].wrapping_sub(1),
        2 => file[at] ^ (1 << random.below(8)),
        _ => random.byte(),
    };
}

fn cut(random: &mut Random, file: &mut Vec<u8>) {
    let left = match random.below(3) {
        0 => random.below(file.len() + 1),
        1 => file.len().saturating_sub(random.between((1, 5))),
        _ => pick_record(random, file).map_or(0, |record| record.start),
    };
    file.truncate(left);
}

fn extend(random: &mut Random, file: &mut Vec<u8>) {
    let count = random.between((1, 12));
    file.extend(random.bytes(count));
}

fn change_kind(random: &mut Random, file: &mut [u8]) {
    if let Some(record) = pick_record(random, file) {
        set_word(file, record.start + 2, random.pick(&[0, 1, 2, 3, 4, 5, 6, 256, 261]));
    }
}

fn change_length(random: &mut Random, file: &mut [u8]) {
    if let Some(record) = pick_record(random, file) {
        let length = word(file, record.start);
        let other = [length.wrapping_sub(2), length.wrapping_sub(1), length.wrapping_add(1), length.wrapping_add(2), random.pick(&EDGES)];
        set_word(file, record.start, random.pick(&other));
    }
}

fn drop_record(random: &mut Random, file: &mut Vec<u8>) {
    if let Some(record) = pick_record(random, file) {
        file.drain(record);
    }
}

fn double_record(random: &mut Random, file: &mut Vec<u8>) {
    if let Some(record) = pick_record(random, file) {
        let copy = file[record.clone()].to_vec();
        file.splice(record.end..record.end, copy);
    }
}

fn swap_records(random: &mut Random, file: &mut Vec<u8>) {
    let records = records(file);
    if records.len() < 2 {
        return;
    }
    let first = random.below(records.len() - 1);
    let (one, other) = (records[first].clone(), records[random.between((first + 1, records.len() - 1))].clone());
    let swapped = [&file[other.clone()], &file[one.end..other.start], &file[one.clone()]].concat();
    file.splice(one.start..other.end, swapped);
}

fn insert_record(random: &mut Random, file: &mut Vec<u8>) {
    let at = pick_record(random, file).map_or(0, |record| record.start);
    let length = random.below(12);
    let mut record = Vec::new();
    put_record(&mut record, random.below(7) as u16, &random.bytes(length));
    file.splice(at..at, record);
}

/// Adds bytes to a body or takes some away, and corrects the length.
fn resize_body(random: &mut Random, file: &mut Vec<u8>) {
    let Some(record) = pick_full_record(random, file) else {
        return;
    };
    let body = record.len() - HEAD_SIZE;
    let change = random.between((1, 2));
    if random.once_in(2) && body >= change {
        set_word(file, record.start, (body - change) as u16);
        file.drain(record.end - change..record.end);
    } else {
        set_word(file, record.start, (body + change) as u16);
        let more = random.bytes(change);
        file.splice(record.end..record.end, more);
    }
}

/// Puts an edge value into one of the first four bytes of a body: counts, spare bytes, periods, slots, offsets.
fn set_edge_byte(random: &mut Random, file: &mut [u8]) {
    if let Some(record) = pick_full_record(random, file) {
        let first = record.start + HEAD_SIZE;
        file[random.between((first, record.end.min(first + 4) - 1))] = random.pick(&EDGES) as u8;
    }
}

fn pick_word(random: &mut Random, record: &Range<usize>) -> usize {
    record.start + HEAD_SIZE + 2 * random.below((record.len() - HEAD_SIZE) / 2)
}

/// Puts an edge value into a word of a body: counts, buffer numbers.
fn set_edge_word(random: &mut Random, file: &mut [u8]) {
    if let Some(record) = pick_full_record(random, file).filter(|record| record.len() >= HEAD_SIZE + 2) {
        let at = pick_word(random, &record);
        set_word(file, at, random.pick(&EDGES));
    }
}

/// Copies one word of a body over another: buffers twice in a path, pairs twice in a network, other outs.
fn copy_word(random: &mut Random, file: &mut [u8]) {
    if let Some(record) = pick_full_record(random, file).filter(|record| record.len() >= HEAD_SIZE + 2) {
        let (from, to) = (pick_word(random, &record), pick_word(random, &record));
        let copy = word(file, from);
        set_word(file, to, copy);
    }
}

/// Adds a word to a body and one to its count, which in a network is its second word and else its third byte.
fn grow_counted(random: &mut Random, file: &mut Vec<u8>) {
    let Some(record) = pick_full_record(random, file).filter(|record| record.len() >= HEAD_SIZE + 4) else {
        return;
    };
    let count = record.start + HEAD_SIZE + 2;
    file[count] = file[count].wrapping_add(1);
    set_word(file, record.start, (record.len() - HEAD_SIZE + 2) as u16);
    let more = [random.below(4) as u8, 0];
    file.splice(record.end..record.end, more);
}

/// Repeats a record until there are as many of its kind as a file may have, or one more; sometimes the last one has another length too.
fn fill_to_limit(random: &mut Random, file: &mut Vec<u8>) {
    let Some(record) = pick_record(random, file) else {
        return;
    };
    let kind = word(file, record.start + 2);
    let limit = match kind {
        CIRCUIT => CIRCUITS_MOST,
        LINE => LINES_MOST,
        _ => return double_record(random, file),
    };
    let have = records(file).iter().filter(|record| word(file, record.start + 2) == kind).count();
    let copies = (limit + random.below(2)).saturating_sub(have);
    let more = file[record.clone()].repeat(copies);
    file.splice(record.end..record.end, more);
    if random.once_in(2) {
        let last = records(file).into_iter().rfind(|record| word(file, record.start + 2) == kind);
        set_word(file, last.map_or(record.start, |last| last.start), random.pick(&EDGES));
    }
}
