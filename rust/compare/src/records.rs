//! Records in any bytes: where they stand, and their numbers. Assumes nothing of the bytes.
use crate::model::HEAD_SIZE;
use std::ops::Range;

/// Where the records stand, as far as their lengths lead.
pub fn records(file: &[u8]) -> Vec<Range<usize>> {
    let mut records = Vec::new();
    let mut start = 0;
    while start + HEAD_SIZE <= file.len() {
        let end = start + HEAD_SIZE + word(file, start) as usize;
        if end > file.len() {
            break;
        }
        records.push(start..end);
        start = end;
    }
    records
}

pub fn word(file: &[u8], at: usize) -> u16 {
    u16::from_le_bytes([file[at], file[at + 1]])
}

pub fn set_word(file: &mut [u8], at: usize, word: u16) {
    file[at..at + 2].copy_from_slice(&word.to_le_bytes());
}
