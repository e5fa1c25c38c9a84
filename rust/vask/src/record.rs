//! The records of a file, whatever is wrong with it: bytes are read by position, 0 past the end. Assumes nothing.
use vaskunoor::sizes::HEAD_SIZE;

pub const NETWORK: usize = 1;
pub const CIRCUIT: usize = 2;
pub const OFFSETS: usize = 3;
pub const LINE: usize = 4;
pub const END: usize = 5;

/// What a record of this kind is called.
pub fn kind_name(kind: usize) -> Option<&'static str> {
    Some(match kind {
        NETWORK => "network",
        CIRCUIT => "circuit",
        OFFSETS => "offsets",
        LINE => "line",
        END => "end",
        _ => return None,
    })
}

/// Where a record starts in a file, and how many stand before it. Places are counted from the record's first byte.
#[derive(Clone, Copy)]
pub struct Record<'a> {
    pub file: &'a [u8],
    pub start: usize,
    pub index: usize,
}

impl<'a> Record<'a> {
    /// What starts at this byte of a file whose records before it are whole.
    pub fn at(file: &'a [u8], start: usize) -> Record<'a> {
        let index = records(file).take_while(|record| record.start < start).count();
        Record { file, start, index }
    }

    /// The bytes from its start to the end of the file.
    pub fn left(&self) -> usize {
        self.file.len().saturating_sub(self.start)
    }

    pub fn byte(&self, at: usize) -> usize {
        self.file.get(self.start + at).copied().unwrap_or(0).into()
    }

    pub fn word(&self, at: usize) -> usize {
        self.byte(at) | self.byte(at + 1) << 8
    }

    pub fn length(&self) -> usize {
        self.word(0)
    }

    pub fn kind(&self) -> usize {
        self.word(2)
    }

    pub fn has_head(&self) -> bool {
        self.left() >= HEAD_SIZE
    }

    pub fn has_body(&self) -> bool {
        self.left() >= HEAD_SIZE + self.length()
    }

    /// What starts behind it, if it says where that is.
    fn next(&self) -> Option<Record<'a>> {
        let start = self.start + HEAD_SIZE + self.length();
        self.has_head().then_some(Record { file: self.file, start, index: self.index + 1 })
    }
}

/// The records of a file; the last one may be cut short.
pub fn records(file: &[u8]) -> impl Iterator<Item = Record<'_>> {
    let first = Record { file, start: 0, index: 0 };
    std::iter::successors(Some(first), Record::next).take_while(|record| record.left() > 0)
}
