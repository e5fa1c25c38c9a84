//! What a job answers where it is not done: the numbers 1 to 17 with their details. Assumes the numbers of include/vaskunoor.h.
use crate::sizes::{BUFFERS_MOST, LOCAL};
use std::error::Error;
use std::fmt::{self, Display, Formatter};

/// One of the three files of a plan.
#[derive(Clone, Copy, Debug, PartialEq, Eq, Hash)]
pub enum File {
    /// The network and its circuits.
    Request = 1,
    /// The offsets of each circuit.
    Assignment,
    /// The routers' lines.
    Table,
}

impl File {
    /// The number by which a refusal names the file: 1, 2 or 3.
    pub fn number(self) -> u32 {
        self as u32
    }

    fn of_number(number: u32) -> Option<File> {
        [File::Request, File::Assignment, File::Table].into_iter().find(|file| file.number() == number)
    }
}

impl Display for File {
    fn fmt(&self, to: &mut Formatter) -> fmt::Result {
        to.write_str(match self {
            File::Request => "request",
            File::Assignment => "assignment",
            File::Table => "table",
        })
    }
}

/// What is wrong with a record: the numbers 1 to 9.
#[derive(Clone, Copy, Debug, PartialEq, Eq, Hash)]
#[non_exhaustive]
pub enum Fault {
    /// 1: a record or the end record is missing or cut short.
    Cut = 1,
    /// 2: a record of a kind not allowed here.
    Kind,
    /// 3: a length wrong for the kind or its counts.
    Length,
    /// 4: a count outside its size.
    Count,
    /// 5: a nonzero spare byte, an unknown router or buffer, a bad buffer pair.
    Value,
    /// 6: a broken path.
    Path,
    /// 7: bytes after the end record.
    AfterEnd,
    /// 8: wrong offsets, or too few or too many records of them.
    Offsets,
    /// 9: a line that no table of this network can have.
    Line,
}

impl Fault {
    const ALL: [Fault; 9] =
        [Fault::Cut, Fault::Kind, Fault::Length, Fault::Count, Fault::Value, Fault::Path, Fault::AfterEnd, Fault::Offsets, Fault::Line];

    /// The number of the refusal.
    pub fn number(self) -> u32 {
        self as u32
    }

    fn of_number(number: u32) -> Option<Fault> {
        Fault::ALL.into_iter().find(|fault| fault.number() == number)
    }
}

impl Display for Fault {
    fn fmt(&self, to: &mut Formatter) -> fmt::Result {
        to.write_str(match self {
            Fault::Cut => "a record or the end record is missing or cut short",
            Fault::Kind => "a record of this kind is not allowed here",
            Fault::Length => "the length is wrong for this kind of record or for its counts",
            Fault::Count => "a count is outside its size, or there is a record too many, or the demand is above the cycle",
            Fault::Value => "a spare byte is not zero, or a router or buffer is unknown, or a pair of routers is not allowed",
            Fault::Path => "the path is broken: a buffer comes twice, or does not lead to the router that owns the next",
            Fault::AfterEnd => "bytes follow the end record",
            Fault::Offsets => {
                "the offsets are not as many as asked, not rising or not below the cycle, or there are too few or too many records"
            }
            Fault::Line => {
                "the line has an unknown router, a wrong period or slot, a spare byte that is not zero, or an inport or outport of another router"
            }
        })
    }
}

/// What a circuit holds.
#[derive(Clone, Copy, Debug, PartialEq, Eq, PartialOrd, Ord, Hash)]
#[non_exhaustive]
pub enum Resource {
    /// A buffer, by its number.
    Buffer(u32),
    /// The local inport of a router, by the router's number.
    Inport(u32),
}

impl Resource {
    /// The number by which a refusal names it: the buffer, or 128 and the router.
    pub fn what(self) -> u32 {
        match self {
            Resource::Buffer(buffer) => buffer,
            Resource::Inport(router) => BUFFERS_MOST as u32 + router,
        }
    }

    /// The resource that a refusal names by this number.
    pub fn of_what(what: u32) -> Resource {
        match what.checked_sub(BUFFERS_MOST as u32) {
            None => Resource::Buffer(what),
            Some(router) => Resource::Inport(router),
        }
    }
}

impl Display for Resource {
    fn fmt(&self, to: &mut Formatter) -> fmt::Result {
        match self {
            Resource::Buffer(buffer) => write!(to, "buffer {buffer}"),
            Resource::Inport(router) => write!(to, "the local inport of router {router}"),
        }
    }
}

/// One circuit, offset and hop: the packets that come to one router in slots a + j, a + j + D and so on.
#[derive(Clone, Copy, Debug, PartialEq, Eq, Hash)]
pub struct Series {
    /// The circuit's number in the request.
    pub circuit: u32,
    /// The offset itself, not its place in the list.
    pub offset: u32,
    /// The hop, counted from 0.
    pub hop: u32,
}

impl Display for Series {
    fn fmt(&self, to: &mut Formatter) -> fmt::Result {
        write!(to, "circuit {}, offset {}, hop {}", self.circuit, self.offset, self.hop)
    }
}

/// Why a job was not done. With a refusal no output byte changes.
#[derive(Clone, Copy, Debug, PartialEq, Eq, Hash)]
#[non_exhaustive]
pub enum Refusal {
    /// 1 to 9: a file does not read. The byte is where the record in question starts; with [`Fault::AfterEnd`], the first byte too many.
    Damaged {
        /// The file.
        file: File,
        /// What is wrong with it.
        fault: Fault,
        /// Where.
        byte: u32,
    },
    /// 10: no choice of offsets is without a clash.
    NoRoom {
        /// The visits that it took to try them all.
        visits: u32,
    },
    /// 11: the answer needs more visits than the budget.
    Unfinished {
        /// The budget.
        visits: u32,
    },
    /// 12: two circuits hold one resource in one slot; the first such pair, then the least slot, then the least resource.
    Clash {
        /// The circuit with the lower number.
        lower: u32,
        /// The circuit with the higher number.
        higher: u32,
        /// The least slot in which both hold something in common.
        slot: u32,
        /// What both hold then.
        what: Resource,
    },
    /// 13: no line meets a series.
    NoLine {
        /// The series.
        series: Series,
    },
    /// 14: a line meets a series without serving it whole.
    InPart {
        /// The series.
        series: Series,
        /// The first such line.
        line: u32,
    },
    /// 15: two or more lines meet a series.
    TwoLines {
        /// The series.
        series: Series,
        /// The second such line.
        line: u32,
    },
    /// 16: the line of a series leads elsewhere.
    Elsewhere {
        /// The series.
        series: Series,
        /// The line.
        line: u32,
    },
    /// 17: the output area is too short.
    TooShort {
        /// The bytes needed.
        needed: u32,
    },
    /// A number or details that this crate does not know. The archive of the same version gives none.
    Unknown {
        /// The number.
        number: u32,
        /// The details.
        details: [u32; 4],
    },
}

impl Refusal {
    /// The refusal of this number with these details.
    pub fn new(number: u32, details: [u32; 4]) -> Refusal {
        let [first, second, third, fourth] = details;
        let series = Series { circuit: first, offset: second, hop: third };
        match number {
            1..=9 => Refusal::damaged(number, details),
            10 => Refusal::NoRoom { visits: first },
            11 => Refusal::Unfinished { visits: first },
            12 => Refusal::Clash { lower: first, higher: second, slot: third, what: Resource::of_what(fourth) },
            13 => Refusal::NoLine { series },
            14 => Refusal::InPart { series, line: fourth },
            15 => Refusal::TwoLines { series, line: fourth },
            16 => Refusal::Elsewhere { series, line: fourth },
            17 => Refusal::TooShort { needed: first },
            _ => Refusal::Unknown { number, details },
        }
    }

    fn damaged(number: u32, details: [u32; 4]) -> Refusal {
        match (File::of_number(details[0]), Fault::of_number(number)) {
            (Some(file), Some(fault)) => Refusal::Damaged { file, fault, byte: details[1] },
            _ => Refusal::Unknown { number, details },
        }
    }

    /// Its number, as docs/FORMAT.md lists them.
    pub fn number(&self) -> u32 {
        match *self {
            Refusal::Damaged { fault, .. } => fault.number(),
            Refusal::NoRoom { .. } => 10,
            Refusal::Unfinished { .. } => 11,
            Refusal::Clash { .. } => 12,
            Refusal::NoLine { .. } => 13,
            Refusal::InPart { .. } => 14,
            Refusal::TwoLines { .. } => 15,
            Refusal::Elsewhere { .. } => 16,
            Refusal::TooShort { .. } => 17,
            Refusal::Unknown { number, .. } => number,
        }
    }

    /// Its four details; those that are not used are 0.
    pub fn details(&self) -> [u32; 4] {
        let of = |series: Series, line| [series.circuit, series.offset, series.hop, line];
        match *self {
            Refusal::Damaged { file, byte, .. } => [file.number(), byte, 0, 0],
            Refusal::NoRoom { visits } | Refusal::Unfinished { visits } => [visits, 0, 0, 0],
            Refusal::Clash { lower, higher, slot, what } => [lower, higher, slot, what.what()],
            Refusal::NoLine { series } => of(series, LOCAL as u32),
            Refusal::InPart { series, line } | Refusal::TwoLines { series, line } | Refusal::Elsewhere { series, line } => of(series, line),
            Refusal::TooShort { needed } => [needed, 0, 0, 0],
            Refusal::Unknown { details, .. } => details,
        }
    }
}

impl Display for Refusal {
    fn fmt(&self, to: &mut Formatter) -> fmt::Result {
        match self {
            Refusal::Damaged { file, fault, byte } => write!(to, "{file}, byte {byte}: {fault}"),
            Refusal::NoRoom { visits } => {
                write!(to, "no room: every choice of slots has a clash; visits it took to try them all: {visits}")
            }
            Refusal::Unfinished { visits } => {
                write!(to, "unfinished: the answer needs more visits than the budget, which is {visits}")
            }
            Refusal::Clash { lower, higher, slot, what } => write!(to, "circuits {lower} and {higher} both hold {what} in slot {slot}"),
            Refusal::NoLine { series } => write!(to, "{series}: no line meets these packets"),
            Refusal::InPart { series, line } => write!(to, "{series}: line {line} meets some of these packets and not all of them"),
            Refusal::TwoLines { series, line } => write!(to, "{series}: line {line} is the second that meets these packets"),
            Refusal::Elsewhere { series, line } => {
                write!(to, "{series}: line {line} leads these packets elsewhere than along their path")
            }
            Refusal::TooShort { needed } => write!(to, "the output area is too short; bytes needed: {needed}"),
            Refusal::Unknown { number, details } => write!(to, "number {number}, which is not known here, with details {details:?}"),
        }
    }
}

impl Error for Refusal {}

#[cfg(test)]
mod tests {
    use super::*;

    #[test]
    fn number_and_details_come_back() {
        for number in 1..=17 {
            let details = match number {
                1..=9 => [2, 40, 0, 0],
                10 | 11 | 17 => [7, 0, 0, 0],
                12 => [0, 1, 9, 130],
                13 => [0, 2, 1, 65535],
                _ => [0, 2, 1, 4],
            };
            let refusal = Refusal::new(number, details);
            assert_eq!((refusal.number(), refusal.details()), (number, details));
            assert!(!matches!(refusal, Refusal::Unknown { .. }), "{number}");
        }
    }

    #[test]
    fn what_is_not_known_is_kept() {
        for (number, details) in [(1, [9, 0, 0, 0]), (99, [1, 2, 3, 4])] {
            let refusal = Refusal::new(number, details);
            assert_eq!(refusal, Refusal::Unknown { number, details });
            assert_eq!((refusal.number(), refusal.details()), (number, details));
        }
    }
}
