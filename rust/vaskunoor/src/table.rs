//! A table with types: the lines of a network's routers. Assumes nothing of the numbers it is given.
use crate::bytes::{bodies, byte, put_record, word, END, LINE};
use crate::sizes::*;
use crate::{check_tables, Assignment, Invalid, Refusal, Request, Unfit};
use std::fmt::{self, Display, Formatter};

/// Where packets come from at a router.
#[derive(Clone, Copy, Debug, PartialEq, Eq, PartialOrd, Ord, Hash)]
pub enum Inport {
    /// A buffer that leads there.
    Buffer(usize),
    /// The router's own core.
    Local,
}

impl Display for Inport {
    fn fmt(&self, to: &mut Formatter) -> fmt::Result {
        match self {
            Inport::Buffer(buffer) => buffer.fmt(to),
            Inport::Local => to.write_str("local"),
        }
    }
}

/// In slots that leave the remainder `slot` by `period`, the router sends what stands at the inport to buffer `out`.
///
/// Its text is what the program `book` prints: router, period, slot, in, out.
#[derive(Clone, Copy, Debug, PartialEq, Eq, PartialOrd, Ord, Hash)]
pub struct Line {
    router: u8,
    period: u8,
    slot: u8,
    inport: u16,
    out: u16,
}

impl Line {
    /// A line of these numbers.
    ///
    /// ```
    /// use vaskunoor::{Inport, Line};
    /// assert_eq!(Line::new(1, 4, 1, Inport::Buffer(0), 1)?.to_string(), "1 4 1 0 1");
    /// assert_eq!(Line::new(1, 4, 4, Inport::Local, 1).unwrap_err().to_string(), "slot 4 is not one of 0 to 3");
    /// # Ok::<(), vaskunoor::Unfit>(())
    /// ```
    pub fn new(router: usize, period: usize, slot: usize, inport: Inport, out: usize) -> Result<Line, Unfit> {
        let buffer = |field, buffer| Unfit::byte(field, buffer, 0, BUFFERS_MOST - 1).map(u16::from);
        Ok(Line {
            router: Unfit::byte("router", router, 0, ROUTERS_MOST - 1)?,
            period: Unfit::byte("period", period, 1, CYCLE_MOST)?,
            slot: Unfit::byte("slot", slot, 0, period - 1)?,
            inport: match inport {
                Inport::Buffer(inport) => buffer("in", inport)?,
                Inport::Local => LOCAL as u16,
            },
            out: buffer("out", out)?,
        })
    }

    /// The router whose line it is.
    pub fn router(&self) -> usize {
        self.router.into()
    }

    /// The slots after which it matches again.
    pub fn period(&self) -> usize {
        self.period.into()
    }

    /// The first slot in which it matches.
    pub fn slot(&self) -> usize {
        self.slot.into()
    }

    /// Where the packets come from.
    pub fn inport(&self) -> Inport {
        match usize::from(self.inport) {
            LOCAL => Inport::Local,
            buffer => Inport::Buffer(buffer),
        }
    }

    /// The buffer that they are sent to.
    pub fn out(&self) -> usize {
        self.out.into()
    }

    /// The line as a record of a table, with its head.
    pub fn to_bytes(&self) -> [u8; HEAD_SIZE + LINE_SIZE] {
        let ([in_low, in_high], [out_low, out_high]) = (self.inport.to_le_bytes(), self.out.to_le_bytes());
        [LINE_SIZE as u8, 0, LINE as u8, 0, self.router, self.period, self.slot, 0, in_low, in_high, out_low, out_high]
    }
}

impl Display for Line {
    fn fmt(&self, to: &mut Formatter) -> fmt::Result {
        write!(to, "{} {} {} {} {}", self.router, self.period, self.slot, self.inport(), self.out)
    }
}

/// Lines that a table of a request's network can have, with the file that has them. Whether they carry every packet is for
/// [`check_tables`] to tell.
///
/// It lends itself as the bytes of that file, so it goes wherever a table goes as bytes.
#[derive(Clone, Debug, PartialEq, Eq, Hash)]
pub struct Table {
    lines: Vec<Line>,
    bytes: Vec<u8>,
}

impl Table {
    /// A table of these lines, in order, for the network of the request.
    ///
    /// ```
    /// use vaskunoor::{Inport, Line, Network, Request, Table};
    /// let request = Request::new(Network::new(2, [(0, 1)])?, [])?;
    /// assert!(Table::new(&request, [Line::new(0, 4, 0, Inport::Local, 0)?]).is_ok());
    /// // router 1 does not own buffer 0
    /// assert!(Table::new(&request, [Line::new(1, 4, 0, Inport::Local, 0)?]).is_err());
    /// # Ok::<(), Box<dyn std::error::Error>>(())
    /// ```
    pub fn new(request: &Request, lines: impl IntoIterator<Item = Line>) -> Result<Table, Invalid> {
        let lines = Vec::from_iter(lines);
        Unfit::check("lines", lines.len(), 0, LINES_MOST)?;
        let mut bytes = Vec::from_iter(lines.iter().flat_map(Line::to_bytes));
        put_record(&mut bytes, END, &[]);
        may_have(request, &bytes)?;
        Ok(Table { lines, bytes })
    }

    /// Reads a file as a table of the request's network.
    ///
    /// ```
    /// use vaskunoor::{Network, Request, Table};
    /// let request = Request::new(Network::new(2, [(0, 1)])?, [])?;
    /// let table = Table::read(&request, &[8, 0, 4, 0, 0, 4, 0, 0, 255, 255, 0, 0, 0, 0, 5, 0])?;
    /// assert_eq!(table.lines()[0].to_string(), "0 4 0 local 0");
    /// # Ok::<(), Box<dyn std::error::Error>>(())
    /// ```
    pub fn read(request: &Request, bytes: &[u8]) -> Result<Table, Refusal> {
        may_have(request, bytes)?;
        Ok(Table { lines: bodies(bytes, LINE).map(line).collect(), bytes: bytes.to_vec() })
    }

    /// The lines, in order.
    pub fn lines(&self) -> &[Line] {
        &self.lines
    }

    /// The file.
    pub fn as_bytes(&self) -> &[u8] {
        &self.bytes
    }
}

impl AsRef<[u8]> for Table {
    fn as_ref(&self) -> &[u8] {
        &self.bytes
    }
}

fn line(body: &[u8]) -> Line {
    Line { router: byte(body, 0), period: byte(body, 1), slot: byte(body, 2), inport: word(body, 4), out: word(body, 6) }
}

/// Whether the table reads. The table check reads all three files before it looks at clashes and series, so any assignment that reads will
/// do: the first offsets of each circuit.
fn may_have(request: &Request, table: &[u8]) -> Result<(), Refusal> {
    let any = Assignment::new(request, request.circuits().iter().map(|circuit| 0..circuit.demand()));
    let any = any.map_or(Vec::new(), |assignment| assignment.as_bytes().to_vec());
    match check_tables(request, any, table) {
        Err(refusal @ Refusal::Damaged { .. }) => Err(refusal),
        _ => Ok(()),
    }
}
