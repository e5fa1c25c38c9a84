//! What the files speak of, and the bytes that say it. Assumes that what is written fits its fields (document 01, "Sizes" and "Records").

pub const NETWORK: u16 = 1;
pub const CIRCUIT: u16 = 2;
pub const OFFSETS: u16 = 3;
pub const LINE: u16 = 4;
pub const END: u16 = 5;

pub const HEAD_SIZE: usize = 4;
pub const LINE_SIZE: usize = 8;

pub const ROUTERS_MOST: usize = 64;
pub const BUFFERS_MOST: usize = 128;
pub const CIRCUITS_MOST: usize = 32;
pub const CYCLE_MOST: usize = 32;
pub const HOPS_MOST: usize = 16;
pub const LINES_MOST: usize = 4096;

/// Written as the inport of a line that takes packets in from the router itself.
pub const LOCAL: u16 = 65535;

#[derive(Clone, Copy, PartialEq)]
pub struct Buffer {
    pub from: usize,
    pub to: usize,
}

#[derive(Clone, Default)]
pub struct Network {
    pub routers: usize,
    pub buffers: Vec<Buffer>,
}

#[derive(Clone)]
pub struct Circuit {
    pub cycle: usize,
    pub demand: usize,
    pub path: Vec<usize>,
}

#[derive(Clone, Default)]
pub struct Request {
    pub network: Network,
    pub circuits: Vec<Circuit>,
}

/// For each circuit its offsets, rising.
pub type Assignment = Vec<Vec<usize>>;

#[derive(Clone, Copy, PartialEq, Eq, PartialOrd, Ord, Debug)]
pub enum Inport {
    Buffer(usize),
    Local,
}

#[derive(Clone, Copy, PartialEq, Debug)]
pub struct Line {
    pub router: usize,
    pub period: usize,
    pub slot: usize,
    pub inport: Inport,
    pub out: usize,
}

impl Request {
    /// The router at which the circuit's packets are admitted.
    pub fn first_router(&self, circuit: &Circuit) -> usize {
        self.network.buffers[circuit.path[0]].from
    }
}

impl Circuit {
    /// The inport at which the circuit's packets stand when they are about to enter the hop's buffer.
    pub fn inport(&self, hop: usize) -> Inport {
        match hop {
            0 => Inport::Local,
            _ => Inport::Buffer(self.path[hop - 1]),
        }
    }
}

impl Line {
    pub fn matches(&self, slot: usize) -> bool {
        slot % self.period == self.slot
    }
}

/// The least slot count that is a whole number of both cycles.
pub fn common_cycle(one: usize, other: usize) -> usize {
    let mut slots = one;
    while !slots.is_multiple_of(other) {
        slots += one;
    }
    slots
}

pub fn put_record(file: &mut Vec<u8>, kind: u16, body: &[u8]) {
    put_word(file, body.len());
    put_word(file, kind as usize);
    file.extend(body);
}

fn put_word(file: &mut Vec<u8>, word: usize) {
    file.extend((word as u16).to_le_bytes());
}

pub fn request_file(request: &Request) -> Vec<u8> {
    let mut file = Vec::new();
    put_record(&mut file, NETWORK, &network_body(&request.network));
    for circuit in &request.circuits {
        put_record(&mut file, CIRCUIT, &circuit_body(circuit));
    }
    put_record(&mut file, END, &[]);
    file
}

fn network_body(network: &Network) -> Vec<u8> {
    let mut body = Vec::new();
    put_word(&mut body, network.routers);
    put_word(&mut body, network.buffers.len());
    for buffer in &network.buffers {
        body.extend([buffer.from as u8, buffer.to as u8]);
    }
    body
}

fn circuit_body(circuit: &Circuit) -> Vec<u8> {
    let mut body = vec![circuit.cycle as u8, circuit.demand as u8, circuit.path.len() as u8, 0];
    for &buffer in &circuit.path {
        put_word(&mut body, buffer);
    }
    body
}

pub fn assignment_file(assignment: &[Vec<usize>]) -> Vec<u8> {
    let mut file = Vec::new();
    for offsets in assignment {
        let body: Vec<u8> = offsets.iter().map(|&offset| offset as u8).collect();
        put_record(&mut file, OFFSETS, &body);
    }
    put_record(&mut file, END, &[]);
    file
}

pub fn table_file(lines: &[Line]) -> Vec<u8> {
    let mut file = Vec::new();
    for line in lines {
        put_record(&mut file, LINE, &line_body(line));
    }
    put_record(&mut file, END, &[]);
    file
}

fn line_body(line: &Line) -> Vec<u8> {
    let mut body = vec![line.router as u8, line.period as u8, line.slot as u8, 0];
    put_word(
        &mut body,
        match line.inport {
            Inport::Buffer(buffer) => buffer,
            Inport::Local => LOCAL as usize,
        },
    );
    put_word(&mut body, line.out);
    body
}
