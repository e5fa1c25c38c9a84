//! Reads the three files, record by record, to what they say or to the first refusal. Assumes nothing of their bytes.
use super::Told;
use crate::model::*;
use crate::number;

type Read<T> = Result<T, Told>;

struct File<'a> {
    number: u32,
    bytes: &'a [u8],
}

/// The first four bytes of a record, and where they stand.
struct Head {
    start: usize,
    length: usize,
    kind: u16,
}

impl Head {
    fn end(&self) -> usize {
        self.start + HEAD_SIZE + self.length
    }
}

fn word(bytes: &[u8], at: usize) -> usize {
    u16::from_le_bytes([bytes[at], bytes[at + 1]]) as usize
}

fn ensure(holds: bool, refusal: Told) -> Read<()> {
    if holds {
        Ok(())
    } else {
        Err(refusal)
    }
}

impl<'a> File<'a> {
    fn refusal(&self, number: u32, byte: usize) -> Told {
        Told::new(number, &[self.number, byte as u32])
    }

    fn head(&self, start: usize) -> Read<Head> {
        let left = &self.bytes[start..];
        ensure(left.len() >= HEAD_SIZE, self.refusal(number::CUT, start))?;
        Ok(Head { start, length: word(left, 0), kind: word(left, 2) as u16 })
    }

    /// The body of a record whose length is one of those possible for its kind.
    fn body(&self, head: &Head, length_possible: bool) -> Read<&'a [u8]> {
        ensure(length_possible, self.refusal(number::LENGTH, head.start))?;
        let body = self.bytes.get(head.start + HEAD_SIZE..head.end());
        body.ok_or(self.refusal(number::CUT, head.start))
    }

    fn end(&self, head: &Head) -> Read<()> {
        self.body(head, head.length == 0)?;
        ensure(head.end() == self.bytes.len(), self.refusal(number::AFTER_END, head.end()))
    }
}

pub fn request(bytes: &[u8]) -> Read<Request> {
    let file = File { number: 1, bytes };
    let mut head = file.head(0)?;
    let network = network(&file, &head)?;
    let mut request = Request { network, circuits: Vec::new() };
    loop {
        head = file.head(head.end())?;
        match head.kind {
            CIRCUIT => {
                let circuit = circuit(&file, &head, &request)?;
                request.circuits.push(circuit);
            }
            END => return file.end(&head).map(|()| request),
            _ => return Err(file.refusal(number::KIND, head.start)),
        }
    }
}

fn network(file: &File, head: &Head) -> Read<Network> {
    let refusal = |number| file.refusal(number, head.start);
    ensure(head.kind == NETWORK, refusal(number::KIND))?;
    let possible = head.length.is_multiple_of(2) && (4..=4 + 2 * BUFFERS_MOST).contains(&head.length);
    let body = file.body(head, possible)?;
    let (routers, count) = (word(body, 0), word(body, 2));
    ensure((1..=ROUTERS_MOST).contains(&routers) && count <= BUFFERS_MOST, refusal(number::COUNT))?;
    ensure(body.len() == 4 + 2 * count, refusal(number::LENGTH))?;
    let pairs = body[4..].chunks(2);
    let buffers: Vec<Buffer> = pairs.map(|pair| Buffer { from: pair[0] as usize, to: pair[1] as usize }).collect();
    ensure(links_are_sound(routers, &buffers), refusal(number::VALUE))?;
    Ok(Network { routers, buffers })
}

fn links_are_sound(routers: usize, buffers: &[Buffer]) -> bool {
    let mut seen = [[false; ROUTERS_MOST]; ROUTERS_MOST];
    for buffer in buffers {
        if buffer.from >= routers || buffer.to >= routers || buffer.from == buffer.to {
            return false;
        }
        if std::mem::replace(&mut seen[buffer.from][buffer.to], true) {
            return false;
        }
    }
    true
}

fn circuit(file: &File, head: &Head, request: &Request) -> Read<Circuit> {
    let refusal = |number| file.refusal(number, head.start);
    ensure(request.circuits.len() < CIRCUITS_MOST, refusal(number::COUNT))?;
    let possible = head.length.is_multiple_of(2) && (6..=4 + 2 * HOPS_MOST).contains(&head.length);
    let body = file.body(head, possible)?;
    let (cycle, demand, hops, spare) = (body[0] as usize, body[1] as usize, body[2] as usize, body[3]);
    ensure((1..=CYCLE_MOST).contains(&cycle), refusal(number::COUNT))?;
    ensure((1..=cycle).contains(&demand), refusal(number::COUNT))?;
    ensure((1..=HOPS_MOST).contains(&hops), refusal(number::COUNT))?;
    ensure(body.len() == 4 + 2 * hops, refusal(number::LENGTH))?;
    let path: Vec<usize> = (0..hops).map(|hop| word(body, 4 + 2 * hop)).collect();
    let known = |&buffer: &usize| buffer < request.network.buffers.len();
    ensure(spare == 0 && path.iter().all(known), refusal(number::VALUE))?;
    ensure(path_holds_together(&request.network, &path), refusal(number::PATH))?;
    Ok(Circuit { cycle, demand, path })
}

fn path_holds_together(network: &Network, path: &[usize]) -> bool {
    let mut seen = [false; BUFFERS_MOST];
    let once = path.iter().all(|&buffer| !std::mem::replace(&mut seen[buffer], true));
    let joined = |pair: &[usize]| network.buffers[pair[0]].to == network.buffers[pair[1]].from;
    once && path.windows(2).all(joined)
}

pub fn assignment(bytes: &[u8], circuits: &[Circuit]) -> Read<Assignment> {
    let file = File { number: 2, bytes };
    let mut assignment = Vec::new();
    let mut start = 0;
    loop {
        let head = file.head(start)?;
        let refusal = |number| file.refusal(number, head.start);
        let next = circuits.get(assignment.len());
        match (head.kind, next) {
            (OFFSETS, Some(circuit)) => assignment.push(offsets(&file, &head, circuit)?),
            (END, None) => return file.end(&head).map(|()| assignment),
            (OFFSETS, None) | (END, Some(_)) => return Err(refusal(number::OFFSETS)),
            _ => return Err(refusal(number::KIND)),
        }
        start = head.end();
    }
}

fn offsets(file: &File, head: &Head, circuit: &Circuit) -> Read<Vec<usize>> {
    let body = file.body(head, (1..=CYCLE_MOST).contains(&head.length))?;
    let offsets: Vec<usize> = body.iter().map(|&offset| offset as usize).collect();
    let rising = offsets.windows(2).all(|pair| pair[0] < pair[1]);
    let below = offsets.iter().all(|&offset| offset < circuit.cycle);
    ensure(offsets.len() == circuit.demand && rising && below, file.refusal(number::OFFSETS, head.start))?;
    Ok(offsets)
}

pub fn table(bytes: &[u8], network: &Network) -> Read<Vec<Line>> {
    let file = File { number: 3, bytes };
    let mut lines = Vec::new();
    let mut start = 0;
    loop {
        let head = file.head(start)?;
        let refusal = |number| file.refusal(number, head.start);
        match head.kind {
            LINE => ensure(lines.len() < LINES_MOST, refusal(number::COUNT))?,
            END => return file.end(&head).map(|()| lines),
            _ => return Err(refusal(number::KIND)),
        }
        let body = file.body(&head, head.length == LINE_SIZE)?;
        lines.push(line(body, network).ok_or(refusal(number::LINE))?);
        start = head.end();
    }
}

fn line(body: &[u8], network: &Network) -> Option<Line> {
    let (router, period, slot, spare) = (body[0] as usize, body[1] as usize, body[2] as usize, body[3]);
    if router >= network.routers || !(1..=CYCLE_MOST).contains(&period) || slot >= period || spare != 0 {
        return None;
    }
    let inport = inport(word(body, 4), router, network)?;
    let out = word(body, 6);
    let owned = network.buffers.get(out)?.from == router;
    owned.then_some(Line { router, period, slot, inport, out })
}

fn inport(written: usize, router: usize, network: &Network) -> Option<Inport> {
    if written == LOCAL as usize {
        return Some(Inport::Local);
    }
    let leads_here = network.buffers.get(written)?.to == router;
    leads_here.then_some(Inport::Buffer(written))
}
