//! A request with types: a network and its circuits, which the proved reader accepts. Assumes nothing of the numbers it is given.
use crate::bytes::{bodies, byte, put_record, word, CIRCUIT, END, NETWORK};
use crate::sizes::*;
use crate::{read_request, Invalid, Refusal, Unfit};

/// A buffer's two routers: the one that owns it and the one that it leads to.
#[derive(Clone, Copy, Debug, PartialEq, Eq, Hash)]
pub struct Link {
    from: u8,
    to: u8,
}

impl Link {
    /// The router that owns the buffer.
    pub fn from(&self) -> usize {
        self.from.into()
    }

    /// The router that the buffer leads to.
    pub fn to(&self) -> usize {
        self.to.into()
    }
}

/// Routers and the buffers between them.
#[derive(Clone, Debug, PartialEq, Eq, Hash)]
pub struct Network {
    routers: u8,
    links: Vec<Link>,
}

impl Network {
    /// A network of so many routers, with a buffer for each pair (from, to).
    ///
    /// ```
    /// use vaskunoor::Network;
    /// assert!(Network::new(3, [(0, 1), (1, 2), (2, 1)]).is_ok());
    /// assert_eq!(Network::new(257, []).unwrap_err().to_string(), "routers 257 is not one of 1 to 64");
    /// ```
    pub fn new(routers: usize, links: impl IntoIterator<Item = (usize, usize)>) -> Result<Network, Unfit> {
        let routers = Unfit::byte("routers", routers, 1, ROUTERS_MOST)?;
        let last = usize::from(routers) - 1;
        let link = |(from, to)| Ok(Link { from: Unfit::byte("from-router", from, 0, last)?, to: Unfit::byte("to-router", to, 0, last)? });
        let links = links.into_iter().map(link).collect::<Result<Vec<Link>, Unfit>>()?;
        Unfit::check("buffers", links.len(), 0, BUFFERS_MOST)?;
        Ok(Network { routers, links })
    }

    /// How many routers there are.
    pub fn routers(&self) -> usize {
        self.routers.into()
    }

    /// The links, one for each buffer in order.
    pub fn links(&self) -> &[Link] {
        &self.links
    }
}

/// A path of buffers, and how many slots of a cycle its packets want.
#[derive(Clone, Debug, PartialEq, Eq, Hash)]
pub struct Circuit {
    cycle: u8,
    demand: u8,
    path: Vec<u8>,
}

impl Circuit {
    /// A circuit with this cycle, this demand, and a path of buffers.
    ///
    /// ```
    /// use vaskunoor::Circuit;
    /// assert!(Circuit::new(4, 1, [0, 1]).is_ok());
    /// assert_eq!(Circuit::new(260, 1, [0, 1]).unwrap_err().to_string(), "cycle 260 is not one of 1 to 32");
    /// ```
    pub fn new(cycle: usize, demand: usize, path: impl IntoIterator<Item = usize>) -> Result<Circuit, Unfit> {
        let fitting_cycle = Unfit::byte("cycle", cycle, 1, CYCLE_MOST)?;
        let demand = Unfit::byte("demand", demand, 1, cycle)?;
        let buffer = |buffer| Unfit::byte("buffer", buffer, 0, BUFFERS_MOST - 1);
        let path = path.into_iter().map(buffer).collect::<Result<Vec<u8>, Unfit>>()?;
        Unfit::check("hops", path.len(), 1, HOPS_MOST)?;
        Ok(Circuit { cycle: fitting_cycle, demand, path })
    }

    /// The slots after which its offsets come round.
    pub fn cycle(&self) -> usize {
        self.cycle.into()
    }

    /// How many offsets it wants.
    pub fn demand(&self) -> usize {
        self.demand.into()
    }

    /// Its buffers, hop by hop.
    pub fn path(&self) -> impl ExactSizeIterator<Item = usize> + Clone + '_ {
        self.path.iter().map(|&buffer| buffer.into())
    }
}

/// A network and its circuits that read without a fault, with the file that says so.
///
/// It lends itself as the bytes of that file, so it goes wherever a request goes as bytes.
#[derive(Clone, Debug, PartialEq, Eq, Hash)]
pub struct Request {
    network: Network,
    circuits: Vec<Circuit>,
    bytes: Vec<u8>,
}

impl Request {
    /// A request of these parts, which the proved reader accepts.
    ///
    /// ```
    /// use vaskunoor::{Circuit, Network, Request};
    /// let network = Network::new(3, [(0, 1), (1, 2), (2, 1)])?;
    /// let request = Request::new(network.clone(), [Circuit::new(4, 1, [0, 1])?])?;
    /// assert_eq!(request.as_bytes().len(), 30);
    /// // buffer 0 does not lead to the router that owns buffer 2
    /// assert!(Request::new(network, [Circuit::new(4, 1, [0, 2])?]).is_err());
    /// # Ok::<(), Box<dyn std::error::Error>>(())
    /// ```
    pub fn new(network: Network, circuits: impl IntoIterator<Item = Circuit>) -> Result<Request, Invalid> {
        let circuits = Vec::from_iter(circuits);
        Unfit::check("circuits", circuits.len(), 0, CIRCUITS_MOST)?;
        let bytes = file(&network, &circuits);
        read_request(&bytes)?;
        Ok(Request { network, circuits, bytes })
    }

    /// Reads a file.
    ///
    /// ```
    /// use vaskunoor::{Fault, File, Refusal, Request};
    /// let request = Request::read(&[4, 0, 1, 0, 1, 0, 0, 0, 0, 0, 5, 0])?;
    /// assert_eq!((request.network().routers(), request.circuits().len()), (1, 0));
    /// assert_eq!(Request::read(&[4, 0]), Err(Refusal::Damaged { file: File::Request, fault: Fault::Cut, byte: 0 }));
    /// # Ok::<(), Refusal>(())
    /// ```
    pub fn read(bytes: &[u8]) -> Result<Request, Refusal> {
        read_request(bytes)?;
        let network = bodies(bytes, NETWORK).next().map_or(Network { routers: 0, links: Vec::new() }, network);
        Ok(Request { network, circuits: bodies(bytes, CIRCUIT).map(circuit).collect(), bytes: bytes.to_vec() })
    }

    /// The network.
    pub fn network(&self) -> &Network {
        &self.network
    }

    /// The circuits, in order.
    pub fn circuits(&self) -> &[Circuit] {
        &self.circuits
    }

    /// The file.
    pub fn as_bytes(&self) -> &[u8] {
        &self.bytes
    }
}

impl AsRef<[u8]> for Request {
    fn as_ref(&self) -> &[u8] {
        &self.bytes
    }
}

/// A network from its body.
fn network(body: &[u8]) -> Network {
    let pairs = body.get(COUNTS_SIZE..).unwrap_or(&[]).chunks_exact(2);
    Network { routers: byte(body, 0), links: pairs.map(|pair| Link { from: byte(pair, 0), to: byte(pair, 1) }).collect() }
}

/// A circuit from its body; buffers are below 128, so their low bytes are they.
fn circuit(body: &[u8]) -> Circuit {
    let hops = body.get(COUNTS_SIZE..).unwrap_or(&[]).chunks_exact(2);
    Circuit { cycle: byte(body, 0), demand: byte(body, 1), path: hops.map(|hop| word(hop, 0) as u8).collect() }
}

fn file(network: &Network, circuits: &[Circuit]) -> Vec<u8> {
    let mut bytes = Vec::new();
    let mut body = vec![network.routers, 0, network.links.len() as u8, 0];
    body.extend(network.links.iter().flat_map(|link| [link.from, link.to]));
    put_record(&mut bytes, NETWORK, &body);
    for circuit in circuits {
        let mut body = vec![circuit.cycle, circuit.demand, circuit.path.len() as u8, 0];
        body.extend(circuit.path.iter().flat_map(|&buffer| [buffer, 0]));
        put_record(&mut bytes, CIRCUIT, &body);
    }
    put_record(&mut bytes, END, &[]);
    bytes
}
