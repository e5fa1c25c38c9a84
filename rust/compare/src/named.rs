//! Nets P and Q of document 01, "Tried by hand", and the fullest net there can be. Assumes nothing.
use crate::model::{Buffer, Circuit, Network, Request, BUFFERS_MOST, CYCLE_MOST, HOPS_MOST, ROUTERS_MOST};

pub fn network(routers: usize, links: &[(usize, usize)]) -> Network {
    Network { routers, buffers: links.iter().map(|&(from, to)| Buffer { from, to }).collect() }
}

pub fn circuit(cycle: usize, demand: usize, path: &[usize]) -> Circuit {
    Circuit { cycle, demand, path: path.to_vec() }
}

/// Circuits X and Y.
pub fn net_p() -> Request {
    Request { network: network(3, &[(0, 1), (1, 2), (2, 1)]), circuits: vec![circuit(4, 1, &[0, 1]), circuit(6, 2, &[1])] }
}

/// Circuits A and Z.
pub fn net_q() -> Request {
    let network = network(4, &[(0, 1), (1, 2), (2, 1), (1, 3)]);
    Request { network, circuits: vec![circuit(4, 1, &[0, 3]), circuit(4, 1, &[0, 1, 2, 3])] }
}

/// A ring in both directions, every buffer in use in every slot: its table has as many lines as a table can have. The way back starts
/// at router 8, so that no two circuits start at one router.
pub fn full_ring() -> Request {
    let onward = |router: usize| (router, (router + 1) % ROUTERS_MOST);
    let back = |step: usize| ((ROUTERS_MOST + 8 - step) % ROUTERS_MOST, (ROUTERS_MOST + 7 - step) % ROUTERS_MOST);
    let links: Vec<(usize, usize)> = (0..ROUTERS_MOST).map(onward).chain((0..ROUTERS_MOST).map(back)).collect();
    let starts = (0..BUFFERS_MOST).step_by(HOPS_MOST);
    let circuits = starts.map(|start| circuit(CYCLE_MOST, CYCLE_MOST, &Vec::from_iter(start..start + HOPS_MOST)));
    Request { network: network(ROUTERS_MOST, &links), circuits: circuits.collect() }
}
