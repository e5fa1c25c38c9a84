//! The five jobs: files as bytes in, what was done or a refusal out. Assumes the calls of raw.rs.
use crate::raw::{self, DETAILS_SIZE};
use crate::sizes::{ASSIGNMENT_MOST, TABLE_MOST};
use crate::Refusal;

/// Slots that were found.
#[derive(Clone, Debug, PartialEq, Eq)]
pub struct Allocated {
    /// The choices that the search entered.
    pub visits: u32,
    /// The assignment as a file.
    pub assignment: Vec<u8>,
}

/// What a job wrote to the front of an area.
#[derive(Clone, Copy, Debug, PartialEq, Eq)]
pub struct Written {
    /// The choices that the search entered; 0 where the job does not search.
    pub visits: u32,
    /// The bytes written.
    pub bytes: usize,
}

/// Asks one call, and gives its details or its refusal.
fn ask(call: impl FnOnce(&mut [u8]) -> u32) -> Result<[u32; 4], Refusal> {
    let mut area = [0; DETAILS_SIZE];
    let number = call(&mut area);
    let [first, second, third, fourth] = [0, 4, 8, 12].map(|at| u32::from_le_bytes([area[at], area[at + 1], area[at + 2], area[at + 3]]));
    let details = [first, second, third, fourth];
    match number {
        0 => Ok(details),
        _ => Err(Refusal::new(number, details)),
    }
}

/// Reads a request: is it in order?
///
/// ```
/// use vaskunoor::{read_request, Fault, File, Refusal};
/// // one router, no buffers, no circuits
/// assert_eq!(read_request([4, 0, 1, 0, 1, 0, 0, 0, 0, 0, 5, 0]), Ok(()));
/// assert_eq!(read_request([]), Err(Refusal::Damaged { file: File::Request, fault: Fault::Cut, byte: 0 }));
/// ```
pub fn read_request(request: impl AsRef<[u8]>) -> Result<(), Refusal> {
    ask(|details| raw::read(request.as_ref(), details)).map(|_| ())
}

/// Gives slots to the circuits of a request: the first assignment in order of all without a clash. `budget` is how many choices the search
/// may enter. Needs [`ALLOCATE_STACK`](crate::sizes::ALLOCATE_STACK) bytes of stack.
///
/// ```
/// use vaskunoor::{allocate, Circuit, Network, Refusal, Request};
/// let network = Network::new(3, [(0, 1), (1, 2), (2, 1)])?;
/// let request = Request::new(network, [Circuit::new(4, 1, [0, 1])?, Circuit::new(6, 2, [1])?])?;
/// let given = allocate(&request, 1_000_000)?;
/// assert_eq!((given.visits, given.assignment.len()), (10, 15));
/// assert_eq!(allocate(&request, 9), Err(Refusal::Unfinished { visits: 9 }));
/// # Ok::<(), Box<dyn std::error::Error>>(())
/// ```
pub fn allocate(request: impl AsRef<[u8]>, budget: u32) -> Result<Allocated, Refusal> {
    let mut assignment = vec![0; ASSIGNMENT_MOST];
    let written = allocate_into(request, budget, &mut assignment)?;
    assignment.truncate(written.bytes);
    Ok(Allocated { visits: written.visits, assignment })
}

/// As [`allocate`], to the front of an area; the bytes behind keep their values, and with a refusal all of them do.
pub fn allocate_into(request: impl AsRef<[u8]>, budget: u32, assignment: &mut [u8]) -> Result<Written, Refusal> {
    let [visits, bytes, ..] = ask(|details| raw::allocate(request.as_ref(), budget, assignment, details))?;
    Ok(Written { visits, bytes: bytes as usize })
}

/// Do two circuits ever clash with these offsets? `Ok` exactly where no two ever do, over all time.
///
/// ```
/// use vaskunoor::{check_assignment, Assignment, Circuit, Network, Refusal, Request, Resource};
/// let network = Network::new(3, [(0, 1), (1, 2), (2, 1)])?;
/// let request = Request::new(network, [Circuit::new(4, 1, [0, 1])?, Circuit::new(6, 2, [1])?])?;
/// assert_eq!(check_assignment(&request, Assignment::new(&request, [vec![0], vec![0, 2]])?), Ok(()));
/// let clash = Refusal::Clash { lower: 0, higher: 1, slot: 9, what: Resource::Buffer(1) };
/// assert_eq!(check_assignment(&request, Assignment::new(&request, [vec![0], vec![3, 4]])?), Err(clash));
/// # Ok::<(), Box<dyn std::error::Error>>(())
/// ```
pub fn check_assignment(request: impl AsRef<[u8]>, assignment: impl AsRef<[u8]>) -> Result<(), Refusal> {
    ask(|details| raw::check_assignment(request.as_ref(), assignment.as_ref(), details)).map(|_| ())
}

/// Makes the table lines that the slots need, as a file.
///
/// ```
/// use vaskunoor::{allocate, check_tables, make_tables, Circuit, Network, Request};
/// let request = Request::new(Network::new(2, [(0, 1)])?, [Circuit::new(4, 2, [0])?])?;
/// let given = allocate(&request, 1_000_000)?;
/// let table = make_tables(&request, &given.assignment)?;
/// assert_eq!(check_tables(&request, &given.assignment, &table), Ok(()));
/// # Ok::<(), Box<dyn std::error::Error>>(())
/// ```
pub fn make_tables(request: impl AsRef<[u8]>, assignment: impl AsRef<[u8]>) -> Result<Vec<u8>, Refusal> {
    let mut table = vec![0; TABLE_MOST];
    let written = make_tables_into(request, assignment, &mut table)?;
    table.truncate(written.bytes);
    Ok(table)
}

/// As [`make_tables`], to the front of an area; the bytes behind keep their values, and with a refusal all of them do.
///
/// ```
/// use vaskunoor::{make_tables_into, Refusal};
/// let (request, assignment) = ([4, 0, 1, 0, 1, 0, 0, 0, 0, 0, 5, 0], [0, 0, 5, 0]);
/// assert_eq!(make_tables_into(request, assignment, &mut [0; 3]), Err(Refusal::TooShort { needed: 4 }));
/// ```
pub fn make_tables_into(request: impl AsRef<[u8]>, assignment: impl AsRef<[u8]>, table: &mut [u8]) -> Result<Written, Refusal> {
    let [bytes, ..] = ask(|details| raw::make_tables(request.as_ref(), assignment.as_ref(), table, details))?;
    Ok(Written { visits: 0, bytes: bytes as usize })
}

/// Do these lines carry every packet, for ever? `Ok` exactly where the network, started empty and steered by these lines alone, carries
/// every packet of the assignment along its path for ever, and each line serves all of a series or none of it.
///
/// ```
/// use vaskunoor::{check_tables, Assignment, Circuit, Inport, Line, Network, Refusal, Request, Series, Table};
/// let request = Request::new(Network::new(2, [(0, 1)])?, [Circuit::new(4, 2, [0])?])?;
/// let assignment = Assignment::new(&request, [[0, 2]])?;
/// // one line of period 2 serves the packets of both offsets
/// let table = Table::new(&request, [Line::new(0, 2, 0, Inport::Local, 0)?])?;
/// assert_eq!(check_tables(&request, &assignment, &table), Ok(()));
/// let half = Table::new(&request, [Line::new(0, 4, 0, Inport::Local, 0)?])?;
/// let missing = Refusal::NoLine { series: Series { circuit: 0, offset: 2, hop: 0 } };
/// assert_eq!(check_tables(&request, &assignment, &half), Err(missing));
/// # Ok::<(), Box<dyn std::error::Error>>(())
/// ```
pub fn check_tables(request: impl AsRef<[u8]>, assignment: impl AsRef<[u8]>, table: impl AsRef<[u8]>) -> Result<(), Refusal> {
    ask(|details| raw::check_tables(request.as_ref(), assignment.as_ref(), table.as_ref(), details)).map(|_| ())
}
