//! Books the time slots of an on-chip network, makes its routers' table lines, and checks tables from any tool, over an archive of proved
//! code that is linked in.
//!
//! The five jobs take files as bytes and check everything themselves: [`read_request`], [`allocate`], [`check_assignment`],
//! [`make_tables`] and [`check_tables`]. Each answers what was done or a [`Refusal`], and no file, however broken, makes one panic.
//! [`Request`], [`Assignment`] and [`Table`] are the same files with types; none can be built from numbers that do not fit, and each lends
//! itself as the bytes of its file, so it goes wherever bytes go.
//!
//! ```
//! use vaskunoor::{allocate, check_tables, make_tables, Circuit, Network, Request};
//!
//! let network = Network::new(3, [(0, 1), (1, 2), (2, 1)])?;
//! let request = Request::new(network, [Circuit::new(4, 1, [0, 1])?, Circuit::new(6, 2, [1])?])?;
//! let given = allocate(&request, 1_000_000)?;
//! let table = make_tables(&request, &given.assignment)?;
//! check_tables(&request, &given.assignment, &table)?;
//! # Ok::<(), Box<dyn std::error::Error>>(())
//! ```
//!
//! Nothing here keeps state: every function may be called from any thread at any time. [`allocate`] needs
//! [`sizes::ALLOCATE_STACK`] bytes of stack, and [`sizes`] has those of every other call; a thread of the standard library has 2 MiB.
//! The archive is linked in when a program is built, and nothing in a running program's environment can put another in its place.
#![deny(missing_docs)]

mod assignment;
mod bytes;
mod fit;
mod jobs;
pub mod raw;
mod refusal;
mod request;
pub mod sizes;
mod table;

pub use assignment::Assignment;
pub use fit::{Invalid, Unfit};
pub use jobs::{allocate, allocate_into, check_assignment, check_tables, make_tables, make_tables_into, read_request, Allocated, Written};
pub use refusal::{Fault, File, Refusal, Resource, Series};
pub use request::{Circuit, Link, Network, Request};
pub use table::{Inport, Line, Table};
