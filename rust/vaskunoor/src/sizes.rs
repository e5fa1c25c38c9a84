//! The sizes of the format, each once. Assumes nothing; docs/FORMAT.md has them as a table.

/// The most routers that a network can have.
pub const ROUTERS_MOST: usize = 64;
/// The most buffers that a network can have.
pub const BUFFERS_MOST: usize = 128;
/// The most circuits that a request can have.
pub const CIRCUITS_MOST: usize = 32;
/// The longest cycle, and the longest period of a line.
pub const CYCLE_MOST: usize = 32;
/// The most hops that a path can have.
pub const HOPS_MOST: usize = 16;
/// The most lines that a table can have.
pub const LINES_MOST: usize = 4096;

/// What stands in front of every record: its length and its kind.
pub const HEAD_SIZE: usize = 4;
/// What a network or a circuit has in front of its links or hops.
pub const COUNTS_SIZE: usize = 4;
/// The body of a line.
pub const LINE_SIZE: usize = 8;
/// The `in` of a line that takes packets in from the router's own core.
pub const LOCAL: usize = 65535;

/// The longest request without a fault, in bytes.
pub const REQUEST_MOST: usize =
    HEAD_SIZE + COUNTS_SIZE + 2 * BUFFERS_MOST + CIRCUITS_MOST * (HEAD_SIZE + COUNTS_SIZE + 2 * HOPS_MOST) + HEAD_SIZE;
/// The longest assignment without a fault, in bytes: an area of this size has room for any.
pub const ASSIGNMENT_MOST: usize = CIRCUITS_MOST * (HEAD_SIZE + CYCLE_MOST) + HEAD_SIZE;
/// The longest table without a fault, in bytes: an area of this size has room for any.
pub const TABLE_MOST: usize = LINES_MOST * (HEAD_SIZE + LINE_SIZE) + HEAD_SIZE;

/// The stack that [`read_request`](crate::read_request) is sure to find enough, in bytes.
pub const READ_STACK: usize = 8192;
/// The stack that [`allocate`](crate::allocate) is sure to find enough, in bytes.
pub const ALLOCATE_STACK: usize = 491_520;
/// The stack that [`check_assignment`](crate::check_assignment) is sure to find enough, in bytes.
pub const CHECK_ASSIGNMENT_STACK: usize = 16_384;
/// The stack that [`make_tables`](crate::make_tables) is sure to find enough, in bytes.
pub const MAKE_TABLES_STACK: usize = 16_384;
/// The stack that [`check_tables`](crate::check_tables) is sure to find enough, in bytes.
pub const CHECK_TABLES_STACK: usize = 28_672;

#[cfg(test)]
mod tests {
    use super::*;
    use crate::raw::DETAILS_SIZE;

    /// The number that include/vaskunoor.h gives a name.
    fn in_header(name: &str) -> Option<usize> {
        let header = include_str!("../../../include/vaskunoor.h");
        let define = format!("#define VASKUNOOR_{name} ");
        let value = header.lines().find_map(|line| line.strip_prefix(&define))?;
        value.split_whitespace().next()?.parse().ok()
    }

    #[test]
    fn the_sizes_are_those_of_the_header() {
        let sizes = [
            ("DETAILS_SIZE", DETAILS_SIZE),
            ("REQUEST_MOST", REQUEST_MOST),
            ("ASSIGNMENT_MOST", ASSIGNMENT_MOST),
            ("TABLE_MOST", TABLE_MOST),
            ("READ_STACK", READ_STACK),
            ("ALLOCATE_STACK", ALLOCATE_STACK),
            ("CHECK_ASSIGNMENT_STACK", CHECK_ASSIGNMENT_STACK),
            ("MAKE_TABLES_STACK", MAKE_TABLES_STACK),
            ("CHECK_TABLES_STACK", CHECK_TABLES_STACK),
        ];
        for (name, size) in sizes {
            assert_eq!(in_header(name), Some(size), "{name}");
        }
    }
}
