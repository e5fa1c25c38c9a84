//! The five calls as include/vaskunoor.h declares them, over slices. Each returns its number and writes the four details, 4 bytes each and
//! little-endian, to `details`; where that area has not 16 bytes a call returns 17 before all else and writes nothing. Most tools want the
//! functions of the crate's root, which return a [`Refusal`](crate::Refusal) instead. Assumes the archive that build.rs names.

/// The bytes of a details area.
pub const DETAILS_SIZE: usize = 16;

#[rustfmt::skip]
mod linked {
    extern "C" {
        pub fn vaskunoor_read(request: *const u8, request_size: usize, details: *mut u8, details_size: usize) -> u32;

        pub fn vaskunoor_allocate(
            request: *const u8, request_size: usize, budget: u32, assignment: *mut u8, assignment_size: usize,
            details: *mut u8, details_size: usize,
        ) -> u32;

        pub fn vaskunoor_check_assignment(
            request: *const u8, request_size: usize, assignment: *const u8, assignment_size: usize,
            details: *mut u8, details_size: usize,
        ) -> u32;

        pub fn vaskunoor_make_tables(
            request: *const u8, request_size: usize, assignment: *const u8, assignment_size: usize,
            table: *mut u8, table_size: usize, details: *mut u8, details_size: usize,
        ) -> u32;

        pub fn vaskunoor_check_tables(
            request: *const u8, request_size: usize, assignment: *const u8, assignment_size: usize,
            table: *const u8, table_size: usize, details: *mut u8, details_size: usize,
        ) -> u32;
    }
}

// What the five unsafe calls rest on: a slice's pointer is good for its length, slices that are lent out at the same time do not overlap
// where one of them is lent to be written, and the calls keep no pointer and touch nothing else.

/// Reads a request.
pub fn read(request: &[u8], details: &mut [u8]) -> u32 {
    unsafe { linked::vaskunoor_read(request.as_ptr(), request.len(), details.as_mut_ptr(), details.len()) }
}

/// Gives slots to the circuits of a request, in at most `budget` visits, and writes them to `assignment`.
pub fn allocate(request: &[u8], budget: u32, assignment: &mut [u8], details: &mut [u8]) -> u32 {
    let (area, area_size) = (assignment.as_mut_ptr(), assignment.len());
    let (told, told_size) = (details.as_mut_ptr(), details.len());
    unsafe { linked::vaskunoor_allocate(request.as_ptr(), request.len(), budget, area, area_size, told, told_size) }
}

/// Checks an assignment of a request.
pub fn check_assignment(request: &[u8], assignment: &[u8], details: &mut [u8]) -> u32 {
    let (offsets, offsets_size) = (assignment.as_ptr(), assignment.len());
    let (told, told_size) = (details.as_mut_ptr(), details.len());
    unsafe { linked::vaskunoor_check_assignment(request.as_ptr(), request.len(), offsets, offsets_size, told, told_size) }
}

/// Makes the table of an assignment and writes it to `table`.
pub fn make_tables(request: &[u8], assignment: &[u8], table: &mut [u8], details: &mut [u8]) -> u32 {
    let (offsets, offsets_size) = (assignment.as_ptr(), assignment.len());
    let (area, area_size) = (table.as_mut_ptr(), table.len());
    let (told, told_size) = (details.as_mut_ptr(), details.len());
    unsafe { linked::vaskunoor_make_tables(request.as_ptr(), request.len(), offsets, offsets_size, area, area_size, told, told_size) }
}

/// Checks a table against the request and the assignment that it is for.
pub fn check_tables(request: &[u8], assignment: &[u8], table: &[u8], details: &mut [u8]) -> u32 {
    let (offsets, offsets_size) = (assignment.as_ptr(), assignment.len());
    let (lines, lines_size) = (table.as_ptr(), table.len());
    let (told, told_size) = (details.as_mut_ptr(), details.len());
    unsafe { linked::vaskunoor_check_tables(request.as_ptr(), request.len(), offsets, offsets_size, lines, lines_size, told, told_size) }
}
