//! The library's calls as include/tsuvrankhe.h declares them, on slices. They are declared here once more, so that memory of any size and
//! with any bytes can be lent, which the safe crate does not allow.

// The safe crate brings libdesk.a.
extern crate tsuvrankhe as _;

#[repr(C)]
#[derive(Clone, Copy, Debug, PartialEq, Eq)]
pub struct Built {
    pub number: u32,
    pub offset: usize,
}

#[repr(C)]
#[derive(Clone, Copy, Debug, PartialEq, Eq)]
pub struct Fed {
    pub number: u32,
    pub taken: usize,
    pub reports: usize,
    pub steps: u64,
}

impl Fed {
    /// What feed says when it refuses: 0 bytes taken, 0 reports, 0 steps.
    pub fn refused(number: u32) -> Fed {
        Fed {
            number,
            taken: 0,
            reports: 0,
            steps: 0,
        }
    }
}

/// The paper's numbers that the tests speak of.
pub const DONE: u32 = 0;
pub const TOO_SMALL: u32 = 1;
pub const NO_ROOM: u32 = 10;
pub const TOO_LONG: u32 = 11;
pub const NOT_PASSED: u32 = 12;

#[rustfmt::skip]
extern "C" {
    fn tsuvrankhe_table_size() -> usize;
    fn tsuvrankhe_running_size() -> usize;
    fn tsuvrankhe_build(book: *const u8, book_length: usize, tables: *mut u8, tables_length: usize) -> Built;
    fn tsuvrankhe_begin(tables: *const u8, tables_length: usize, running: *mut u8, running_length: usize) -> u32;
    fn tsuvrankhe_feed(tables: *const u8, tables_length: usize, running: *mut u8, running_length: usize,
                       part: *const u8, part_length: usize, room: *mut u32, room_length: usize) -> Fed;
}

pub fn table_size() -> usize {
    // SAFETY: nothing is lent.
    unsafe { tsuvrankhe_table_size() }
}

pub fn running_size() -> usize {
    // SAFETY: nothing is lent.
    unsafe { tsuvrankhe_running_size() }
}

pub fn build(book: &[u8], tables: &mut [u8]) -> Built {
    // SAFETY: slices are valid for their lengths, and a `&mut` one overlaps no other.
    unsafe { tsuvrankhe_build(book.as_ptr(), book.len(), tables.as_mut_ptr(), tables.len()) }
}

pub fn begin(tables: &[u8], running: &mut [u8]) -> u32 {
    // SAFETY: as in `build`.
    unsafe {
        tsuvrankhe_begin(
            tables.as_ptr(),
            tables.len(),
            running.as_mut_ptr(),
            running.len(),
        )
    }
}

pub fn feed(tables: &[u8], running: &mut [u8], part: &[u8], room: &mut [u32]) -> Fed {
    // SAFETY: as in `build`; a slice of `u32` is aligned for 32 bits.
    unsafe {
        tsuvrankhe_feed(
            tables.as_ptr(),
            tables.len(),
            running.as_mut_ptr(),
            running.len(),
            part.as_ptr(),
            part.len(),
            room.as_mut_ptr(),
            room.len(),
        )
    }
}

/// Build, begin and feed, each told that so many bytes more are lent than the slices have, and the room one element more. Of these nothing may be
/// touched: they are past the published sizes, and an odd last element.
pub fn with_more_lent(
    book: &[u8],
    tables: &mut [u8],
    running: &mut [u8],
    part: &[u8],
    room: &mut [u32],
    more: usize,
) -> (Built, u32, Fed) {
    let (book, book_length) = (book.as_ptr(), book.len());
    let (tables, tables_length) = (tables.as_mut_ptr(), tables.len() + more);
    let (running, running_length) = (running.as_mut_ptr(), running.len() + more);
    let (part, part_length) = (part.as_ptr(), part.len());
    let (room, room_length) = (room.as_mut_ptr(), room.len() + 1);
    // SAFETY: the slices are of the published sizes and the room's length is even, so that the calls touch nothing past them.
    unsafe {
        let built = tsuvrankhe_build(book, book_length, tables, tables_length);
        let begun = tsuvrankhe_begin(tables, tables_length, running, running_length);
        let fed = tsuvrankhe_feed(
            tables,
            tables_length,
            running,
            running_length,
            part,
            part_length,
            room,
            room_length,
        );
        (built, begun, fed)
    }
}
