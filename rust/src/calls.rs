//! The library's calls as they are exported, and each again as a safe function on slices. Nothing else in this crate is `unsafe`.

#[repr(C)]
#[derive(Clone, Copy)]
pub struct Built {
    pub number: u32,
    pub offset: usize,
}

#[repr(C)]
#[derive(Clone, Copy)]
pub struct Fed {
    pub number: u32,
    pub taken: usize,
    pub reports: usize,
    pub steps: u64,
}

extern "C" {
    fn tsuvrankhe_table_size() -> usize;
    fn tsuvrankhe_running_size() -> usize;
    fn tsuvrankhe_build(
        book: *const u8,
        book_length: usize,
        tables: *mut u8,
        tables_length: usize,
    ) -> Built;
    fn tsuvrankhe_begin(
        tables: *const u8,
        tables_length: usize,
        running: *mut u8,
        running_length: usize,
    ) -> u32;
    fn tsuvrankhe_feed(
        tables: *const u8,
        tables_length: usize,
        running: *mut u8,
        running_length: usize,
        part: *const u8,
        part_length: usize,
        room: *mut u32,
        room_length: usize,
    ) -> Fed;
}

pub fn table_size() -> usize {
    // SAFETY: the call takes nothing and reads no memory of ours.
    unsafe { tsuvrankhe_table_size() }
}

pub fn running_size() -> usize {
    // SAFETY: the call takes nothing and reads no memory of ours.
    unsafe { tsuvrankhe_running_size() }
}

pub fn build(book: &[u8], tables: &mut [u8]) -> Built {
    // SAFETY: both pointers are those of slices, valid for their lengths, and what is lent by `&mut` overlaps nothing else.
    unsafe { tsuvrankhe_build(book.as_ptr(), book.len(), tables.as_mut_ptr(), tables.len()) }
}

pub fn begin(tables: &[u8], running: &mut [u8]) -> u32 {
    // SAFETY: as in `build`.
    unsafe {
        tsuvrankhe_begin(
            tables.as_ptr(),
            tables.len(),
            running.as_mut_ptr(),
            running.len(),
        )
    }
}

/// The tables' bytes never leave this crate, so that `part` does not overlap them either.
pub fn feed(tables: &[u8], running: &mut [u8], part: &[u8], room: &mut [u32]) -> Fed {
    // SAFETY: as in `build`; a slice of `u32` is aligned for 32 bits; `&mut` keeps a second call from the running memory.
    unsafe {
        tsuvrankhe_feed(
            tables.as_ptr(),
            tables.len(),
            running.as_mut_ptr(),
            running.len(),
            part.as_ptr(),
            part.len(),
            room.as_mut_ptr(),
            room.len(),
        )
    }
}
