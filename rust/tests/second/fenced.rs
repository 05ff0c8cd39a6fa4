//! Lent memory between two fences: stretches of addresses that may be neither read nor written. A call that steps over its memory's end ends
//! the whole test at once.
use std::ffi::c_void;
use std::ops::{Deref, DerefMut};
use std::{mem, ptr, slice};

const NEITHER: i32 = 0;
const READ: i32 = 1;
const READ_AND_WRITE: i32 = 3;
/// Private memory without a file, which takes up space only where it is written: MAP_PRIVATE, MAP_ANONYMOUS and MAP_NORESERVE of Linux.
const FRESH: i32 = 0x4022;

/// A multiple of every page size in use.
const FENCE: usize = 65_536;

extern "C" {
    fn mmap(
        at: *mut c_void,
        length: usize,
        may: i32,
        how: i32,
        file: i32,
        from: i64,
    ) -> *mut c_void;
    fn mprotect(at: *mut c_void, length: usize, may: i32) -> i32;
    fn munmap(at: *mut c_void, length: usize) -> i32;
}

/// Zeroed elements of memory, the last one of which ends at a fence.
pub struct Fenced<T: Copy> {
    mapped: *mut c_void,
    mapped_length: usize,
    first: *mut T,
    length: usize,
}

// SAFETY: the memory belongs to this value alone.
unsafe impl<T: Copy + Send> Send for Fenced<T> {}

impl<T: Copy> Fenced<T> {
    fn with(length: usize, may: i32) -> Fenced<T> {
        let bytes = length * mem::size_of::<T>();
        let inner = (bytes + FENCE - 1) / FENCE * FENCE;
        let mapped_length = inner + 2 * FENCE;
        // SAFETY: fresh memory is asked for, all of it behind the fence; what lies between the fences is then opened.
        unsafe {
            let mapped = mmap(ptr::null_mut(), mapped_length, NEITHER, FRESH, -1, 0);
            assert!(
                mapped as isize != -1,
                "no {mapped_length} bytes of addresses"
            );
            assert_eq!(mprotect(mapped.add(FENCE), inner, may), 0);
            let first = mapped.add(FENCE + inner - bytes).cast();
            Fenced {
                mapped,
                mapped_length,
                first,
                length,
            }
        }
    }

    pub fn zeroed(length: usize) -> Fenced<T> {
        Fenced::with(length, READ_AND_WRITE)
    }

    /// The last so many elements.
    pub fn last(&mut self, count: usize) -> &mut [T] {
        let length = self.length;
        &mut self[length - count..]
    }
}

impl Fenced<u8> {
    /// A letter of zeros that can be read and takes up no space.
    pub fn letter_of_zeros(length: usize) -> Fenced<u8> {
        Fenced::with(length, READ)
    }
}

impl<T: Copy> Deref for Fenced<T> {
    type Target = [T];
    fn deref(&self) -> &[T] {
        // SAFETY: so many elements lie there, and zeros are elements: T is u8 or u32.
        unsafe { slice::from_raw_parts(self.first, self.length) }
    }
}

impl<T: Copy> DerefMut for Fenced<T> {
    fn deref_mut(&mut self) -> &mut [T] {
        // SAFETY: as above; and `&mut self` keeps any other reader away. A letter of zeros is lent for reading only.
        unsafe { slice::from_raw_parts_mut(self.first, self.length) }
    }
}

impl<T: Copy> Drop for Fenced<T> {
    fn drop(&mut self) {
        // SAFETY: it was mapped with this length, and nothing refers to it any more.
        unsafe { munmap(self.mapped, self.mapped_length) };
    }
}
