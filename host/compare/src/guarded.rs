//! Memory that an inaccessible page follows or precedes, so that a read or a write outside is a crash and not luck.
use std::ffi::c_void;
use std::{mem, ptr, slice};

extern "C" {
    fn mmap(address: *mut c_void, length: usize, protection: i32, flags: i32, file: i32, offset: i64) -> *mut c_void;
    fn mprotect(address: *mut c_void, length: usize, protection: i32) -> i32;
    fn munmap(address: *mut c_void, length: usize) -> i32;
}

const PAGE: usize = 4096;
const NONE: i32 = 0;
const READ: i32 = 1;
const WRITE: i32 = 2;
/// Private and anonymous.
const FLAGS: i32 = 0x22;

/// Which end of the memory touches an inaccessible page. Both ends are inside such pages; only one can touch, unless the length fills
/// pages.
#[derive(Clone, Copy, Debug)]
pub enum Side {
    Before,
    After,
}

/// A copy of entries between two inaccessible pages.
pub struct Guarded<T: Copy> {
    memory: *mut u8,
    size: usize,
    first: *mut T,
    length: usize,
}

impl<T: Copy> Guarded<T> {
    pub fn new(entries: &[T], side: Side) -> Self {
        let bytes = mem::size_of_val(entries);
        let inner = bytes.div_ceil(PAGE).max(1) * PAGE;
        let size = inner + 2 * PAGE;
        // Safe: fresh anonymous memory; the copy goes to the accessible part, and fits it.
        unsafe {
            let memory = mmap(ptr::null_mut(), size, NONE, FLAGS, -1, 0) as *mut u8;
            assert!(memory as isize != -1, "no memory for a guarded buffer of {size} bytes");
            let start = memory.add(PAGE);
            assert_eq!(mprotect(start as *mut c_void, inner, READ | WRITE), 0);
            let first = match side {
                Side::Before => start,
                Side::After => start.add(inner - bytes),
            } as *mut T;
            ptr::copy_nonoverlapping(entries.as_ptr(), first, entries.len());
            Guarded {
                memory,
                size,
                first,
                length: entries.len(),
            }
        }
    }

    /// The same, and from now on a write is a crash too.
    pub fn read_only(entries: &[T], side: Side) -> Self {
        let guarded = Self::new(entries, side);
        guarded.protect();
        guarded
    }

    fn protect(&self) {
        // Safe: the part between the two inaccessible pages is this buffer's own.
        unsafe {
            assert_eq!(mprotect(self.memory.add(PAGE) as *mut c_void, self.size - 2 * PAGE, READ), 0);
        }
    }

    pub fn get(&self) -> &[T] {
        // Safe: `new` has copied that many entries there.
        unsafe { slice::from_raw_parts(self.first, self.length) }
    }

    /// For a buffer that is not read-only, or for code that must not write.
    pub fn get_mut(&mut self) -> &mut [T] {
        // Safe: as above, and the borrow is exclusive.
        unsafe { slice::from_raw_parts_mut(self.first, self.length) }
    }
}

impl<T: Copy> Drop for Guarded<T> {
    fn drop(&mut self) {
        // Safe: nothing borrows the memory any more.
        unsafe {
            munmap(self.memory as *mut c_void, self.size);
        }
    }
}
