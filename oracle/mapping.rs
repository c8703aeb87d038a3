//! Address space for one segment: a page for its header, and the payload from the next page on.

use core::ffi::{c_int, c_void};
use core::ptr::NonNull;

pub const PAGE: usize = 4096;

const PROT_READ_WRITE: c_int = 1 | 2;
const MAP_PRIVATE: c_int = 0x02;
const MAP_ANONYMOUS: c_int = 0x20;
const MAP_NORESERVE: c_int = 0x4000;

unsafe extern "C" {
    fn mmap(at: *mut c_void, len: usize, prot: c_int, flags: c_int, file: c_int, from: i64) -> *mut c_void;
    fn munmap(at: *mut c_void, len: usize) -> c_int;
}

/// Memory is taken only for pages that are touched, and no payload byte ever is: a payload of 4 GiB costs nothing.
#[derive(Debug)]
pub struct Mapping {
    start: NonNull<u8>,
    len: usize,
}

impl Mapping {
    pub fn for_payload(size: usize) -> Self {
        let len = PAGE + size.next_multiple_of(PAGE);
        let flags = MAP_PRIVATE | MAP_ANONYMOUS | MAP_NORESERVE;
        let start = unsafe { mmap(core::ptr::null_mut(), len, PROT_READ_WRITE, flags, -1, 0) };
        assert!(start as isize != -1, "no address space for {len} bytes");
        Self { start: NonNull::new(start.cast()).expect("a mapping does not start at address 0"), len }
    }

    pub fn header(&self) -> NonNull<u8> {
        self.start
    }

    pub fn payload(&self) -> NonNull<u8> {
        unsafe { self.start.add(PAGE) }
    }
}

impl Drop for Mapping {
    fn drop(&mut self) {
        unsafe { munmap(self.start.as_ptr().cast(), self.len) };
    }
}
