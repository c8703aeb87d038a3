//! Memory given out from front to back, and never again.

use core::alloc::Layout;
use core::ptr::NonNull;
use core::sync::atomic::{AtomicUsize, Ordering};

use crate::allocator::{AllocationError, BaseAllocator, bytes_at};

#[derive(Debug)]
pub struct BumpAllocator {
    start: usize,
    size: usize,
    mark: AtomicUsize,
}

impl BumpAllocator {
    pub fn new(start: NonNull<u8>, size: usize) -> Self {
        Self { start: start.as_ptr() as usize, size, mark: AtomicUsize::new(0) }
    }

    pub fn start_address(&self) -> usize {
        self.start
    }

    pub fn total_space(&self) -> usize {
        self.size
    }

    pub fn free_space(&self) -> usize {
        self.size - self.mark.load(Ordering::Relaxed)
    }
}

impl BaseAllocator for BumpAllocator {
    fn allocate(&self, layout: Layout) -> Result<NonNull<[u8]>, AllocationError> {
        let mark = self.mark.load(Ordering::Relaxed);
        let start = (self.start + mark).next_multiple_of(layout.align());
        let end = start - self.start + layout.size();
        if end > self.size {
            return Err(AllocationError::OutOfMemory);
        }
        self.mark.store(end, Ordering::Relaxed);
        Ok(bytes_at(start, layout.size()))
    }

    unsafe fn deallocate(&self, _memory: NonNull<u8>, _layout: Layout) {}
}
