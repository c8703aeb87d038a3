//! Equal buckets. The free ones form a list, given out and returned at its front.

use core::alloc::Layout;
use core::ptr::NonNull;
use core::sync::atomic::{AtomicU16, Ordering};

use crate::allocator::{AllocationError, BaseAllocator, bytes_at};

pub const MAX_BUCKETS: usize = 1024;

const NONE: u16 = u16::MAX;

/// The list of free buckets. It lies inside the allocator, so that a segment holds its payload and nothing else.
#[derive(Debug)]
struct FreeList {
    first: AtomicU16,
    next: [AtomicU16; MAX_BUCKETS],
}

impl FreeList {
    fn empty() -> Self {
        Self { first: AtomicU16::new(NONE), next: [const { AtomicU16::new(NONE) }; MAX_BUCKETS] }
    }

    fn push(&self, bucket: u16) {
        let first = self.first.swap(bucket, Ordering::Relaxed);
        self.next[bucket as usize].store(first, Ordering::Relaxed);
    }

    fn pop(&self) -> Option<u16> {
        let bucket = self.first.load(Ordering::Relaxed);
        if bucket == NONE {
            return None;
        }
        let next = self.next[bucket as usize].load(Ordering::Relaxed);
        self.first.store(next, Ordering::Relaxed);
        Some(bucket)
    }
}

#[derive(Debug)]
pub struct PoolAllocator {
    start: usize,
    bucket_size: usize,
    alignment: usize,
    buckets: usize,
    free: FreeList,
}

impl PoolAllocator {
    /// # Safety
    ///
    /// `init` is called before anything else.
    pub unsafe fn new_uninit(bucket_layout: Layout, start: NonNull<u8>, size: usize) -> Self {
        let bucket_size = bucket_layout.size().next_multiple_of(bucket_layout.align());
        Self {
            start: start.as_ptr() as usize,
            bucket_size,
            alignment: bucket_layout.align(),
            buckets: size / bucket_size,
            free: FreeList::empty(),
        }
    }

    /// More buckets than the list can hold are refused, as the original refuses a list for which there is no memory.
    ///
    /// # Safety
    ///
    /// It is called once.
    pub unsafe fn init<A: BaseAllocator>(&mut self, _list_memory: &A) -> Result<(), AllocationError> {
        if self.buckets > MAX_BUCKETS {
            return Err(AllocationError::OutOfMemory);
        }
        for bucket in (0..self.buckets).rev() {
            self.free.push(bucket as u16);
        }
        Ok(())
    }

    /// Bytes that the list needs beside the payload.
    pub fn memory_size(_bucket_layout: Layout, _size: usize) -> usize {
        0
    }

    pub fn start_address(&self) -> usize {
        self.start
    }

    pub fn bucket_size(&self) -> usize {
        self.bucket_size
    }

    pub fn max_alignment(&self) -> usize {
        self.alignment
    }

    pub fn number_of_buckets(&self) -> u32 {
        self.buckets as u32
    }

    /// # Safety
    ///
    /// The memory is a bucket that was given out, and was not returned yet.
    pub unsafe fn deallocate_bucket(&self, memory: NonNull<u8>) {
        let bucket = (memory.as_ptr() as usize - self.start) / self.bucket_size;
        self.free.push(bucket as u16);
    }
}

impl BaseAllocator for PoolAllocator {
    /// The crate has looked at the alignment before.
    fn allocate(&self, layout: Layout) -> Result<NonNull<[u8]>, AllocationError> {
        if layout.size() > self.bucket_size {
            return Err(AllocationError::SizeTooLarge);
        }
        let bucket = self.free.pop().ok_or(AllocationError::OutOfMemory)?;
        Ok(bytes_at(self.start + bucket as usize * self.bucket_size, layout.size()))
    }

    unsafe fn deallocate(&self, memory: NonNull<u8>, _layout: Layout) {
        unsafe { self.deallocate_bucket(memory) };
    }
}
