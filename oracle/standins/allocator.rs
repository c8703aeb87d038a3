use core::alloc::Layout;
use core::ptr::NonNull;

#[derive(Clone, Copy, Debug, PartialEq, Eq)]
pub enum AllocationError {
    OutOfMemory,
    SizeIsZero,
    SizeTooLarge,
    AlignmentFailure,
    InternalError,
}

pub trait BaseAllocator {
    fn allocate(&self, layout: Layout) -> Result<NonNull<[u8]>, AllocationError>;

    /// # Safety
    ///
    /// The memory came from `allocate` with the same layout, and was not returned yet.
    unsafe fn deallocate(&self, memory: NonNull<u8>, layout: Layout);
}

/// The bytes from an address on. No allocator here ever touches the bytes that it gives out.
pub(crate) fn bytes_at(address: usize, size: usize) -> NonNull<[u8]> {
    let start = NonNull::new(address as *mut u8).expect("memory does not start at address 0");
    NonNull::slice_from_raw_parts(start, size)
}
