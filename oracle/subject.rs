//! The crate under question, behind calls that speak of numbers only.

use core::alloc::Layout;
use core::fmt::Debug;

use iceoryx2_cal::named_concept::{FileName, NamedConceptBuilder};
use iceoryx2_cal::resizable_shared_memory::dynamic::{DynamicMemory, DynamicView};
use iceoryx2_cal::resizable_shared_memory::{
    ResizableSharedMemory, ResizableSharedMemoryBuilder, ResizableSharedMemoryForPoolAllocator,
    ResizableSharedMemoryView, ResizableSharedMemoryViewBuilder, ResizableShmAllocationError,
};
use iceoryx2_cal::shared_memory::common::details;
use iceoryx2_cal::shared_memory::{SegmentId, SharedMemoryCreateError, SharedMemoryOpenError};
use iceoryx2_cal::shm_allocator::bump_allocator::BumpAllocator;
use iceoryx2_cal::shm_allocator::pool_allocator::PoolAllocator;
use iceoryx2_cal::shm_allocator::{
    AllocationError, AllocationStrategy, PointerOffset, ShmAllocationError, ShmAllocator,
};
use standins::file::AccessMode;
use standins::semantic_string::SemanticString;

use crate::storage::Storage;

type Segment<A> = details::Memory<A, Storage<details::AllocatorDetails<A>>>;
pub type MemoryOf<A> = DynamicMemory<A, Segment<A>>;
pub type ViewOf<A> = DynamicView<A, Segment<A>>;

const BASE_NAME: &[u8] = b"holdings";

#[derive(Clone, Copy, Debug, PartialEq, Eq)]
pub enum Kind {
    Pool,
    Bump,
}

/// The number of a denial.
pub type Denial = u8;

#[derive(Clone, Copy, Debug)]
pub struct Chunk {
    pub value: u64,
    pub address: usize,
}

/// What a memory is built from.
#[derive(Clone, Copy, Debug, PartialEq, Eq)]
pub struct Hints {
    pub strategy: AllocationStrategy,
    pub layout: Layout,
    pub chunks: usize,
}

pub trait Memory {
    fn allocate(&self, layout: Layout) -> Result<Chunk, Denial>;

    /// # Safety
    ///
    /// The value and the layout are those of a chunk that is held.
    unsafe fn deallocate(&self, value: u64, layout: Layout);

    fn active_segments(&self) -> usize;

    /// Only pools have buckets. The crate panics if the segment is not mapped.
    fn bucket_size(&self, segment: u8) -> Option<usize>;
}

pub trait Viewer {
    /// Answers the address of the chunk.
    fn register(&self, value: u64) -> Result<usize, Denial>;

    fn unregister(&self, value: u64);

    fn active_segments(&self) -> usize;
}

pub fn create(kind: Kind, hints: &Hints) -> Result<Box<dyn Memory>, Denial> {
    match kind {
        Kind::Pool => create_of::<PoolAllocator>(hints).map(boxed_memory),
        Kind::Bump => create_of::<BumpAllocator>(hints).map(boxed_memory),
    }
}

pub fn open(kind: Kind) -> Result<Box<dyn Viewer>, Denial> {
    match kind {
        Kind::Pool => open_of::<PoolAllocator>().map(boxed_viewer),
        Kind::Bump => open_of::<BumpAllocator>().map(boxed_viewer),
    }
}

fn boxed_memory<M: Memory + 'static>(memory: M) -> Box<dyn Memory> {
    Box::new(memory)
}

fn boxed_viewer<V: Viewer + 'static>(viewer: V) -> Box<dyn Viewer> {
    Box::new(viewer)
}

fn base_name() -> FileName {
    FileName::new(BASE_NAME).expect("the base name is a file name")
}

pub fn create_of<A: ShmAllocator + Debug>(hints: &Hints) -> Result<MemoryOf<A>, Denial> {
    <MemoryOf<A> as ResizableSharedMemory<A, Segment<A>>>::MemoryBuilder::new(&base_name())
        .max_chunk_layout_hint(hints.layout)
        .max_number_of_chunks_hint(hints.chunks)
        .allocation_strategy(hints.strategy)
        .create()
        .map_err(create_number)
}

pub fn open_of<A: ShmAllocator + Debug>() -> Result<ViewOf<A>, Denial> {
    <MemoryOf<A> as ResizableSharedMemory<A, Segment<A>>>::ViewBuilder::new(&base_name())
        .open(AccessMode::Read)
        .map_err(open_number)
}

/// Tells the bucket size where an allocator has buckets.
pub trait Buckets: ShmAllocator + Debug {
    fn bucket_size(memory: &MemoryOf<Self>, segment: SegmentId) -> Option<usize>
    where
        Self: Sized;
}

impl Buckets for PoolAllocator {
    fn bucket_size(memory: &MemoryOf<Self>, segment: SegmentId) -> Option<usize> {
        Some(ResizableSharedMemoryForPoolAllocator::bucket_size(memory, segment))
    }
}

impl Buckets for BumpAllocator {
    fn bucket_size(_memory: &MemoryOf<Self>, _segment: SegmentId) -> Option<usize> {
        None
    }
}

impl<A: Buckets> Memory for MemoryOf<A> {
    fn allocate(&self, layout: Layout) -> Result<Chunk, Denial> {
        let pointer = ResizableSharedMemory::allocate(self, layout).map_err(allocation_number)?;
        Ok(Chunk { value: pointer.offset.as_value(), address: pointer.data_ptr as usize })
    }

    unsafe fn deallocate(&self, value: u64, layout: Layout) {
        unsafe { ResizableSharedMemory::deallocate(self, PointerOffset::from_value(value), layout) };
    }

    fn active_segments(&self) -> usize {
        ResizableSharedMemory::number_of_active_segments(self)
    }

    fn bucket_size(&self, segment: u8) -> Option<usize> {
        A::bucket_size(self, SegmentId::new(segment))
    }
}

impl<A: ShmAllocator + Debug> Viewer for ViewOf<A> {
    fn register(&self, value: u64) -> Result<usize, Denial> {
        let offset = PointerOffset::from_value(value);
        let address = unsafe { self.register_and_translate_offset(offset) }.map_err(open_number)?;
        Ok(address as usize)
    }

    fn unregister(&self, value: u64) {
        unsafe { self.unregister_offset(PointerOffset::from_value(value)) };
    }

    fn active_segments(&self) -> usize {
        self.number_of_active_segments()
    }
}

fn allocation_number(error: ResizableShmAllocationError) -> Denial {
    match error {
        ResizableShmAllocationError::MaxReallocationsReached => 23,
        ResizableShmAllocationError::ShmAllocationError(error) => refusal_number(error),
        ResizableShmAllocationError::SharedMemoryCreateError(error) => create_number(error),
    }
}

fn refusal_number(error: ShmAllocationError) -> Denial {
    match error {
        ShmAllocationError::AllocationError(AllocationError::OutOfMemory) => 20,
        ShmAllocationError::AllocationError(AllocationError::SizeTooLarge) => 21,
        ShmAllocationError::ExceedsMaxSupportedAlignment => 22,
        other => panic!("no stand-in gives {other:?}"),
    }
}

fn create_number(error: SharedMemoryCreateError) -> Denial {
    match error {
        SharedMemoryCreateError::AlreadyExists => 24,
        SharedMemoryCreateError::SizeIsZero => 25,
        SharedMemoryCreateError::InternalError => 26,
        other => panic!("no stand-in gives {other:?}"),
    }
}

fn open_number(error: SharedMemoryOpenError) -> Denial {
    match error {
        SharedMemoryOpenError::DoesNotExist => 27,
        SharedMemoryOpenError::WrongAllocatorSelected => 28,
        SharedMemoryOpenError::InternalError => 29,
        other => panic!("no stand-in gives {other:?}"),
    }
}
