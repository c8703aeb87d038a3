//! Writes one list: each call is carried out at once, since the next ones hang on what came of it.

use core::alloc::Layout;

use iceoryx2_cal::shm_allocator::AllocationStrategy;

use crate::calls::{Answer, Call};
use crate::desk::{Desk, MAX_HELD};
use crate::random::Random;
use crate::store::{Placement, Shape};
use crate::subject::{Hints, Kind};

const MAX_OPEN_VIEWERS: usize = 8;

/// What the calls of a list ask for, and how often.
#[derive(Clone, Copy)]
pub struct Habits {
    pub largest_size: usize,
    pub largest_align: usize,
    /// In percent of the allocations: alignments of up to `rare_align`.
    pub rare_aligns: usize,
    pub rare_align: usize,
    /// Chunks that are held at once, from which on returns outweigh allocations.
    pub crowd: usize,
    /// In percent of the calls: those of viewers.
    pub viewing: usize,
}

pub struct Author {
    pub random: Random,
    desk: Desk,
    calls: Vec<Call>,
}

impl Author {
    pub fn new(random: Random) -> Self {
        Self { random, desk: Desk::new(Placement::First), calls: Vec::new() }
    }

    pub fn into_calls(self) -> Vec<Call> {
        self.calls
    }

    pub fn perform(&mut self, call: Call) -> Answer {
        let answer = self.desk.perform(&call).unwrap_or_else(|fault| panic!("{call}: {fault}"));
        self.calls.push(call);
        answer
    }

    /// Says whether there is a memory now.
    pub fn create(&mut self, kind: Kind, hints: Hints, shape: Shape) -> bool {
        self.perform(Call::Create { kind, hints, shape: Some(shape) });
        self.desk.has_memory()
    }

    pub fn allocate(&mut self, size: usize, align: usize) -> Answer {
        self.perform(Call::Allocate(layout(size, align)))
    }

    pub fn return_chunk(&mut self, chunk: usize) {
        self.perform(Call::Deallocate { chunk });
    }

    pub fn open(&mut self) {
        self.perform(Call::Open { kind: None });
    }

    pub fn register(&mut self, viewer: usize, chunk: usize) -> Answer {
        self.perform(Call::Register { viewer, chunk })
    }

    pub fn unregister(&mut self, viewer: usize, chunk: usize) {
        self.perform(Call::Unregister { viewer, chunk });
    }

    pub fn close(&mut self, viewer: usize) {
        self.perform(Call::Close { viewer });
    }

    pub fn end(&mut self) {
        self.perform(Call::End);
    }

    pub fn held(&self) -> Vec<usize> {
        self.desk.held()
    }

    /// The number that the next accepted allocation will have.
    pub fn next_chunk(&self) -> usize {
        self.desk.chunks.len()
    }

    pub fn registered(&self, viewer: usize) -> Vec<usize> {
        self.desk.viewers[viewer].as_ref().map_or(Vec::new(), |watching| watching.registered.clone())
    }

    pub fn open_viewers(&self) -> Vec<usize> {
        (0..self.desk.viewers.len()).filter(|viewer| self.desk.viewers[*viewer].is_some()).collect()
    }

    pub fn can_hold_more(&self) -> bool {
        self.held().len() < MAX_HELD
    }

    pub fn strategy(&mut self) -> AllocationStrategy {
        self.random.pick(&[AllocationStrategy::Static, AllocationStrategy::BestFit, AllocationStrategy::PowerOfTwo])
    }

    pub fn growing(&mut self) -> AllocationStrategy {
        self.random.pick(&[AllocationStrategy::BestFit, AllocationStrategy::PowerOfTwo])
    }

    pub fn kind(&mut self) -> Kind {
        self.random.pick(&[Kind::Pool, Kind::Bump])
    }

    pub fn align_up_to(&mut self, largest: usize) -> usize {
        1 << self.random.between(0, largest.ilog2() as usize)
    }

    /// A layout whose size is a multiple of its alignment, as a builder is given it.
    pub fn whole_layout(&mut self, largest_size: usize, largest_align: usize) -> Layout {
        let align = self.align_up_to(largest_align);
        let size = self.random.spread(largest_size).next_multiple_of(align);
        layout(size, align)
    }

    fn asked_layout(&mut self, habits: &Habits) -> Layout {
        let rare = self.random.chance(habits.rare_aligns);
        let align = self.align_up_to(if rare { habits.rare_align } else { habits.largest_align });
        layout(self.random.spread(habits.largest_size), align)
    }

    /// Calls as they come, with the habits of a list.
    pub fn go_on(&mut self, steps: usize, habits: &Habits) {
        for _ in 0..steps {
            if self.random.chance(habits.viewing) {
                self.viewer_step();
            } else {
                self.memory_step(habits);
            }
        }
    }

    fn memory_step(&mut self, habits: &Habits) {
        let held = self.held();
        let asks = if held.len() < habits.crowd { 65 } else { 35 };
        if held.is_empty() || (self.random.chance(asks) && self.can_hold_more()) {
            let asked = self.asked_layout(habits);
            self.perform(Call::Allocate(asked));
        } else if self.desk.is_pool() && self.random.chance(15) {
            self.bucket_step();
        } else {
            let chunk = self.random.pick(&held);
            self.return_chunk(chunk);
        }
    }

    /// Asks for a chunk that is held, or for any whose segment is still there.
    fn bucket_step(&mut self) {
        let held = self.held();
        let chunk = if self.random.chance(50) {
            self.random.pick(&held)
        } else {
            self.random.between(0, self.desk.chunks.len() - 1)
        };
        if self.desk.is_mapped(chunk) {
            self.perform(Call::BucketSize { chunk });
        }
    }

    pub fn viewer_step(&mut self) {
        let viewers = self.open_viewers();
        if viewers.is_empty() || (viewers.len() < MAX_OPEN_VIEWERS && self.random.chance(10)) {
            return self.open();
        }
        let viewer = self.random.pick(&viewers);
        let registered = self.registered(viewer);
        if self.random.chance(6) {
            self.close(viewer);
        } else if !registered.is_empty() && self.random.chance(45) {
            let chunk = self.random.pick(&registered);
            self.unregister(viewer, chunk);
        } else if let Some(chunk) = self.chunk_to_register(&registered) {
            self.register(viewer, chunk);
        }
    }

    /// Mostly a chunk that is held; now and then one that was returned long ago.
    fn chunk_to_register(&mut self, registered: &[usize]) -> Option<usize> {
        let chunks = if self.random.chance(80) { self.held() } else { (0..self.desk.chunks.len()).collect() };
        let open: Vec<usize> = chunks.into_iter().filter(|chunk| !registered.contains(chunk)).collect();
        (!open.is_empty()).then(|| self.random.pick(&open))
    }

    pub fn return_all(&mut self, order: Order) {
        let mut chunks = self.held();
        match order {
            Order::OldestFirst => {}
            Order::NewestFirst => chunks.reverse(),
            Order::Mixed => self.random.shuffle(&mut chunks),
        }
        chunks.into_iter().for_each(|chunk| self.return_chunk(chunk));
    }

    pub fn order(&mut self) -> Order {
        self.random.pick(&[Order::OldestFirst, Order::NewestFirst, Order::Mixed])
    }
}

#[derive(Clone, Copy)]
pub enum Order {
    OldestFirst,
    NewestFirst,
    Mixed,
}

pub fn layout(size: usize, align: usize) -> Layout {
    Layout::from_size_align(size, align).expect("the layout is one")
}
