//! Carries out the calls of one list on the crate. A call for which the crate promises nothing is not passed on.

use core::alloc::Layout;

use crate::calls::{Answer, Call, Outcome};
use crate::store::{self, Placement, Shape, Store, with_current};
use crate::subject::{self, Denial, Hints, Kind, Memory, Viewer};

pub const MAX_SIZE: usize = 16_777_216;
pub const MAX_ALIGN: usize = 65_536;
pub const MAX_HELD: usize = 1024;

pub struct GivenOut {
    pub value: u64,
    pub layout: Layout,
    pub held: bool,
    address: usize,
    memory: usize,
}

impl GivenOut {
    pub fn segment(&self) -> usize {
        (self.value % 256) as usize
    }
}

pub struct Watching {
    viewer: Box<dyn Viewer>,
    /// The memory that stood when it was opened.
    memory: usize,
    /// The chunks that are registered, each as often as it is.
    pub registered: Vec<usize>,
}

/// Fields are dropped in order: what stands in the store goes before the next list puts another store in its place.
pub struct Desk {
    pub viewers: Vec<Option<Watching>>,
    memory: Option<Box<dyn Memory>>,
    /// Everything that was given out, also by memories that ended since.
    pub chunks: Vec<GivenOut>,
    kind: Kind,
    placement: Placement,
    has_store: bool,
    memories: usize,
    /// Segments that the latest memory made.
    pub segments: usize,
}

impl Desk {
    pub fn new(placement: Placement) -> Self {
        Self {
            viewers: Vec::new(),
            memory: None,
            chunks: Vec::new(),
            kind: Kind::Pool,
            placement,
            has_store: false,
            memories: 0,
            segments: 0,
        }
    }

    pub fn has_memory(&self) -> bool {
        self.memory.is_some()
    }

    pub fn is_pool(&self) -> bool {
        self.kind == Kind::Pool
    }

    pub fn held(&self) -> Vec<usize> {
        (0..self.chunks.len()).filter(|chunk| self.chunks[*chunk].held).collect()
    }

    /// Whether the memory still maps the segment that a chunk of its own came from.
    pub fn is_mapped(&self, chunk: usize) -> bool {
        let asked = &self.chunks[chunk];
        let in_segment = |other: &GivenOut| other.held && other.segment() == asked.segment();
        asked.memory == self.memories && (asked.segment() + 1 == self.segments || self.chunks.iter().any(in_segment))
    }

    /// An error tells why the call may not be made.
    pub fn perform(&mut self, call: &Call) -> Result<Answer, String> {
        match *call {
            Call::Create { kind, hints, shape } => self.create(kind, hints, shape),
            Call::Allocate(layout) => self.allocate(layout),
            Call::Deallocate { chunk } => self.deallocate(chunk),
            Call::BucketSize { chunk } => self.bucket_size(chunk),
            Call::Open { kind } => self.open(kind.unwrap_or(self.kind)),
            Call::OpenMany { viewers } => self.open_many(viewers),
            Call::Register { viewer, chunk } => self.register(viewer, chunk),
            Call::Unregister { viewer, chunk } => self.unregister(viewer, chunk),
            Call::Close { viewer } => self.close(viewer),
            Call::End => self.end(),
        }
    }

    fn create(&mut self, kind: Kind, hints: Hints, shape: Option<Shape>) -> Result<Answer, String> {
        check_layout(hints.layout)?;
        check(hints.layout.size().is_multiple_of(hints.layout.align()), "the size is no multiple of the alignment")?;
        check(hints.layout.size().checked_mul(hints.chunks).is_some(), "size times count reaches 2^64")?;
        check(shape.is_some() != self.has_store, "the first create names the store, no other does")?;
        if let Some(shape) = shape {
            check(shape.is_good(), "the store has no good shape")?;
            store::install(Store::new(shape, self.placement));
            self.has_store = true;
        }
        let created = subject::create(kind, &hints);
        let made = take_made();
        match created {
            Ok(memory) => {
                self.memory = Some(memory);
                self.kind = kind;
                self.memories += 1;
                self.segments = 1;
                Ok(Answer { active: made.last().copied(), ..Answer::plain(Outcome::Done) })
            }
            Err(number) => Ok(Answer::plain(Outcome::Denied(number))),
        }
    }

    fn standing_memory(&self) -> Result<&dyn Memory, String> {
        self.memory.as_deref().ok_or_else(|| "there is no memory".to_string())
    }

    fn allocate(&mut self, layout: Layout) -> Result<Answer, String> {
        check_layout(layout)?;
        check(self.held().len() < MAX_HELD, "1,024 chunks are held")?;
        let memory = self.standing_memory()?;
        let allocated = memory.allocate(layout);
        let active = memory.active_segments();
        let made = take_made();
        self.segments += made.len();
        let outcome = match allocated {
            Ok(chunk) => {
                let (value, address) = (chunk.value, chunk.address);
                self.chunks.push(GivenOut { value, layout, held: true, address, memory: self.memories });
                Outcome::Value(value)
            }
            Err(number) => Outcome::Denied(number),
        };
        Ok(Answer { outcome, active: Some(active), made })
    }

    fn known_chunk(&self, chunk: usize) -> Result<&GivenOut, String> {
        self.chunks.get(chunk).ok_or_else(|| format!("there is no chunk {chunk}"))
    }

    fn deallocate(&mut self, chunk: usize) -> Result<Answer, String> {
        let returned = self.known_chunk(chunk)?;
        check(returned.held, "the chunk is not held")?;
        let memory = self.standing_memory()?;
        unsafe { memory.deallocate(returned.value, returned.layout) };
        let active = memory.active_segments();
        self.chunks[chunk].held = false;
        Ok(Answer::with_active(Outcome::Done, active))
    }

    fn bucket_size(&self, chunk: usize) -> Result<Answer, String> {
        let segment = self.known_chunk(chunk)?.segment();
        check(self.is_mapped(chunk), "the chunk's segment is not mapped")?;
        let size = self.standing_memory()?.bucket_size(segment as u8);
        Ok(Answer::plain(Outcome::Size(size.ok_or("a bump has no buckets")?)))
    }

    fn open(&mut self, kind: Kind) -> Result<Answer, String> {
        check(self.has_store, "there is no store")?;
        Ok(Answer::plain(match self.opened(kind) {
            Ok(()) => Outcome::Done,
            Err(number) => Outcome::Denied(number),
        }))
    }

    fn opened(&mut self, kind: Kind) -> Result<(), Denial> {
        let viewer = subject::open(kind)?;
        self.viewers.push(Some(Watching { viewer, memory: self.memories, registered: Vec::new() }));
        Ok(())
    }

    fn open_many(&mut self, viewers: usize) -> Result<Answer, String> {
        for _ in 0..viewers {
            let answer = self.open(self.kind)?;
            if answer.denial().is_some() {
                return Ok(answer);
            }
        }
        Ok(Answer::plain(Outcome::Done))
    }

    fn open_viewer(&mut self, viewer: usize) -> Result<&mut Watching, String> {
        let place = self.viewers.get_mut(viewer);
        place.and_then(Option::as_mut).ok_or_else(|| format!("viewer {viewer} is not open"))
    }

    fn register(&mut self, viewer: usize, chunk: usize) -> Result<Answer, String> {
        let given = self.known_chunk(chunk)?;
        let (value, address, memory, held) = (given.value, given.address, given.memory, given.held);
        let watching = self.open_viewer(viewer)?;
        let at_home = held && watching.memory == memory;
        let registered = watching.viewer.register(value);
        let active = watching.viewer.active_segments();
        let outcome = match registered {
            Ok(seen) => {
                assert!(!at_home || seen == address, "the viewer sees chunk {chunk} at another place");
                watching.registered.push(chunk);
                Outcome::Done
            }
            Err(number) => Outcome::Denied(number),
        };
        Ok(Answer::with_active(outcome, active))
    }

    fn unregister(&mut self, viewer: usize, chunk: usize) -> Result<Answer, String> {
        let value = self.known_chunk(chunk)?.value;
        let watching = self.open_viewer(viewer)?;
        let place = watching.registered.iter().position(|registered| *registered == chunk);
        watching.registered.swap_remove(place.ok_or("the chunk is not registered")?);
        watching.viewer.unregister(value);
        Ok(Answer::with_active(Outcome::Done, watching.viewer.active_segments()))
    }

    fn close(&mut self, viewer: usize) -> Result<Answer, String> {
        self.open_viewer(viewer)?;
        self.viewers[viewer] = None;
        Ok(Answer::plain(Outcome::Done))
    }

    fn end(&mut self) -> Result<Answer, String> {
        self.standing_memory()?;
        self.memory = None;
        self.chunks.iter_mut().for_each(|chunk| chunk.held = false);
        Ok(Answer::plain(Outcome::Done))
    }
}

fn take_made() -> Vec<usize> {
    with_current(Store::take_made)
}

fn check(kept: bool, broken: &str) -> Result<(), String> {
    if kept { Ok(()) } else { Err(broken.to_string()) }
}

fn check_layout(layout: Layout) -> Result<(), String> {
    check((1..=MAX_SIZE).contains(&layout.size()) && layout.align() <= MAX_ALIGN, "the layout breaks the rules")
}
