//! Calls for which the crate promises nothing, or whose outcome surprises: what they do over the stand-ins.
//!
//! Each finding has a thread and thereby a store of its own, so that a panic ends that finding alone.

use core::alloc::Layout;
use std::sync::mpsc::{Sender, channel};

use iceoryx2_cal::named_concept::{FileName, NamedConceptBuilder, NamedConceptMgmt};
use iceoryx2_cal::resizable_shared_memory::{ResizableSharedMemory, ResizableSharedMemoryBuilder};
use iceoryx2_cal::shm_allocator::AllocationStrategy::{self, BestFit, Static};
use iceoryx2_cal::shm_allocator::pool_allocator::PoolAllocator;
use iceoryx2_cal::shm_allocator::{PointerOffset, SegmentId};
use standins::semantic_string::SemanticString;

use crate::author::layout;
use crate::mapping::PAGE;
use crate::store::{self, Placement, Shape, Store, with_current};
use crate::subject::{self, Denial, Hints, Kind, Memory, MemoryOf, Viewer};

type Finding = (&'static str, fn(&Bench));

const FINDINGS: [Finding; 19] = [
    ("the initial hint is not rounded: pool", unrounded_pool),
    ("the initial hint is not rounded: bump", unrounded_bump),
    ("offsets from 2^56 on lose bits", lost_bits),
    ("a pool's chunk returned twice, no growth", pool_returned_twice),
    ("a pool's chunk returned twice, then growth", pool_returned_twice_then_growth),
    ("a chunk returned twice, its segment withdrawn", returned_to_a_withdrawn_segment),
    ("a bump's chunk returned twice, then growth", bump_returned_twice),
    ("a start that was never given out is returned", never_given_out),
    ("chunks of no bytes", no_bytes),
    ("the 1,025th chunk", one_chunk_more),
    ("unregistered twice", unregistered_twice),
    ("a viewer's current segment is the one it opened last", current_is_last_opened),
    ("a viewer that outlives its memory", viewer_of_a_former_memory),
    ("bucket size of a segment that is not mapped", bucket_size_unmapped),
    ("size times count reaches 2^64", product_too_large),
    ("a base name that leaves no room for the ending", long_base_name),
    ("removing while a name ends in two underscores stands", remove_beside_a_bare_ending),
    ("how many growths there are", growths_until_refused),
    ("one large request to a pool of many small buckets", large_request_to_many_buckets),
];

pub fn report() -> String {
    std::panic::set_hook(Box::new(|_| {}));
    FINDINGS.iter().map(|(title, show)| format!("# {title}\n{}\n", shown(*show))).collect()
}

fn shown(show: fn(&Bench)) -> String {
    let (lines, noted) = channel();
    let ended = std::thread::spawn(move || show(&Bench { lines })).join();
    let mut text: String = noted.iter().collect();
    if ended.is_err() {
        text += "the crate panics\n";
    }
    text
}

/// Notes what is done and what comes of it.
struct Bench {
    lines: Sender<String>,
}

impl Bench {
    fn note(&self, line: impl std::fmt::Display) {
        self.lines.send(format!("{line}\n")).expect("the report is being read");
    }

    fn create(&self, kind: Kind, strategy: AllocationStrategy, layout: Layout, chunks: usize) -> Box<dyn Memory> {
        store::install(Store::new(Shape::Frames { frames: 320, frame_size: 16 * PAGE }, Placement::First));
        self.create_again(kind, strategy, layout, chunks)
    }

    fn create_again(&self, kind: Kind, strategy: AllocationStrategy, layout: Layout, chunks: usize) -> Box<dyn Memory> {
        let memory = subject::create(kind, &Hints { strategy, layout, chunks }).expect("there is room");
        let payload = with_current(Store::take_made).pop().expect("a segment was made");
        let (size, align) = (layout.size(), layout.align());
        self.note(format!("create {kind:?} {strategy:?} {size} {align} {chunks} = ok {payload}"));
        memory
    }

    fn allocate(&self, memory: &dyn Memory, layout: Layout) -> Result<u64, Denial> {
        let answer = memory.allocate(layout).map(|chunk| chunk.value);
        let outcome = match answer {
            Ok(value) => format!("v {value}"),
            Err(number) => format!("d {number}"),
        };
        let made = made_words(&with_current(Store::take_made));
        let (size, align, active) = (layout.size(), layout.align(), memory.active_segments());
        self.note(format!("a {size} {align} = {outcome} {active}{made}"));
        answer
    }

    fn give(&self, memory: &dyn Memory, layout: Layout) -> u64 {
        self.allocate(memory, layout).expect("there is room")
    }

    fn take_back(&self, memory: &dyn Memory, value: u64, layout: Layout) {
        unsafe { memory.deallocate(value, layout) };
        self.note(format!("return of value {value} = ok {}", memory.active_segments()));
    }

    fn open(&self, kind: Kind) -> Box<dyn Viewer> {
        let viewer = subject::open(kind).expect("the memory stands");
        self.note("o = ok");
        viewer
    }

    fn register(&self, viewer: &dyn Viewer, value: u64) -> Option<usize> {
        let answer = viewer.register(value);
        let outcome = match answer {
            Ok(_) => "ok".to_string(),
            Err(number) => format!("d {number}"),
        };
        self.note(format!("register value {value} = {outcome} {}", viewer.active_segments()));
        answer.ok()
    }

    fn unregister(&self, viewer: &dyn Viewer, value: u64) {
        viewer.unregister(value);
        self.note(format!("unregister value {value} = ok {}", viewer.active_segments()));
    }
}

/// Few payloads are told one by one, many as their number.
fn made_words(made: &[usize]) -> String {
    match made.len() {
        0..=3 => made.iter().map(|payload| format!(" +{payload}")).collect(),
        many => format!(" ({many} segments made)"),
    }
}

fn unrounded_pool(bench: &Bench) {
    for chunks in [1, 3] {
        let memory = bench.create(Kind::Pool, Static, layout(5, 4), chunks);
        for _ in 0..2 {
            let _ = bench.allocate(&*memory, layout(5, 4));
        }
    }
    let memory = bench.create(Kind::Pool, BestFit, layout(5, 4), 1);
    bench.give(&*memory, layout(5, 4));
}

fn unrounded_bump(bench: &Bench) {
    let memory = bench.create(Kind::Bump, Static, layout(5, 4), 2);
    for _ in 0..2 {
        let _ = bench.allocate(&*memory, layout(5, 4));
    }
}

fn lost_bits(bench: &Bench) {
    bench.note(format!("offset 2^56: value {}", PointerOffset::new(1 << 56).as_value()));
    let five = PointerOffset::from_offset_and_segment_id((1 << 56) + 5, SegmentId::new(3));
    bench.note(format!("offset 2^56 + 5, id 3: value {}, offset {}", five.as_value(), five.offset()));
}

fn pool_returned_twice(bench: &Bench) {
    let memory = bench.create(Kind::Pool, Static, layout(8, 8), 2);
    let chunk = bench.give(&*memory, layout(8, 8));
    bench.take_back(&*memory, chunk, layout(8, 8));
    bench.take_back(&*memory, chunk, layout(8, 8));
    for _ in 0..4 {
        let _ = bench.allocate(&*memory, layout(8, 8));
    }
}

fn pool_returned_twice_then_growth(bench: &Bench) {
    let memory = bench.create(Kind::Pool, BestFit, layout(8, 8), 1);
    let chunk = bench.give(&*memory, layout(8, 8));
    bench.take_back(&*memory, chunk, layout(8, 8));
    bench.take_back(&*memory, chunk, layout(8, 8));
    let larger = bench.give(&*memory, layout(16, 8));
    bench.take_back(&*memory, larger, layout(16, 8));
    bench.give(&*memory, layout(24, 8));
}

fn returned_to_a_withdrawn_segment(bench: &Bench) {
    let memory = bench.create(Kind::Pool, BestFit, layout(8, 8), 1);
    let chunk = bench.give(&*memory, layout(8, 8));
    bench.give(&*memory, layout(8, 8));
    bench.take_back(&*memory, chunk, layout(8, 8));
    bench.take_back(&*memory, chunk, layout(8, 8));
}

fn bump_returned_twice(bench: &Bench) {
    let memory = bench.create(Kind::Bump, BestFit, layout(8, 8), 1);
    let chunk = bench.give(&*memory, layout(8, 8));
    bench.take_back(&*memory, chunk, layout(8, 8));
    bench.take_back(&*memory, chunk, layout(8, 8));
    bench.give(&*memory, layout(8, 8));
}

fn never_given_out(bench: &Bench) {
    let memory = bench.create(Kind::Pool, Static, layout(8, 8), 2);
    let chunk = bench.give(&*memory, layout(8, 8));
    bench.take_back(&*memory, chunk + 4 * 256, layout(8, 8));
    bench.give(&*memory, layout(8, 8));
}

fn no_bytes(bench: &Bench) {
    for kind in [Kind::Pool, Kind::Bump] {
        let memory = bench.create(kind, Static, layout(8, 8), 1);
        for size in [0, 0, 8] {
            let _ = bench.allocate(&*memory, layout(size, 1));
        }
    }
}

fn one_chunk_more(bench: &Bench) {
    for kind in [Kind::Bump, Kind::Pool] {
        let memory = bench.create(kind, BestFit, layout(1, 1), 1024);
        for _ in 0..1024 {
            memory.allocate(layout(1, 1)).expect("there is room");
        }
        bench.note("a 1 1, 1,024 times, each answered by a start");
        let _ = bench.allocate(&*memory, layout(1, 1));
    }
}

fn unregistered_twice(bench: &Bench) {
    let memory = bench.create(Kind::Pool, BestFit, layout(8, 8), 1);
    let first = bench.give(&*memory, layout(8, 8));
    let second = bench.give(&*memory, layout(8, 8));
    let viewer = bench.open(Kind::Pool);
    bench.unregister(&*viewer, first);
    bench.register(&*viewer, first);
    bench.unregister(&*viewer, first);
    bench.unregister(&*viewer, first);
    bench.register(&*viewer, second);
}

fn current_is_last_opened(bench: &Bench) {
    let memory = bench.create(Kind::Pool, BestFit, layout(8, 8), 1);
    let old = bench.give(&*memory, layout(8, 8));
    let new = bench.give(&*memory, layout(8, 8));
    let viewer = bench.open(Kind::Pool);
    bench.register(&*viewer, new);
    bench.register(&*viewer, old);
    bench.unregister(&*viewer, new);
    bench.unregister(&*viewer, old);
    bench.take_back(&*memory, old, layout(8, 8));
    bench.register(&*viewer, old);
}

fn viewer_of_a_former_memory(bench: &Bench) {
    let former = bench.create(Kind::Pool, Static, layout(8, 8), 1);
    let value = bench.give(&*former, layout(8, 8));
    let viewer = bench.open(Kind::Pool);
    bench.register(&*viewer, value);
    drop(former);
    bench.note("end = ok");
    let present = bench.create_again(Kind::Pool, Static, layout(8, 8), 1);
    let chunk = present.allocate(layout(8, 8)).expect("there is room");
    bench.note(format!("a 8 8 = v {}", chunk.value));
    let seen = bench.register(&*viewer, chunk.value).expect("the segment is mapped");
    bench.note(format!("the viewer is shown the present memory's chunk: {}", seen == chunk.address));
}

fn bucket_size_unmapped(bench: &Bench) {
    let memory = bench.create(Kind::Pool, Static, layout(8, 8), 1);
    bench.note(format!("bucket size of segment 0: {:?}", memory.bucket_size(0)));
    bench.note("bucket size of segment 1:");
    memory.bucket_size(1);
}

fn product_too_large(bench: &Bench) {
    store::install(Store::new(Shape::Span { pages: 4200 }, Placement::First));
    let hints = Hints { strategy: Static, layout: layout(16_777_216, 1), chunks: (1 << 40) + 1 };
    bench.note("create Bump Static 16777216 1 1099511627777:");
    let created = subject::create(Kind::Bump, &hints);
    bench.note(format!("created: {}, payloads {:?}", created.is_ok(), with_current(Store::take_made)));
}

fn long_base_name(bench: &Bench) {
    store::install(Store::new(Shape::Span { pages: 10 }, Placement::First));
    for length in [249, 250] {
        let name = FileName::new(&vec![b'x'; length]).expect("a file name has up to 255 bytes");
        bench.note(format!("create under a base name of {length} bytes:"));
        let created =
            <MemoryOf<PoolAllocator> as ResizableSharedMemory<PoolAllocator, _>>::MemoryBuilder::new(&name).create();
        bench.note(format!("created: {}", created.is_ok()));
    }
}

fn remove_beside_a_bare_ending(bench: &Bench) {
    store::install(Store::new(Shape::Span { pages: 10 }, Placement::First));
    let name = FileName::new(b"holdings").expect("it is a file name");
    let removed = unsafe { MemoryOf::<PoolAllocator>::remove(&name) };
    bench.note(format!("remove of a memory that is not there: {removed:?}"));
    with_current(|store| store.make(b"other__", 1)).expect("there is room");
    bench.note("the same while a segment other__ stands:");
    let _ = unsafe { MemoryOf::<PoolAllocator>::remove(&name) };
}

fn growths_until_refused(bench: &Bench) {
    let most = <MemoryOf<PoolAllocator> as ResizableSharedMemory<PoolAllocator, _>>::max_number_of_reallocations();
    bench.note(format!("reallocations that the crate tells of: {most}"));
    let memory = bench.create(Kind::Bump, BestFit, layout(8, 8), 1);
    let _ = bench.allocate(&*memory, layout(1, 16));
    let _ = bench.allocate(&*memory, layout(1, 8));
    let _ = bench.allocate(&*memory, layout(16, 8));
}

fn large_request_to_many_buckets(bench: &Bench) {
    let memory = bench.create(Kind::Pool, BestFit, layout(1, 1), 1024);
    let _ = bench.allocate(&*memory, layout(65, 1));
    let _ = bench.allocate(&*memory, layout(64, 1));
}
