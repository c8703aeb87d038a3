//! Where segments stand: a number of places, and the rule by which there is room for another segment.

use std::cell::RefCell;
use std::collections::BTreeMap;

use crate::mapping::{Mapping, PAGE};

pub const MAX_SEGMENTS: usize = 320;
pub const MAX_PAYLOAD: usize = 4_294_967_295;
pub const MAX_MAPS: usize = 65_535;

#[derive(Clone, Copy, Debug, PartialEq, Eq)]
pub enum Shape {
    /// Equal frames, each with room for one segment.
    Frames { frames: usize, frame_size: usize },
    /// Pages, of which a segment takes a run.
    Span { pages: usize },
}

impl Shape {
    pub fn is_good(&self) -> bool {
        match *self {
            Shape::Frames { frames, frame_size } => {
                (1..=MAX_SEGMENTS).contains(&frames) && frame_size > 0 && frame_size % PAGE == 0
            }
            Shape::Span { pages } => (1..=MAX_PAYLOAD / PAGE + 1).contains(&pages),
        }
    }

    fn places(&self) -> usize {
        match *self {
            Shape::Frames { frames, .. } => frames,
            Shape::Span { pages } => pages,
        }
    }

    /// How many places in a row a segment takes, if it fits at all.
    fn places_for(&self, size: usize) -> Option<usize> {
        match *self {
            Shape::Frames { frame_size, .. } => (size <= frame_size).then_some(1),
            Shape::Span { .. } => Some(size.div_ceil(PAGE)),
        }
    }
}

/// Which of the free runs that are long enough a segment is put into. No rule says so, hence no answer may hang on it.
#[derive(Clone, Copy, Debug, PartialEq, Eq)]
pub enum Placement {
    First,
    Last,
    Shortest,
    Longest,
}

impl Placement {
    pub const ALL: [Placement; 4] = [Placement::First, Placement::Last, Placement::Shortest, Placement::Longest];

    fn choose(self, runs: &[Run], needed: usize) -> Option<usize> {
        let fitting = runs.iter().filter(|run| run.length >= needed);
        match self {
            Placement::First => fitting.min_by_key(|run| run.start).map(|run| run.start),
            Placement::Last => fitting.max_by_key(|run| run.start).map(|run| run.end() - needed),
            Placement::Shortest => fitting.min_by_key(|run| run.length).map(|run| run.start),
            Placement::Longest => fitting.max_by_key(|run| run.length).map(|run| run.start),
        }
    }
}

#[derive(Clone, Copy, Debug)]
struct Run {
    start: usize,
    length: usize,
}

impl Run {
    fn end(&self) -> usize {
        self.start + self.length
    }
}

#[derive(Debug)]
struct Segment {
    name: Option<Vec<u8>>,
    maps: usize,
    run: Run,
    mapping: Mapping,
}

#[derive(Debug, PartialEq, Eq)]
pub enum MakeDenied {
    NameStands,
    NoRoom,
}

#[derive(Debug, PartialEq, Eq)]
pub enum OpenDenied {
    Absent,
    TooManyMaps,
}

#[derive(Debug)]
pub struct Store {
    shape: Shape,
    placement: Placement,
    segments: BTreeMap<usize, Segment>,
    made: Vec<usize>,
}

impl Store {
    pub fn new(shape: Shape, placement: Placement) -> Self {
        Self { shape, placement, segments: BTreeMap::new(), made: Vec::new() }
    }

    fn named(&self, name: &[u8]) -> Option<usize> {
        let is_named = |segment: &Segment| segment.name.as_deref() == Some(name);
        self.segments.iter().find(|(_, segment)| is_named(segment)).map(|(handle, _)| *handle)
    }

    pub fn is_named(&self, name: &[u8]) -> bool {
        self.named(name).is_some()
    }

    pub fn names(&self) -> impl Iterator<Item = &[u8]> {
        self.segments.values().filter_map(|segment| segment.name.as_deref())
    }

    fn free_runs(&self) -> Vec<Run> {
        let mut taken: Vec<Run> = self.segments.values().map(|segment| segment.run).collect();
        taken.sort_by_key(|run| run.start);
        taken.push(Run { start: self.shape.places(), length: 0 });
        let mut free = Vec::new();
        let mut start = 0;
        for run in taken {
            if start < run.start {
                free.push(Run { start, length: run.start - start });
            }
            start = run.end();
        }
        free
    }

    fn room_for(&self, size: usize) -> Option<Run> {
        if size > MAX_PAYLOAD || self.segments.len() >= MAX_SEGMENTS {
            return None;
        }
        let length = self.shape.places_for(size)?;
        let start = self.placement.choose(&self.free_runs(), length)?;
        Some(Run { start, length })
    }

    /// Makes a segment with one map, and answers its handle.
    pub fn make(&mut self, name: &[u8], size: usize) -> Result<usize, MakeDenied> {
        if self.is_named(name) {
            return Err(MakeDenied::NameStands);
        }
        let run = self.room_for(size).ok_or(MakeDenied::NoRoom)?;
        let handle = (0..).find(|handle| !self.segments.contains_key(handle)).expect("handles do not end");
        let mapping = Mapping::for_payload(size);
        self.segments.insert(handle, Segment { name: Some(name.to_vec()), maps: 1, run, mapping });
        Ok(handle)
    }

    pub fn open(&mut self, name: &[u8]) -> Result<usize, OpenDenied> {
        let handle = self.named(name).ok_or(OpenDenied::Absent)?;
        let segment = self.segment_mut(handle);
        if segment.maps >= MAX_MAPS {
            return Err(OpenDenied::TooManyMaps);
        }
        segment.maps += 1;
        Ok(handle)
    }

    /// Takes the name and a map.
    pub fn withdraw(&mut self, handle: usize) {
        self.segment_mut(handle).name = None;
        self.close(handle);
    }

    /// Takes a map. Without name and maps a segment ceases.
    pub fn close(&mut self, handle: usize) {
        let segment = self.segment_mut(handle);
        segment.maps -= 1;
        if segment.maps == 0 && segment.name.is_none() {
            self.segments.remove(&handle);
        }
    }

    /// Takes the name alone; says whether there was one.
    pub fn remove_name(&mut self, name: &[u8]) -> bool {
        let Some(handle) = self.named(name) else {
            return false;
        };
        self.segment_mut(handle).name = None;
        true
    }

    pub fn mapping(&self, handle: usize) -> &Mapping {
        &self.segments[&handle].mapping
    }

    fn segment_mut(&mut self, handle: usize) -> &mut Segment {
        self.segments.get_mut(&handle).expect("the handle is that of a standing segment")
    }

    pub fn note_made(&mut self, size: usize) {
        self.made.push(size);
    }

    /// The payload sizes of the segments that were made since this was last asked.
    pub fn take_made(&mut self) -> Vec<usize> {
        std::mem::take(&mut self.made)
    }
}

thread_local! {
    // The crate makes its storages by functions that are passed no store, so the store cannot be passed down.
    static CURRENT: RefCell<Option<Store>> = const { RefCell::new(None) };
}

/// Puts a new store in the place of the current one. All that stood in the old one must have been dropped before.
pub fn install(store: Store) {
    let old = CURRENT.replace(Some(store));
    assert!(old.is_none_or(|old| old.segments.is_empty()), "a segment of the list before still stands");
}

pub fn with_current<R>(act: impl FnOnce(&mut Store) -> R) -> R {
    CURRENT.with_borrow_mut(|store| act(store.as_mut().expect("a store was installed")))
}
