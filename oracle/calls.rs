//! Calls and answers, and how they are written.

use core::alloc::Layout;
use core::fmt;
use core::str::{FromStr, SplitWhitespace};

use iceoryx2_cal::shm_allocator::AllocationStrategy;

use crate::store::Shape;
use crate::subject::{Denial, Hints, Kind};

#[derive(Clone, Copy, Debug, PartialEq, Eq)]
pub enum Call {
    /// The first call of a list names the store's shape; a later one is made over the same store.
    Create {
        kind: Kind,
        hints: Hints,
        shape: Option<Shape>,
    },
    Allocate(Layout),
    Deallocate {
        chunk: usize,
    },
    BucketSize {
        chunk: usize,
    },
    /// A viewer for the kind of the latest memory, unless another is named.
    Open {
        kind: Option<Kind>,
    },
    OpenMany {
        viewers: usize,
    },
    Register {
        viewer: usize,
        chunk: usize,
    },
    Unregister {
        viewer: usize,
        chunk: usize,
    },
    Close {
        viewer: usize,
    },
    End,
}

#[derive(Clone, Copy, Debug, PartialEq, Eq)]
pub enum Outcome {
    Done,
    Value(u64),
    Size(usize),
    Denied(Denial),
}

/// What came of a call, how many segments were active after it where that is told, and the payloads that it made.
#[derive(Clone, Debug, PartialEq, Eq)]
pub struct Answer {
    pub outcome: Outcome,
    pub active: Option<usize>,
    pub made: Vec<usize>,
}

impl Answer {
    pub fn plain(outcome: Outcome) -> Self {
        Self { outcome, active: None, made: Vec::new() }
    }

    pub fn with_active(outcome: Outcome, active: usize) -> Self {
        Self { active: Some(active), ..Self::plain(outcome) }
    }

    pub fn denial(&self) -> Option<Denial> {
        match self.outcome {
            Outcome::Denied(number) => Some(number),
            _ => None,
        }
    }
}

impl fmt::Display for Answer {
    fn fmt(&self, f: &mut fmt::Formatter<'_>) -> fmt::Result {
        match self.outcome {
            Outcome::Done => write!(f, "ok")?,
            Outcome::Value(value) => write!(f, "v {value}")?,
            Outcome::Size(size) => write!(f, "n {size}")?,
            Outcome::Denied(number) => write!(f, "d {number}")?,
        }
        if let Some(active) = self.active {
            write!(f, " {active}")?;
        }
        self.made.iter().try_for_each(|payload| write!(f, " +{payload}"))
    }
}

impl fmt::Display for Call {
    fn fmt(&self, f: &mut fmt::Formatter<'_>) -> fmt::Result {
        match self {
            Call::Create { kind, hints, shape } => write_create(f, *kind, hints, *shape),
            Call::Allocate(layout) => write!(f, "a {} {}", layout.size(), layout.align()),
            Call::Deallocate { chunk } => write!(f, "f {chunk}"),
            Call::BucketSize { chunk } => write!(f, "b {chunk}"),
            Call::Open { kind: None } => write!(f, "o"),
            Call::Open { kind: Some(kind) } => write!(f, "o {}", kind_word(*kind)),
            Call::OpenMany { viewers } => write!(f, "many {viewers}"),
            Call::Register { viewer, chunk } => write!(f, "r {viewer} {chunk}"),
            Call::Unregister { viewer, chunk } => write!(f, "u {viewer} {chunk}"),
            Call::Close { viewer } => write!(f, "c {viewer}"),
            Call::End => write!(f, "end"),
        }
    }
}

fn write_create(f: &mut fmt::Formatter<'_>, kind: Kind, hints: &Hints, shape: Option<Shape>) -> fmt::Result {
    let (kind, strategy) = (kind_word(kind), strategy_word(hints.strategy));
    let (size, align) = (hints.layout.size(), hints.layout.align());
    write!(f, "create {kind} {strategy} {size} {align} {}", hints.chunks)?;
    match shape {
        Some(Shape::Frames { frames, frame_size }) => write!(f, " frames {frames} {frame_size}"),
        Some(Shape::Span { pages }) => write!(f, " span {pages}"),
        None => Ok(()),
    }
}

fn kind_word(kind: Kind) -> &'static str {
    match kind {
        Kind::Pool => "pool",
        Kind::Bump => "bump",
    }
}

fn strategy_word(strategy: AllocationStrategy) -> &'static str {
    match strategy {
        AllocationStrategy::Static => "static",
        AllocationStrategy::BestFit => "best",
        AllocationStrategy::PowerOfTwo => "power",
    }
}

impl FromStr for Call {
    type Err = String;

    fn from_str(line: &str) -> Result<Self, String> {
        let mut words = Words { words: line.split_whitespace() };
        let call = words.call().ok_or_else(|| format!("no call: {line}"))?;
        match words.words.next() {
            None => Ok(call),
            Some(word) => Err(format!("one word too many, {word}: {line}")),
        }
    }
}

struct Words<'a> {
    words: SplitWhitespace<'a>,
}

impl Words<'_> {
    fn number(&mut self) -> Option<usize> {
        self.words.next()?.parse().ok()
    }

    fn layout(&mut self) -> Option<Layout> {
        Layout::from_size_align(self.number()?, self.number()?).ok()
    }

    fn kind(word: &str) -> Option<Kind> {
        match word {
            "pool" => Some(Kind::Pool),
            "bump" => Some(Kind::Bump),
            _ => None,
        }
    }

    fn strategy(word: &str) -> Option<AllocationStrategy> {
        match word {
            "static" => Some(AllocationStrategy::Static),
            "best" => Some(AllocationStrategy::BestFit),
            "power" => Some(AllocationStrategy::PowerOfTwo),
            _ => None,
        }
    }

    fn hints(&mut self) -> Option<Hints> {
        let strategy = Self::strategy(self.words.next()?)?;
        Some(Hints { strategy, layout: self.layout()?, chunks: self.number()? })
    }

    fn shape(&mut self) -> Option<Option<Shape>> {
        match self.words.next() {
            None => Some(None),
            Some("frames") => Some(Some(Shape::Frames { frames: self.number()?, frame_size: self.number()? })),
            Some("span") => Some(Some(Shape::Span { pages: self.number()? })),
            Some(_) => None,
        }
    }

    fn call(&mut self) -> Option<Call> {
        Some(match self.words.next()? {
            "create" => {
                let kind = Self::kind(self.words.next()?)?;
                Call::Create { kind, hints: self.hints()?, shape: self.shape()? }
            }
            "a" => Call::Allocate(self.layout()?),
            "f" => Call::Deallocate { chunk: self.number()? },
            "b" => Call::BucketSize { chunk: self.number()? },
            "o" => match self.words.next() {
                None => Call::Open { kind: None },
                Some(word) => Call::Open { kind: Some(Self::kind(word)?) },
            },
            "many" => Call::OpenMany { viewers: self.number()? },
            "r" => Call::Register { viewer: self.number()?, chunk: self.number()? },
            "u" => Call::Unregister { viewer: self.number()?, chunk: self.number()? },
            "c" => Call::Close { viewer: self.number()? },
            "end" => Call::End,
            _ => return None,
        })
    }
}
