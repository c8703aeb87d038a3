//! What lists are about.

use core::alloc::Layout;

use iceoryx2_cal::shm_allocator::AllocationStrategy;

use crate::author::{Author, Habits, Order, layout};
use crate::desk::{MAX_ALIGN, MAX_SIZE};
use crate::mapping::PAGE;
use crate::store::Shape;
use crate::subject::{Hints, Kind};

/// The list of number n has the theme at place n, counted round and round.
pub const THEMES: [fn(&mut Author); 25] = [
    mixed,
    growth_and_return,
    small_frames,
    viewers_early_and_late,
    fixed_size,
    small_span,
    refused_setup,
    mixed,
    alignments_at_the_limits,
    viewers_keep_segments,
    buckets_in_turn,
    growth_and_return,
    small_frames,
    refused_setup,
    wide_sizes,
    ids_used_up_by_sizes,
    mixed,
    small_span,
    viewers_early_and_late,
    ids_used_up_by_alignment,
    refused_setup,
    fixed_size,
    ids_used_up_by_gaps,
    marks_and_gaps,
    many_buckets,
];

const QUIET: Habits =
    Habits { largest_size: 64, largest_align: 8, rare_aligns: 0, rare_align: 1, crowd: 8, viewing: 0 };

fn frames(frames: usize, frame_size: usize) -> Shape {
    Shape::Frames { frames, frame_size }
}

fn span(pages: usize) -> Shape {
    Shape::Span { pages }
}

/// A store that does not run out while payloads stay small.
fn roomy(author: &mut Author) -> Shape {
    if author.random.chance(50) { frames(320, 4 * PAGE) } else { span(author.random.between(1500, 2500)) }
}

fn hints(author: &mut Author, largest_size: usize, largest_align: usize, most_chunks: usize) -> Hints {
    Hints {
        strategy: author.strategy(),
        layout: author.whole_layout(largest_size, largest_align),
        chunks: author.random.between(1, most_chunks),
    }
}

fn growing_hints(author: &mut Author, largest_size: usize, largest_align: usize, most_chunks: usize) -> Hints {
    Hints { strategy: author.growing(), ..hints(author, largest_size, largest_align, most_chunks) }
}

/// Calls of all kinds, without an aim.
fn mixed(author: &mut Author) {
    let kind = author.kind();
    let hints = hints(author, 64, 16, 6);
    let shape = roomy(author);
    if !author.create(kind, hints, shape) {
        return;
    }
    let largest_align = if kind == Kind::Pool { 16 } else { 8 };
    let habits = Habits {
        largest_size: author.random.pick(&[16, 64, 200]),
        largest_align,
        rare_aligns: if kind == Kind::Pool { 3 } else { 0 },
        rare_align: 256,
        crowd: author.random.between(3, 20),
        viewing: 30,
    };
    let steps = author.random.between(60, 260);
    author.go_on(steps, &habits);
    author.end();
}

/// Several growths with chunks held, then returns in one order, and the same again.
fn growth_and_return(author: &mut Author) {
    let kind = author.kind();
    let hints = growing_hints(author, 32, 8, 3);
    let shape = roomy(author);
    if !author.create(kind, hints, shape) {
        return;
    }
    for _ in 0..author.random.between(1, 3) {
        for _ in 0..author.random.between(5, 40) {
            let align = author.align_up_to(8);
            let size = author.random.spread(120);
            author.allocate(size, align);
        }
        let order = author.order();
        author.return_all(order);
    }
    author.allocate(1, 1);
    author.end();
}

/// Frames that run out, and come free again.
fn small_frames(author: &mut Author) {
    let shape = frames(author.random.between(2, 7), author.random.pick(&[1, 1, 2, 4]) * PAGE);
    run_out(author, shape);
}

fn small_span(author: &mut Author) {
    let shape = span(author.random.between(2, 16));
    run_out(author, shape);
}

fn run_out(author: &mut Author, shape: Shape) {
    let kind = author.kind();
    let hints = growing_hints(author, 1500, 8, 3);
    if !author.create(kind, hints, shape) {
        return author.open();
    }
    let habits = Habits {
        largest_size: author.random.pick(&[600, 2000, 5000]),
        rare_aligns: if kind == Kind::Pool { 4 } else { 0 },
        rare_align: 512,
        crowd: author.random.between(2, 8),
        viewing: author.random.pick(&[0, 25, 40]),
        ..QUIET
    };
    let steps = author.random.between(40, 160);
    author.go_on(steps, &habits);
    let order = author.order();
    author.return_all(order);
    author.open_viewers().into_iter().for_each(|viewer| author.close(viewer));
    author.go_on(20, &Habits { viewing: 0, ..habits });
    author.end();
}

/// No growth is allowed: the allocator's own refusals come through.
fn fixed_size(author: &mut Author) {
    let kind = author.kind();
    let layout = author.whole_layout(300, 32);
    let hints = Hints { strategy: AllocationStrategy::Static, layout, chunks: author.random.between(1, 30) };
    let shape = roomy(author);
    if !author.create(kind, hints, shape) {
        return;
    }
    let habits = Habits {
        largest_size: layout.size() + layout.size() / 8 + 1,
        largest_align: layout.align(),
        rare_aligns: 8,
        rare_align: MAX_ALIGN,
        crowd: hints.chunks + 1,
        viewing: 10,
    };
    let steps = author.random.between(50, 200);
    author.go_on(steps, &habits);
    author.end();
}

/// Viewers that register at once, long after, after the return, and over a growth.
fn viewers_early_and_late(author: &mut Author) {
    let kind = author.kind();
    let hints = growing_hints(author, 24, 8, 3);
    let shape = roomy(author);
    if !author.create(kind, hints, shape) {
        return;
    }
    author.open();
    let habits = Habits { largest_size: 48, crowd: author.random.between(4, 12), viewing: 65, ..QUIET };
    let steps = author.random.between(80, 300);
    author.go_on(steps, &habits);
    author.open();
    let order = author.order();
    author.return_all(order);
    author.go_on(20, &Habits { viewing: 90, ..habits });
    author.end();
}

/// A viewer's maps keep segments standing that the memory has withdrawn, and the store runs out of room by them.
fn viewers_keep_segments(author: &mut Author) {
    let size = author.random.between(1, 40) * 8;
    let rounds = author.random.between(3, 9);
    let shape = if author.random.chance(50) {
        frames(author.random.between(3, rounds + 2), 2 * PAGE)
    } else {
        span(author.random.between(3, rounds + 2))
    };
    let hints = Hints { strategy: AllocationStrategy::BestFit, layout: layout(size, 8), chunks: 1 };
    if !author.create(Kind::Pool, hints, shape) {
        return;
    }
    author.open();
    author.open();
    for round in 0..rounds {
        let chunk = author.next_chunk();
        if author.allocate(size + 8 * round, 8).denial().is_some() {
            break;
        }
        author.register(0, chunk);
        if author.random.chance(40) {
            author.register(1, chunk);
        }
        author.return_chunk(chunk);
    }
    for viewer in 0..2 {
        for chunk in author.registered(viewer) {
            author.unregister(viewer, chunk);
            author.allocate(size + 8 * rounds, 8);
        }
        author.close(viewer);
        author.allocate(size + 8 * rounds, 8);
        author.allocate(size + 9 * rounds, 8);
    }
    author.end();
}

/// Growth by alignment, up to what no growth can reach.
fn alignments_at_the_limits(author: &mut Author) {
    let largest = author.random.pick(&[8, 4096, 4096, 8192]);
    let hints = Hints { strategy: author.strategy(), layout: author.whole_layout(9000, largest), chunks: 1 };
    let shape = if author.random.chance(50) { frames(40, 64 * PAGE) } else { span(3000) };
    if !author.create(Kind::Pool, hints, shape) {
        return author.open();
    }
    let habits = Habits {
        largest_size: 9000,
        largest_align: 4096,
        rare_aligns: 15,
        rare_align: MAX_ALIGN,
        crowd: 4,
        viewing: 10,
    };
    author.allocate(1, 4096);
    author.allocate(1, 8192);
    let steps = author.random.between(20, 60);
    author.go_on(steps, &habits);
    author.end();
}

/// Creates that are denied, or just not.
fn refused_setup(author: &mut Author) {
    let kind = author.kind();
    let strategy = author.strategy();
    let (layout, chunks, shape) = refused_numbers(author);
    if !author.create(kind, Hints { strategy, layout, chunks }, shape) {
        return author.open();
    }
    let habits = Habits { largest_size: layout.size(), crowd: 3, viewing: 20, ..QUIET };
    author.go_on(12, &habits);
    author.end();
}

fn refused_numbers(author: &mut Author) -> (Layout, usize, Shape) {
    let roomy = span(2000);
    let random = &mut author.random;
    match random.between(0, 10) {
        0 | 10 => (layout(8, 8), 0, roomy),
        1 => (layout(1, 1), random.between(1023, 1026), roomy),
        2 => (layout(16, 4), random.between(1023, 1026), roomy),
        3 => (layout(8192, random.pick(&[4096, 8192])), 2, roomy),
        4 => (layout(MAX_ALIGN, random.pick(&[4096, 8192, MAX_ALIGN])), 1, roomy),
        5 => (layout(MAX_SIZE, MAX_ALIGN), 1, span(random.pick(&[4096, 4097]))),
        6 => (layout(PAGE, 1), random.between(1, 3), frames(random.between(1, 3), random.between(1, 3) * PAGE)),
        7 => (layout(PAGE, 1), random.between(1, 4), span(random.between(1, 5))),
        8 => (layout(1, 1), random.pick(&[4_294_967_295, 4_294_967_296, usize::MAX]), roomy),
        _ => (layout(MAX_SIZE, 1), random.pick(&[255, 256, 257, (1 << 40) - 1]), roomy),
    }
}

/// A pool whose buckets are given out and come back many times, in one segment.
fn buckets_in_turn(author: &mut Author) {
    let layout = author.whole_layout(40, 16);
    let chunks = author.random.between(2, 12);
    let hints = Hints { strategy: AllocationStrategy::Static, layout, chunks };
    if !author.create(Kind::Pool, hints, frames(2, 4 * PAGE)) {
        return;
    }
    for _ in 0..author.random.between(3, 8) {
        for _ in 0..author.random.between(1, chunks) {
            let size = author.random.between(1, layout.size());
            author.allocate(size, layout.align());
        }
        let mut held = author.held();
        author.random.shuffle(&mut held);
        let kept = author.random.between(0, held.len());
        held.drain(kept..).for_each(|chunk| author.return_chunk(chunk));
    }
    author.end();
}

/// Sizes from one byte to the largest.
fn wide_sizes(author: &mut Author) {
    let kind = author.kind();
    let hints = Hints { strategy: author.strategy(), layout: author.whole_layout(MAX_SIZE, 4096), chunks: 1 };
    let shape =
        if author.random.chance(50) { frames(6, 4096 * PAGE) } else { span(author.random.between(8200, 24_000)) };
    if !author.create(kind, hints, shape) {
        return author.open();
    }
    let habits = Habits { largest_size: MAX_SIZE, crowd: 3, viewing: 25, ..QUIET };
    let steps = author.random.between(20, 80);
    author.go_on(steps, &habits);
    author.allocate(MAX_SIZE, 1);
    author.end();
}

/// Each request is a little larger than any before, so each takes another id, until there is none.
fn ids_used_up_by_sizes(author: &mut Author) {
    let kind = author.kind();
    let hints =
        Hints { strategy: AllocationStrategy::BestFit, layout: layout(8, 8), chunks: author.random.between(1, 2) };
    let shape = author.random.pick(&[frames(320, 4 * PAGE), frames(257, 4 * PAGE), frames(256, 4 * PAGE), span(900)]);
    if !author.create(kind, hints, shape) {
        return;
    }
    let keeps = author.random.pick(&[0, 10, 100]);
    let mut size = 8;
    for _ in 0..265 {
        let chunk = author.next_chunk();
        let accepted = author.allocate(size, 1).denial().is_none();
        size += if kind == Kind::Pool { 8 } else { 1 };
        if accepted && !author.random.chance(keeps) {
            author.return_chunk(chunk);
        }
    }
    author.open();
    let order = author.order();
    author.go_on(20, &Habits { largest_size: size, crowd: 0, viewing: 50, ..QUIET });
    author.return_all(order);
    author.allocate(1, 1);
    author.allocate(size + 8, 1);
    author.end();
}

/// A bump with too little room behind the next aligned place and enough before it grows without getting larger: two
/// requests use up an id.
fn ids_used_up_by_gaps(author: &mut Author) {
    let payload = author.random.between(3, 60) * 8;
    let hints = Hints { strategy: author.growing(), layout: layout(payload, 8), chunks: 1 };
    let shape = author.random.pick(&[frames(320, PAGE), frames(3, PAGE), span(3), span(400)]);
    if !author.create(Kind::Bump, hints, shape) {
        return;
    }
    let keeps = if shape == frames(320, PAGE) || shape == span(400) { author.random.pick(&[0, 30]) } else { 0 };
    let mut mark = 0;
    for _ in 0..author.random.between(200, 260) {
        let chunk = author.next_chunk();
        author.allocate(payload - 7 - mark, 1);
        let before = author.next_chunk();
        if before > chunk && !author.random.chance(keeps) {
            author.return_chunk(chunk);
        }
        author.allocate(6, 8);
        if author.next_chunk() > before {
            author.return_chunk(before);
        }
        mark = 6;
    }
    author.allocate(payload, 1);
    author.end();
}

/// An alignment that no growth can reach takes every id in one call, unless the store runs out first.
fn ids_used_up_by_alignment(author: &mut Author) {
    let hints = Hints { strategy: author.growing(), layout: author.whole_layout(64, 8), chunks: 2 };
    let places = author.random.pick(&[2, 3, 3, 3, 4]);
    let shape = author.random.pick(&[frames(places, PAGE), frames(places, PAGE), span(places), span(300)]);
    if !author.create(Kind::Bump, hints, shape) {
        return;
    }
    author.go_on(6, &Habits { largest_size: 20, viewing: 0, ..QUIET });
    let align = author.random.pick(&[16, 32, 4096, MAX_ALIGN]);
    let size = author.random.between(1, 40);
    author.allocate(1, 1);
    author.allocate(size, align);
    author.allocate(size, 8);
    author.return_all(Order::OldestFirst);
    author.allocate(size, align);
    author.go_on(12, &Habits { largest_size: 80, viewing: 30, ..QUIET });
    author.end();
}

/// A bump asked for just what is left, one more, one less, over all alignments that it gives.
fn marks_and_gaps(author: &mut Author) {
    let payload = author.random.between(2, 40) * 8;
    let hints = Hints { strategy: author.strategy(), layout: layout(payload, 8), chunks: 1 };
    let shape = roomy(author);
    if !author.create(Kind::Bump, hints, shape) {
        return;
    }
    for _ in 0..author.random.between(2, 6) {
        let taken = author.random.between(1, payload - 1);
        author.allocate(taken, 1);
        let align = author.align_up_to(8);
        let size = (payload - taken + 2).saturating_sub(author.random.between(0, 4)).max(1);
        author.allocate(size, align);
    }
    let order = author.order();
    author.return_all(order);
    author.allocate(payload, 8);
    author.end();
}

/// Pools of up to 1,024 buckets, filled to the last.
fn many_buckets(author: &mut Author) {
    let chunks = author.random.pick(&[512, 600, 1022, 1023, 1024]);
    let layout = author.whole_layout(24, 8);
    let hints = Hints { strategy: author.growing(), layout, chunks };
    let shape = if author.random.chance(50) { frames(6, 16 * PAGE) } else { span(200) };
    if !author.create(Kind::Pool, hints, shape) {
        return;
    }
    for _ in 0..chunks {
        author.allocate(layout.size(), layout.align());
    }
    if author.can_hold_more() {
        author.allocate(layout.size(), layout.align());
    }
    let order = author.order();
    for chunk in author.held().into_iter().take(40) {
        author.return_chunk(chunk);
    }
    author.allocate(layout.size() + 1, layout.align());
    author.allocate(MAX_SIZE, 1);
    if author.random.chance(50) {
        author.return_all(order);
    }
    author.allocate(1, 1);
    author.end();
}
