//! The random states of docs/PROGRAMS.md, in shape and with one thing broken.

use crate::draws::Generator;
use crate::ring::{flag_in, page_in, word, Phase, Reader, Ring, LIMIT, PAGES, RECORDS, SLOTS};

/// "A state in shape is drawn so", steps 1 to 8.
pub fn in_shape(draws: &mut Generator) -> Ring {
    let n = 2 + draws.below(15);
    let s = 1 + draws.below(16);
    let mode = draws.below(2);
    let (mut ring, _) = Ring::fresh(n, s, mode);
    draw_places(&mut ring, draws);
    draw_words(&mut ring, draws);
    draw_used(&mut ring, draws);
    draw_stack(&mut ring, draws);
    draw_reader(&mut ring, draws);
    for slot in 0..SLOTS {
        ring.numbers[slot] = draws.any();
        ring.values[slot] = draws.any();
    }
    draw_counts(&mut ring, draws);
    ring
}

/// "A page is below(N + 1)."
fn page(n: u32, draws: &mut Generator) -> u32 {
    draws.below(n + 1)
}

/// Step 2.
fn draw_places(ring: &mut Ring, draws: &mut Generator) {
    ring.reader_page = page(ring.n, draws);
    ring.tail_page = reader_or_page(ring, draws);
    ring.commit_page = reader_or_page(ring, draws);
    ring.commit_index = draws.below(ring.s + 1);
    ring.position = draws.below(ring.s + 1);
}

/// "the reader page where below(4) is 0, else a page".
fn reader_or_page(ring: &Ring, draws: &mut Generator) -> u32 {
    if draws.zero_of(4) {
        ring.reader_page
    } else {
        page(ring.n, draws)
    }
}

/// Step 3.
fn draw_words(ring: &mut Ring, draws: &mut Generator) {
    let bare = draws.below(3);
    for p in 0..PAGES {
        ring.words[p] = if p <= ring.n as usize {
            let next = page(ring.n, draws);
            let flag = if bare == 0 {
                2 * draws.below(2)
            } else {
                draws.below(3)
            };
            word(next, flag)
        } else {
            draws.any()
        };
    }
}

/// Step 4.
fn draw_used(ring: &mut Ring, draws: &mut Generator) {
    for p in 0..PAGES {
        ring.used[p] = if p > ring.n as usize {
            draws.any()
        } else if draws.zero_of(2) {
            ring.s
        } else {
            draws.below(ring.s + 1)
        };
    }
}

/// Step 5.
fn draw_stack(ring: &mut Ring, draws: &mut Generator) {
    ring.depth = draws.below(5);
    for i in 0..RECORDS {
        ring.records[i].value = draws.any();
        let code = draws.below(7);
        let (a, b) = if code == 0 || code == 6 {
            (0, 0)
        } else if i >= ring.depth as usize {
            (draws.any(), draws.any())
        } else if code == 5 {
            (page(ring.n, draws), draws.below(ring.s))
        } else {
            link(ring, draws)
        };
        let own = code == 2 && draws.below(2) == 1;
        ring.records[i].phase = phase(code, a, b, own);
    }
}

/// "t, a page; n, the page in t's word where below(2) is 0, else a page".
fn link(ring: &Ring, draws: &mut Generator) -> (u32, u32) {
    let t = page(ring.n, draws);
    let n = if draws.zero_of(2) {
        page_in(ring.words[t as usize])
    } else {
        page(ring.n, draws)
    };
    (t, n)
}

/// A phase from its code and its numbers.
fn phase(code: u32, a: u32, b: u32, own: bool) -> Phase {
    match code {
        0 => Phase::Want,
        1 => Phase::Mark { t: a, n: b },
        2 => Phase::Promote { t: a, n: b, own },
        3 => Phase::Clear { t: a, n: b },
        4 => Phase::Push { t: a, n: b },
        5 => Phase::Held { page: a, slot: b },
        _ => Phase::Filled,
    }
}

/// Step 6.
fn draw_reader(ring: &mut Ring, draws: &mut Generator) {
    let code = draws.below(3);
    if code == 0 {
        ring.reader = Reader::Idle;
    } else {
        let (p, h) = link(ring, draws);
        ring.reader = reader(code, p, h);
    }
}

/// FOUND or READY from its code.
fn reader(code: u32, p: u32, h: u32) -> Reader {
    if code == 1 {
        Reader::Found { p, h }
    } else {
        Reader::Ready { p, h }
    }
}

/// Step 8.
fn draw_counts(ring: &mut Ring, draws: &mut Generator) {
    match draws.below(4) {
        0 => draw_small_counts(ring, draws),
        1 => draw_worn_counts(ring, draws),
        2 => {
            (ring.begun, ring.dropped) = (LIMIT, LIMIT);
            (ring.taken, ring.committed) = (0, 0);
            (ring.handed, ring.overwritten) = (0, 0);
        }
        _ => {
            (ring.begun, ring.taken, ring.committed) = (LIMIT, LIMIT, LIMIT);
            ring.overwritten = LIMIT - u64::from(draws.below(3));
            ring.handed = LIMIT - ring.overwritten;
            ring.dropped = 0;
        }
    }
}

/// Step 8, "0:".
fn draw_small_counts(ring: &mut Ring, draws: &mut Generator) {
    ring.handed = u64::from(draws.below(100));
    ring.overwritten = u64::from(draws.below(100));
    ring.committed = ring.handed + ring.overwritten + u64::from(draws.below(100));
    ring.taken = ring.committed + u64::from(draws.below(100));
    ring.dropped = u64::from(draws.below(100));
    ring.begun = ring.taken + ring.dropped + u64::from(draws.below(100));
}

/// Step 8, "1:".
fn draw_worn_counts(ring: &mut Ring, draws: &mut Generator) {
    ring.begun = LIMIT;
    ring.dropped = u64::from(draws.below(3));
    ring.taken = LIMIT - ring.dropped - u64::from(draws.below(3));
    ring.committed = ring.taken - u64::from(draws.below(3));
    ring.overwritten = u64::from(draws.below(3));
    ring.handed = ring.committed - ring.overwritten - u64::from(draws.below(3));
}

/// "drawn as one in shape, and then one thing is broken, by further draws": the
/// table's row `which`, 1 to 31.
pub fn broken(which: u32, draws: &mut Generator) -> Ring {
    let mut ring = in_shape(draws);
    match which {
        1..=10 => break_place(&mut ring, which, draws),
        11..=13 => break_page(&mut ring, which, draws),
        14..=18 => break_stack(&mut ring, which, draws),
        19 | 20 => break_reader(&mut ring, which, draws),
        _ => break_count(&mut ring, which, draws),
    }
    ring
}

/// Breaks 1 to 10.
fn break_place(ring: &mut Ring, which: u32, draws: &mut Generator) {
    let (n, s) = (ring.n, ring.s);
    match which {
        1 => ring.n = draws.below(2),
        2 => ring.n = draws.over32(17),
        3 => no_slots(ring),
        4 => ring.s = draws.over32(17),
        5 => ring.mode = draws.over32(2),
        6 => ring.reader_page = draws.over32(n + 1),
        7 => ring.tail_page = draws.over32(n + 1),
        8 => ring.commit_page = draws.over32(n + 1),
        9 => ring.commit_index = draws.over32(s + 1),
        _ => ring.position = draws.over32(s + 1),
    }
}

/// Break 3: S = 0, and nothing is left that needs a slot.
fn no_slots(ring: &mut Ring) {
    ring.s = 0;
    ring.used[..=ring.n as usize].fill(0);
    (ring.commit_index, ring.position, ring.depth) = (0, 0, 0);
}

/// Breaks 11 to 13: a page is drawn first.
fn break_page(ring: &mut Ring, which: u32, draws: &mut Generator) {
    let p = page(ring.n, draws) as usize;
    match which {
        11 => {
            let next = draws.over32(ring.n + 1);
            ring.words[p] = word(next, draws.below(3));
        }
        12 => ring.words[p] += 3 - flag_in(ring.words[p]),
        _ => ring.used[p] = draws.over32(ring.s + 1),
    }
}

/// Breaks 14 to 18.
fn break_stack(ring: &mut Ring, which: u32, draws: &mut Generator) {
    for record in &mut ring.records {
        record.phase = Phase::Want;
    }
    if which == 14 {
        ring.depth = draws.over32(5);
        return;
    }
    ring.depth = 1 + draws.below(4);
    let i = draws.below(ring.depth) as usize;
    let code = if which <= 16 { 1 + draws.below(4) } else { 5 };
    let (a, b) = match which {
        15 => (draws.over32(ring.n + 1), page(ring.n, draws)),
        16 => (page(ring.n, draws), draws.over32(ring.n + 1)),
        17 => (draws.over32(ring.n + 1), draws.below(ring.s)),
        _ => (page(ring.n, draws), draws.over32(ring.s)),
    };
    ring.records[i].phase = phase(code, a, b, false);
}

/// Breaks 19 and 20.
fn break_reader(ring: &mut Ring, which: u32, draws: &mut Generator) {
    let code = 1 + draws.below(2);
    let (p, h) = if which == 19 {
        (draws.over32(ring.n + 1), page(ring.n, draws))
    } else {
        (page(ring.n, draws), draws.over32(ring.n + 1))
    };
    ring.reader = reader(code, p, h);
}

/// Breaks 21 to 31.
fn break_count(ring: &mut Ring, which: u32, draws: &mut Generator) {
    let past = LIMIT + 1;
    match which {
        21 => ring.begun = draws.over(past),
        22 => ring.taken = draws.over(past),
        23 => ring.committed = draws.over(past),
        24 => ring.handed = draws.over(past),
        25 => ring.overwritten = draws.over(past),
        26 => ring.dropped = draws.over(past),
        27 => ring.handed = ring.committed - ring.overwritten + 1,
        28 => ring.committed = ring.taken + 1,
        29 => ring.dropped = ring.begun - ring.taken + 1,
        30 => (ring.handed, ring.overwritten) = (u64::MAX, 1),
        _ => (ring.taken, ring.dropped) = (u64::MAX, 1),
    }
}
