//! Times an action of the proved ring against the same work in Rust, in one run: a loop of actions by value, the replay of a trace, and the drain
//! of a ring, full and with one reading waiting, in Rust by single Reads and in batches as the proved drain makes them. The rows take turns in each
//! round, so that a slow moment of the machine falls on all of them. Prints the least and the median of the rounds, in nanoseconds an action, and
//! each row's ratio to Rust with the test of shape before each action.

#[path = "../oracle/src/ring.rs"]
#[allow(dead_code)]
mod ring;
#[path = "../oracle/src/text.rs"]
#[allow(dead_code)]
mod text;
#[path = "../oracle/src/trace.rs"]
#[allow(dead_code)]
mod trace;

use ring::{Action, Answer, Reader, Ring};
use std::hint::black_box;
use std::io::{self, Write};
use std::process::ExitCode;
use std::time::Instant;

extern "C" {
    /// crates/bench: the loop by the methods, and by `Ring::act`; how many readings it handed out.
    fn bench_by_methods(actions: u32) -> u64;
    fn bench_by_act(actions: u32) -> u64;
    /// The same crate: the replay of a trace, with three numbers for each answer; how many actions it made.
    fn bench_replay(bytes: *const u8, length: usize, answers: *mut u64, answers_length: usize) -> usize;
    /// The same crate: the ring that a trace leaves, drained so many times, each time as the trace left it; how many elements a drain filled.
    fn bench_drain(
        bytes: *const u8,
        length: usize,
        answers: *mut u64,
        answers_length: usize,
        buffer: *mut u64,
        buffer_length: usize,
        turns: u32,
    ) -> usize;
}

const ACTIONS: u32 = 2_000_000;
const ROUNDS: usize = 15;
/// How often the trace is replayed in a round.
const TURNS: usize = 60;
/// How many elements a drain is lent: more than a full ring has readings.
const ELEMENTS: usize = 300;
/// How many Reads in a row may bring no Event before a drain ends.
const MOST_IN_ROW: u32 = 8;

/// A Write while a writer is at work, then Reads until nothing waits, then a Begin.
fn next_action(ring: &Ring, value: u32) -> Action {
    if ring.depth > 0 {
        Action::Write
    } else if ring.handed < ring.committed {
        Action::Read
    } else {
        Action::Begin(value)
    }
}

/// The loop of crates/bench in place: 16 pages of 16 slots in stop mode.
fn in_place(actions: u32, act: impl Fn(&mut Ring, Action) -> Answer) -> u64 {
    let (mut ring, _) = Ring::fresh(16, 16, 1);
    for i in 0..actions {
        let action = next_action(&ring, i);
        act(&mut ring, action);
    }
    ring.handed
}

fn rust_tested(actions: u32) -> u64 {
    in_place(actions, Ring::act)
}

fn rust_untested(actions: u32) -> u64 {
    in_place(actions, Ring::act_in_shape)
}

fn rattle_methods(actions: u32) -> u64 {
    // SAFETY: a function of numbers, proved for every argument.
    unsafe { bench_by_methods(actions) }
}

fn rattle_act(actions: u32) -> u64 {
    // SAFETY: as above.
    unsafe { bench_by_act(actions) }
}

/// A trace of as many actions of that loop as a file has room for.
fn loop_trace() -> Vec<u8> {
    let mut bytes = b"PTR\x01\x00\x10\x10\x01".to_vec();
    let (mut ring, _) = Ring::fresh(16, 16, 1);
    let mut value = 0;
    while bytes.len() + 5 <= trace::LONGEST {
        let action = next_action(&ring, value);
        ring.act(action);
        value += 1;
        match action {
            Action::Begin(value) => {
                bytes.push(1);
                bytes.extend(value.to_le_bytes());
            }
            Action::Write => bytes.push(2),
            Action::Read => bytes.push(3),
        }
    }
    bytes
}

fn replay_tested(bytes: &[u8], answers: &mut [u64]) -> usize {
    trace::replay_into(bytes, answers, Ring::act)
}

fn replay_untested(bytes: &[u8], answers: &mut [u64]) -> usize {
    trace::replay_into(bytes, answers, Ring::act_in_shape)
}

fn replay_rattle(bytes: &[u8], answers: &mut [u64]) -> usize {
    // SAFETY: a function of two slices, proved for every content of them; the two do not overlap.
    unsafe { bench_replay(bytes.as_ptr(), bytes.len(), answers.as_mut_ptr(), answers.len()) }
}

/// A trace that leaves readings waiting: so many of them, or as many as the ring has room for.
fn waiting_trace(readings: u32) -> Vec<u8> {
    let mut bytes = b"PTR\x01\x00\x10\x10\x01".to_vec();
    let (mut ring, _) = Ring::fresh(16, 16, 1);
    for value in 0..readings {
        ring.act(Action::Begin(value));
        bytes.push(1);
        bytes.extend(value.to_le_bytes());
        while ring.depth > 0 {
            if ring.act(Action::Write) == Answer::Dropped {
                bytes.truncate(bytes.len() - 5);
                return bytes;
            }
            bytes.push(2);
        }
    }
    bytes
}

/// The ring that a trace leaves.
fn ring_of(bytes: &[u8]) -> Ring {
    let (mut ring, _) = Ring::fresh(16, 16, 1);
    let mut at = 8;
    while at < bytes.len() {
        if bytes[at] == 1 {
            let value = [bytes[at + 1], bytes[at + 2], bytes[at + 3], bytes[at + 4]];
            ring.act(Action::Begin(u32::from_le_bytes(value)));
            at += 5;
        } else {
            ring.act(Action::Write);
            at += 1;
        }
    }
    ring
}

/// A loop of Reads until the buffer is full or there is no more to be had, with no limit of eight; how many Events it stored, and how many Reads it
/// made.
#[inline]
fn read_out(ring: &mut Ring, buffer: &mut [u64], act: impl Fn(&mut Ring, Action) -> Answer) -> (usize, usize) {
    let (mut filled, mut reads) = (0, 0);
    while filled < buffer.len() {
        reads += 1;
        match act(ring, Action::Read) {
            Answer::Event(number, value) => {
                buffer[filled] = u64::from(number) << 32 | u64::from(value);
                filled += 1;
            }
            Answer::Empty | Answer::Busy | Answer::Refused(_) => break,
            _ => (),
        }
    }
    (filled, reads)
}

#[inline]
fn drain_tested(ring: &mut Ring, buffer: &mut [u64]) -> usize {
    read_out(ring, buffer, Ring::act).0
}

#[inline]
fn drain_untested(ring: &mut Ring, buffer: &mut [u64]) -> usize {
    read_out(ring, buffer, Ring::act_in_shape).0
}

/// The one clause of the shape that an Event can break.
#[inline]
fn agrees(ring: &Ring) -> bool {
    ring.handed + ring.overwritten <= ring.committed
}

/// How many Events come one after the other: the least of those on the reader page, those that there is space for, and those that the counts allow.
/// The one that leaves the ring out of shape is allowed, and is the last.
#[inline]
fn event_count(ring: &Ring, space: usize) -> usize {
    if ring.reader != Reader::Idle {
        return 0;
    }
    let limit = if ring.commit_page == ring.reader_page {
        ring.commit_index
    } else {
        ring.used[ring.reader_page as usize]
    };
    let here = limit.saturating_sub(ring.position) as usize;
    let allowed = ring.committed + 1 - (ring.handed + ring.overwritten);
    here.min(space).min(allowed as usize)
}

/// The Reads of as many Events as the part of the buffer has elements, made together.
#[inline]
fn lay_events(ring: &mut Ring, part: &mut [u64]) {
    let from = ring.place(ring.reader_page, ring.position);
    let slots = from..from + part.len();
    let readings = ring.numbers[slots.clone()].iter().zip(&ring.values[slots]);
    for (element, (&number, &value)) in part.iter_mut().zip(readings) {
        *element = u64::from(number) << 32 | u64::from(value);
    }
    ring.position += part.len() as u32;
    ring.handed += part.len() as u64;
}

/// The drain as the proved ring makes it: the shape is tested once, Events that stand one after the other are laid together, and a Read of another
/// kind is made by itself.
#[inline]
fn drain_in_batches(ring: &mut Ring, buffer: &mut [u64]) -> usize {
    let (mut filled, mut left) = (0, MOST_IN_ROW);
    if !ring.in_shape() {
        return filled;
    }
    while filled < buffer.len() && left > 0 && agrees(ring) {
        let count = event_count(ring, buffer.len() - filled);
        if count > 0 {
            lay_events(ring, &mut buffer[filled..filled + count]);
            filled += count;
            left = MOST_IN_ROW;
            continue;
        }
        match ring.act_in_shape(Action::Read) {
            Answer::Empty | Answer::Busy => break,
            _ => left -= 1,
        }
    }
    filled
}

/// A drain in Rust on a copy of the ring, so many times.
fn drain_rust(ring: &Ring, buffer: &mut [u64], turns: u32, drain: impl Fn(&mut Ring, &mut [u64]) -> usize) -> usize {
    let mut filled = 0;
    for _ in 0..turns {
        let mut copy = black_box(ring).clone();
        filled = drain(&mut copy, black_box(buffer));
        black_box(&copy);
    }
    filled
}

/// What a row does, with what it must come to, and how many actions that is.
struct Row {
    name: &'static str,
    run: Box<dyn FnMut() -> (Vec<u64>, usize)>,
    times: Vec<f64>,
}

fn row(name: &'static str, run: impl FnMut() -> (Vec<u64>, usize) + 'static) -> Row {
    Row {
        name,
        run: Box::new(run),
        times: Vec::new(),
    }
}

/// A row of the loop: how many readings it handed out.
fn loop_row(name: &'static str, run: fn(u32) -> u64) -> Row {
    row(name, move || (vec![run(black_box(ACTIONS))], ACTIONS as usize))
}

/// A row of the replay: its answers.
fn replay_row(name: &'static str, run: fn(&[u8], &mut [u64]) -> usize) -> Row {
    replay_row_in(name, 3 * trace::LONGEST, run)
}

/// The same in a buffer of which the first `room` numbers are lent.
fn replay_row_in(name: &'static str, room: usize, run: fn(&[u8], &mut [u64]) -> usize) -> Row {
    let bytes = loop_trace();
    let mut answers = vec![0; 3 * trace::LONGEST];
    row(name, move || {
        let mut made = 0;
        for _ in 0..TURNS {
            made += run(black_box(&bytes), black_box(&mut answers[..room]));
        }
        (answers.clone(), made)
    })
}

/// How many numbers the answers of the trace take.
fn answers_room() -> usize {
    3 * replay_untested(&loop_trace(), &mut vec![0; 3 * trace::LONGEST])
}

/// The rows of a drain. Each comes to the buffer with the number filled; the Reads are counted once.
fn drain_rows(readings: u32, turns: u32) -> Vec<Row> {
    let bytes = waiting_trace(readings);
    let ring = ring_of(&bytes);
    let (_, reads) = read_out(&mut ring.clone(), &mut vec![0; ELEMENTS], Ring::act);
    let made = reads * turns as usize;
    let drained = |name, drain: Box<dyn Fn(&mut [u64]) -> usize>| {
        row(name, move || {
            let mut buffer = vec![u64::MAX; ELEMENTS];
            let filled = drain(&mut buffer);
            buffer.push(filled as u64);
            (buffer, made)
        })
    };
    let (untested, tested, batched) = (ring.clone(), ring.clone(), ring);
    vec![
        drained(
            "Rust, in place, no test of shape",
            Box::new(move |buffer| drain_rust(&untested, buffer, turns, drain_untested)),
        ),
        drained(
            "Rust, in place, shape tested",
            Box::new(move |buffer| drain_rust(&tested, buffer, turns, drain_tested)),
        ),
        drained(
            "Rust, in place, a batch, shape tested once",
            Box::new(move |buffer| drain_rust(&batched, buffer, turns, drain_in_batches)),
        ),
        drained(
            "Rattle, Ring::drain_into",
            Box::new(move |buffer| drain_rattle(&bytes, buffer, turns)),
        ),
    ]
}

fn drain_rattle(bytes: &[u8], buffer: &mut [u64], turns: u32) -> usize {
    let mut answers = vec![0; 3 * bytes.len()];
    // SAFETY: a function of three slices and a number, proved for every content of them; no two overlap.
    unsafe {
        bench_drain(
            bytes.as_ptr(),
            bytes.len(),
            answers.as_mut_ptr(),
            answers.len(),
            buffer.as_mut_ptr(),
            buffer.len(),
            turns,
        )
    }
}

/// A round: every row in turn; refused where they did not come to the same.
fn round(rows: &mut [Row]) -> Result<(), String> {
    let mut seen = None;
    for row in rows.iter_mut() {
        let start = Instant::now();
        let came = (row.run)();
        row.times.push(start.elapsed().as_nanos() as f64 / came.1 as f64);
        match &seen {
            None => seen = Some(came),
            Some(first) if *first == came => (),
            Some(_) => return Err(format!("'{}' comes to something else than the rows before it", row.name)),
        }
    }
    Ok(())
}

/// The table; the ratios are to row `base`.
fn table(heading: &str, rows: &[Row], base: usize) -> String {
    let ends = |row: &Row| (row.times[0], row.times[ROUNDS / 2]);
    let (least, median) = ends(&rows[base]);
    let mut text = format!(
        "{heading}: {ROUNDS} rounds, the rows in turn; nanoseconds an action, and the ratio to '{}'\n",
        rows[base].name
    );
    text += &format!("{:<44}{:>8}{:>8}{:>8}{:>8}\n", "", "least", "ratio", "median", "ratio");
    for row in rows {
        let (a, b) = ends(row);
        text += &format!(
            "{:<44}{a:>8.1}{:>8.2}{b:>8.1}{:>8.2}\n",
            row.name,
            a / least,
            b / median
        );
    }
    text
}

/// The rounds of some rows, as a table.
fn timed(heading: &str, mut rows: Vec<Row>) -> Result<String, String> {
    for _ in 0..ROUNDS {
        round(&mut rows)?;
    }
    rows.iter_mut().for_each(|row| row.times.sort_by(f64::total_cmp));
    Ok(table(heading, &rows, 1))
}

fn run() -> Result<(), String> {
    let actions = timed(
        "A loop of actions",
        vec![
            loop_row("Rust, in place, no test of shape", rust_untested),
            loop_row("Rust, in place, shape tested", rust_tested),
            loop_row("Rattle, by value, the methods", rattle_methods),
            loop_row("Rattle, by value, Ring::act", rattle_act),
        ],
    )?;
    let replays = timed(
        "Replay of a full trace",
        vec![
            replay_row("Rust, in place, no test of shape", replay_untested),
            replay_row("Rust, in place, shape tested", replay_tested),
            replay_row("Rattle, trace::replay", replay_rattle),
            replay_row_in("Rattle, the same in just enough room", answers_room(), replay_rattle),
        ],
    )?;
    let full = timed("Drain of a full ring", drain_rows(u32::MAX, 20_000))?;
    let single = timed("Drain of one reading", drain_rows(1, 400_000))?;
    io::stdout()
        .write_all(format!("{actions}\n{replays}\n{full}\n{single}").as_bytes())
        .map_err(|error| format!("standard output: {error}"))
}

fn main() -> ExitCode {
    match run() {
        Ok(()) => ExitCode::SUCCESS,
        Err(why) => {
            eprintln!("bench: {why}");
            ExitCode::FAILURE
        }
    }
}
