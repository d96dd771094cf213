//! The drains of `random` (docs/PROGRAMS.md), in lists from a fresh ring and of states.
//! Every drain is held to its Reads made singly, and every list to demand 3.

use std::array;
use std::ops::Range;

use crate::demand::{must, History};
use crate::drain::{self, Checked};
use crate::draws::{Digest, Generator};
use crate::random;
use crate::ring::{Action, Answer, Refusal, Ring};
use crate::text::{self, LastAnswers};

const LISTS: u32 = 6_720;
const TURNS: u32 = 500;
/// "14 for each set-up".
const LISTS_OF_SETUP: u32 = 14;
/// "The 224 lists of one N and one mode are a group and have one digest."
const LISTS_OF_GROUP: u32 = 224;
/// "a buffer of 40 numbers".
const BUFFER: usize = 40;

pub fn lists(out: &mut String) -> Result<(), String> {
    let title = "Drains of lists: 6720 lists of 500 turns, 14 for each set-up";
    text::heading(out, title);
    let mut lasts = LastAnswers::default();
    for group in 0..LISTS / LISTS_OF_GROUP {
        let first = group * LISTS_OF_GROUP;
        let mut digest = Digest::new();
        for number in first..first + LISTS_OF_GROUP {
            list(number, &mut digest, &mut lasts)?;
        }
        random::group_line(out, first / LISTS_OF_SETUP, &digest);
    }
    text::heading(out, "Last answers of the drains of lists");
    lasts.print(out);
    Ok(())
}

/// A list as it runs.
struct List {
    draws: Generator,
    ring: Ring,
    history: History,
}

/// One list from its set-up, with all that must hold after each turn.
fn list(number: u32, digest: &mut Digest, lasts: &mut LastAnswers) -> Result<(), String> {
    let (n, s, mode) = random::setup(number / LISTS_OF_SETUP);
    let (ring, _) = Ring::fresh(n, s, mode);
    drain::soon_told(&ring).map_err(|fails| format!("fresh({n}, {s}, {mode}): {fails}"))?;
    let mut list = List {
        draws: Generator::new(2_000_000 + u64::from(number)),
        ring,
        history: History::new(),
    };
    for i in 0..TURNS {
        let turn = match action(&mut list.draws) {
            Some(action) => list.act(action, digest),
            None => list.drain(digest, lasts),
        };
        turn.map_err(|fails| format!("drains of list {number}, turn {i}: {fails}"))?;
    }
    Ok(())
}

/// "Begin where d is below 15, with its value, any(); otherwise Write where d is below
/// 75; otherwise Read where d is below 85; otherwise a drain", which is none here.
fn action(draws: &mut Generator) -> Option<Action> {
    match draws.below(100) {
        0..15 => Some(Action::Begin(draws.any())),
        15..75 => Some(Action::Write),
        75..85 => Some(Action::Read),
        _ => None,
    }
}

impl List {
    fn act(&mut self, action: Action, digest: &mut Digest) -> Result<(), String> {
        let before = self.ring.clone();
        let answer = self.ring.act(action);
        digest.answer(answer);
        self.history.check(&before, action, answer, &self.ring)?;
        drain::soon_told(&self.ring)
    }

    /// To demand 3 a drain is its Reads, one by one.
    fn drain(&mut self, digest: &mut Digest, lasts: &mut LastAnswers) -> Result<(), String> {
        let before = self.ring.clone();
        let drained = one(&mut self.ring, &mut self.draws, digest, lasts)?;
        drained.of_reached()?;
        let mut before = &before;
        for (answer, after) in &drained.reads {
            self.history.check(before, Action::Read, *answer, after)?;
            before = after;
        }
        Ok(())
    }
}

/// "its length n is below(4) where below(2) is 0, else below(41); then x = any(). Element
/// j ... becomes x * 2^32 + j": such a drain is drawn, made and folded in.
fn one(
    ring: &mut Ring,
    draws: &mut Generator,
    digest: &mut Digest,
    lasts: &mut LastAnswers,
) -> Result<Checked, String> {
    let most = if draws.zero_of(2) { 4 } else { 41 };
    let length = draws.below(most) as usize;
    let x = u64::from(draws.any());
    let mut buffer: [u64; BUFFER] = array::from_fn(|j| (x << 32) + j as u64);
    let drained = drain::checked(ring, &mut buffer, length)?;
    digest.drain(drained.last, drained.filled, &buffer, ring);
    lasts.count(drained.last);
    Ok(drained)
}

/// "10 of 4,000 states in shape and then 31 of 400 states out of shape, one for each
/// break".
pub fn states(out: &mut String) -> Result<(), String> {
    let title = "Drains of states: one of each of 52400 states";
    text::heading(out, title);
    let mut lasts = LastAnswers::default();
    random::state_groups(out, 400, |numbers, which| {
        state_group(numbers, which, &mut lasts)
    })?;
    text::heading(out, "Last answers of the drains of states");
    lasts.print(out);
    Ok(())
}

/// The digest of a group of states, with break `which`, or in shape for 0.
fn state_group(numbers: Range<u64>, which: u32, lasts: &mut LastAnswers) -> Result<Digest, String> {
    let mut digest = Digest::new();
    for number in numbers {
        let told = |fails| format!("drain of state {number}, break {which}: {fails}");
        let mut draws = Generator::new(3_000_000 + number);
        let mut ring = random::state(which, &mut draws).map_err(told)?;
        let before = ring.clone();
        let drained = one(&mut ring, &mut draws, &mut digest, lasts).map_err(told)?;
        if which != 0 {
            refused(&drained, before == ring).map_err(told)?;
        }
    }
    Ok(digest)
}

/// "A ring out of shape gets 1, whatever the buffer's length, with nothing stored and an
/// empty part handed back"; and the same state comes back.
fn refused(drained: &Checked, same: bool) -> Result<(), String> {
    let refused = drained.last == Some(Answer::Refused(Refusal::Shape));
    must(refused, "not refused with 1")?;
    must(drained.filled == 0, "a part that is not empty")?;
    must(same, "not the same state")
}
