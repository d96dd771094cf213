//! The text of `random` (docs/PROGRAMS.md); every list is also held to demand 3. Its
//! drains are in `drains`.

use std::ops::Range;

use crate::demand::{must, History};
use crate::drains;
use crate::draws::{Digest, Generator};
use crate::ring::{Action, Ring};
use crate::states;
use crate::text::{self, Tally};

const LISTS: u32 = 20_160;
const ACTIONS: u32 = 500;
/// "42 for each set-up".
const LISTS_OF_SETUP: u32 = 42;
/// "The 672 lists of one N and one mode are a group and have one digest."
const LISTS_OF_GROUP: u32 = 672;

/// The whole text of `random`, or where a list fails demand 3.
pub fn run() -> Result<String, String> {
    let mut out = String::new();
    lists(&mut out)?;
    all_states(&mut out)?;
    drains::lists(&mut out)?;
    drains::states(&mut out)?;
    Ok(out)
}

/// N, S and mode of set-up i.
pub fn setup(i: u32) -> (u32, u32, u32) {
    (2 + i / 32, 1 + i % 16, (i / 16) % 2)
}

/// The line of a group of lists whose first set-up is i.
pub fn group_line(out: &mut String, i: u32, digest: &Digest) {
    let (n, _, mode) = setup(i);
    let left = format!("N = {n}, {}", text::mode(mode));
    text::line(out, &left, &digest.text());
}

fn lists(out: &mut String) -> Result<(), String> {
    let title = "Random lists: 20160 lists of 500 actions, 42 for each set-up";
    text::heading(out, title);
    let mut tally = Tally::default();
    for group in 0..LISTS / LISTS_OF_GROUP {
        let first = group * LISTS_OF_GROUP;
        let mut digest = Digest::new();
        for number in first..first + LISTS_OF_GROUP {
            list(number, &mut digest, &mut tally)?;
        }
        group_line(out, first / LISTS_OF_SETUP, &digest);
    }
    text::heading(out, "Answers to the lists");
    tally.print(out);
    Ok(())
}

/// One list from its set-up, with demand 3 after each action.
fn list(number: u32, digest: &mut Digest, tally: &mut Tally) -> Result<(), String> {
    let mut draws = Generator::new(u64::from(number) + 1);
    let (n, s, mode) = setup(number / LISTS_OF_SETUP);
    let (mut ring, answer) = Ring::fresh(n, s, mode);
    tally.count(answer);
    digest.answer(answer);
    digest.ring(&ring);
    let mut history = History::new();
    history
        .holds(&ring)
        .map_err(|fails| format!("list {number}, set-up: {fails}"))?;
    for i in 0..ACTIONS {
        let action = action(number, &mut draws);
        let before = ring.clone();
        let answer = ring.act(action);
        tally.count(answer);
        digest.answer(answer);
        digest.ring(&ring);
        if let Err(fails) = history.check(&before, action, answer, &ring) {
            let (action, answer) = (text::action(action), text::answer(answer));
            return Err(format!(
                "list {number}, action {i} ({action}: {answer}): {fails}"
            ));
        }
    }
    digest.receipt(&ring.receipt());
    Ok(())
}

/// "For each action d = below(100) is drawn, and for a Begin its value, any()."
fn action(number: u32, draws: &mut Generator) -> Action {
    let (begin, write) = match number % 3 {
        0 => (15, 75),
        1 => (20, 95),
        _ => (35, 85),
    };
    let d = draws.below(100);
    if d < begin {
        Action::Begin(draws.any())
    } else if d < write {
        Action::Write
    } else {
        Action::Read
    }
}

/// "10 groups of 4,000 states in shape, and then 31 groups of 1,000 states out of
/// shape, one for each break".
fn all_states(out: &mut String) -> Result<(), String> {
    let title = "Random states: each of the three actions on 71000 states";
    text::heading(out, title);
    let mut tally = Tally::default();
    state_groups(out, 1000, |numbers, which| {
        state_group(numbers, which, &mut tally)
    })?;
    text::heading(out, "Answers to the states");
    tally.print(out);
    Ok(())
}

/// A line for each group of states, numbered from 0 through all groups: 4,000 in each of
/// those in shape, `broken` in each of those out of shape.
pub fn state_groups<F>(out: &mut String, broken: u64, mut digest_of: F) -> Result<(), String>
where
    F: FnMut(Range<u64>, u32) -> Result<Digest, String>,
{
    let mut next = 0;
    for group in 1..=10 {
        let digest = digest_of(next..next + 4000, 0)?;
        text::line(out, &format!("in shape {group}"), &digest.text());
        next += 4000;
    }
    for which in 1..=31 {
        let digest = digest_of(next..next + broken, which)?;
        text::line(out, &format!("break {which}"), &digest.text());
        next += broken;
    }
    Ok(())
}

/// A state with break `which`, or in shape for 0; the shape test must agree.
pub fn state(which: u32, draws: &mut Generator) -> Result<Ring, String> {
    let ring = match which {
        0 => states::in_shape(draws),
        _ => states::broken(which, draws),
    };
    must(ring.in_shape() == (which == 0), "the shape test is wrong")?;
    Ok(ring)
}

/// The digest of a group of states, with break `which`, or in shape for 0. What is out
/// of shape must come back as it was.
fn state_group(numbers: Range<u64>, which: u32, tally: &mut Tally) -> Result<Digest, String> {
    let mut digest = Digest::new();
    for number in numbers {
        let told = |fails| format!("state {number}, break {which}: {fails}");
        let mut draws = Generator::new(1_000_000 + number);
        let ring = state(which, &mut draws).map_err(told)?;
        digest.receipt(&ring.receipt());
        for action in [Action::Begin(draws.any()), Action::Write, Action::Read] {
            let mut after = ring.clone();
            let answer = after.act(action);
            tally.count(answer);
            digest.answer(answer);
            digest.ring(&after);
            digest.receipt(&after.receipt());
            must(which == 0 || after == ring, "not the same state").map_err(told)?;
        }
    }
    Ok(digest)
}
