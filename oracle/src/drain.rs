//! The drain of request E2 of document 02, made of single Reads. What stands in quotes
//! is 02's. Each drain can be held to a second way of making the same Reads.

use crate::demand::must;
use crate::ring::{Action, Answer, Refusal, Ring};

/// "eight Reads in a row have brought none of these and no Event".
const QUIET: usize = 8;

/// What a call hands back besides the ring.
pub struct Drained<'a> {
    /// "the part of the caller's buffer that it filled".
    pub part: &'a mut [u64],
    /// The last answer; none where no Read was made.
    pub last: Option<Answer>,
}

/// "Reads are made until the buffer is full, or an answer is Empty, Busy or a refusal,
/// or eight Reads in a row have brought none of these and no Event. Each Event is stored
/// as number × 2^32 + value." "A ring out of shape gets 1, whatever the buffer's length,
/// with nothing stored and an empty part handed back. Otherwise length 0 means no Read,
/// the same ring, last answer "none"."
pub fn drain<'a>(ring: &mut Ring, room: &'a mut [u64]) -> Drained<'a> {
    let mut filled = 0;
    let mut quiet = 0;
    let mut last = None;
    if !ring.in_shape() {
        last = Some(Answer::Refused(Refusal::Shape));
        return Drained {
            part: &mut room[..filled],
            last,
        };
    }
    while filled < room.len() && quiet < QUIET {
        let answer = ring.act(Action::Read);
        last = Some(answer);
        match answer {
            Answer::Event(number, value) => {
                room[filled] = u64::from(number) * 4_294_967_296 + u64::from(value);
                filled += 1;
                quiet = 0;
            }
            Answer::Empty | Answer::Busy | Answer::Refused(_) => break,
            _ => quiet += 1,
        }
    }
    Drained {
        part: &mut room[..filled],
        last,
    }
}

/// A Read made singly: its answer and the ring that it gave back.
pub type Single = (Answer, Ring);

/// What came of a drain, and "the same Reads made singly".
pub struct Checked {
    pub filled: usize,
    pub last: Option<Answer>,
    pub reads: Vec<Single>,
}

/// A drain that is lent the first `length` elements of a buffer: "Ring, events and last
/// answer are those of the same Reads made singly", and "the rest keeps its old contents".
pub fn checked(ring: &mut Ring, buffer: &mut [u64], length: usize) -> Result<Checked, String> {
    let reads = singly(ring, length);
    let stored = reads.iter().filter_map(|(answer, _)| event(*answer));
    let events: Vec<u64> = stored.collect();
    let due = [&events, &buffer[events.len()..]].concat();
    let given = ring.clone();
    let (left, answer) = match reads.last() {
        Some((answer, left)) => (left, Some(*answer)),
        None => (&given, None),
    };
    let front = buffer.as_ptr();
    let Drained { part, last } = drain(ring, &mut buffer[..length]);
    let at_front = part.as_ptr() == front;
    let filled = part.len();
    must(at_front, "the part is not at the front of the buffer")?;
    must(filled == events.len(), "the part is not the Events' size")?;
    must(buffer == due, "the buffer is not its Events and its rest")?;
    must(last == answer, "the last answer is not that of the Reads")?;
    must(ring == left, "the ring is not that of the Reads")?;
    Ok(Checked {
        filled,
        last,
        reads,
    })
}

/// The Reads of a drain, each made when those before it have not ended it. On a ring out
/// of shape one Read gets the 1 that is due "whatever the buffer's length".
fn singly(ring: &Ring, length: usize) -> Vec<Single> {
    let mut ring = ring.clone();
    let mut reads = Vec::new();
    while !ended(&reads, length) || (reads.is_empty() && !ring.in_shape()) {
        let answer = ring.act(Action::Read);
        reads.push((answer, ring.clone()));
    }
    reads
}

/// Whether a drain is over, told from all of its answers anew: nothing is carried from
/// one Read to the next that could be counted wrong.
fn ended(reads: &[Single], length: usize) -> bool {
    let is_event = |read: &Single| event(read.0).is_some();
    let is_end =
        |read: &Single| matches!(read.0, Answer::Empty | Answer::Busy | Answer::Refused(_));
    let full = reads.iter().filter(|read| is_event(read)).count() == length;
    let told = reads.last().is_some_and(is_end);
    let in_a_row = reads.rchunks_exact(8).next();
    let quiet = in_a_row.is_some_and(|row| !row.iter().any(|read| is_event(read) || is_end(read)));
    full || told || quiet
}

/// The number that is stored of an Event: its number in the upper 32 bits, its value in
/// the lower.
fn event(answer: Answer) -> Option<u64> {
    match answer {
        Answer::Event(number, value) => Some(u64::from(number) << 32 | u64::from(value)),
        _ => None,
    }
}

impl Checked {
    /// What holds of a drain of a ring reached from a fresh one: the last answer is none,
    /// Event, Empty or Busy, and no Read on the way was far from one of them.
    pub fn of_reached(&self) -> Result<(), String> {
        let told = self.last.is_none_or(is_told);
        must(told, "the drain did not end in none, Event, Empty or Busy")?;
        self.reads.iter().try_for_each(|(_, left)| soon_told(left))
    }
}

/// A ring reached from a fresh one brings Event, Empty or Busy within 6 Reads: at worst
/// the reader's page has been taken from it since Found, and they are Prepared, Missed,
/// Found, Prepared, Swapped and then one of the three.
pub fn soon_told(ring: &Ring) -> Result<(), String> {
    let mut ring = ring.clone();
    let told = (0..6).any(|_| is_told(ring.act(Action::Read)));
    must(told, "6 Reads without Event, Empty or Busy")
}

fn is_told(answer: Answer) -> bool {
    matches!(answer, Answer::Event(..) | Answer::Empty | Answer::Busy)
}
