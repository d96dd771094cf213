//! The cases of 01, "A small ring on paper", with what 01 says of each written
//! out, and of K10's end what E3 of document 02 says; the ring is held to it. The other
//! sections of `cases` follow.

use self::Line::{Act, Commit, Committed, Depth, Fresh, Overwritten, ReaderPage, Words};
use crate::builder::Builder;
use crate::demand::must;
use crate::drain;
use crate::receipt;
use crate::ring::Action::{Begin, Read, Write};
use crate::ring::{Action, Answer, Receipt, Refusal, Ring};
use crate::text::{self, LastAnswers, Tally};
use crate::trace::{self, Reach};

/// A line of a case and what the papers say stands there.
enum Line {
    Fresh(u32, u32, u32, Answer),
    Act(Action, Answer),
    Words([u32; 3]),
    ReaderPage(u32),
    Commit(u32, u32),
    Overwritten(u64),
    Depth(u32),
    Committed(u64),
    /// Begun, taken, handed, overwritten, dropped, waiting, open; complete.
    Receipt([u64; 7], bool),
}

const SETUP: Answer = Answer::Refused(Refusal::Setup);

/// Where 01 leaves an answer or a receipt unsaid ("three Writes, last Pending"; the
/// receipts of K9 to K11), the line is worked out by hand from its rules. E3: "K10 now
/// ends with commit (page 1, index 1), committed 2, answer still Dropped."
const K: [(&str, &[Line]); 12] = [
    (
        "K1",
        &[
            Fresh(2, 1, 0, Answer::Accepted),
            Words([4, 1, 0]),
            Act(Begin(70), Answer::Begun(1)),
            Act(Write, Answer::Reserved(0)),
            Act(Write, Answer::Filled),
            Act(Write, Answer::Committed(1)),
        ],
    ),
    (
        "K2",
        &[
            Act(Begin(71), Answer::Begun(1)),
            Act(Write, Answer::Looked),
            Act(Write, Answer::Pushed),
            Act(Write, Answer::Reserved(1)),
            Act(Write, Answer::Filled),
            Act(Write, Answer::Committed(2)),
            Commit(1, 1),
        ],
    ),
    (
        "K3",
        &[
            Act(Begin(72), Answer::Begun(1)),
            Act(Write, Answer::Looked),
            Act(Write, Answer::Marked),
            Words([4, 2, 0]),
            Overwritten(1),
        ],
    ),
    ("K4", &[Act(Read, Answer::Busy)]),
    (
        "K5",
        &[
            Act(Write, Answer::Promoted),
            Words([5, 2, 0]),
            Act(Write, Answer::Cleared),
            Words([5, 0, 0]),
            Act(Write, Answer::Pushed),
            Act(Write, Answer::Reserved(2)),
        ],
    ),
    (
        "K6",
        &[
            Act(Read, Answer::Found),
            Act(Read, Answer::Prepared),
            Words([5, 0, 1]),
            Act(Read, Answer::Swapped),
            Words([8, 0, 1]),
            ReaderPage(1),
        ],
    ),
    (
        "K7",
        &[Act(Read, Answer::Event(1, 71)), Act(Read, Answer::Empty)],
    ),
    (
        "K8",
        &[
            Act(Write, Answer::Filled),
            Act(Write, Answer::Committed(3)),
            Act(Read, Answer::Found),
            Act(Read, Answer::Prepared),
            Words([8, 9, 1]),
            Act(Read, Answer::Swapped),
            Words([8, 9, 4]),
            Act(Read, Answer::Event(2, 72)),
            Line::Receipt([3, 3, 2, 1, 0, 0, 0], false),
        ],
    ),
    (
        "K9",
        &[
            Fresh(2, 1, 0, Answer::Accepted),
            Act(Begin(10), Answer::Begun(1)),
            Act(Write, Answer::Reserved(0)),
            Act(Begin(20), Answer::Begun(2)),
            Act(Write, Answer::Looked),
            Act(Write, Answer::Pushed),
            Act(Write, Answer::Reserved(1)),
            Act(Write, Answer::Filled),
            Act(Write, Answer::Pending),
            Act(Begin(30), Answer::Begun(2)),
            Act(Write, Answer::Dropped),
            Act(Write, Answer::Filled),
            Act(Write, Answer::Committed(2)),
            Line::Receipt([3, 2, 0, 0, 1, 2, 0], false),
        ],
    ),
    (
        "K10",
        &[
            Fresh(2, 1, 0, Answer::Accepted),
            Act(Begin(10), Answer::Begun(1)),
            Act(Begin(20), Answer::Begun(2)),
            Act(Write, Answer::Reserved(0)),
            Act(Write, Answer::Filled),
            Act(Write, Answer::Pending),
            Act(Begin(30), Answer::Begun(2)),
            Act(Write, Answer::Looked),
            Act(Write, Answer::Pushed),
            Act(Write, Answer::Reserved(1)),
            Act(Write, Answer::Filled),
            Act(Write, Answer::Pending),
            Act(Write, Answer::Dropped),
            Commit(1, 1),
            Depth(0),
            Committed(2),
            Line::Receipt([3, 2, 0, 0, 1, 2, 0], false),
        ],
    ),
    (
        "K11",
        &[
            Fresh(2, 1, 0, Answer::Accepted),
            Act(Write, Answer::Refused(Refusal::Nobody)),
            Act(Begin(10), Answer::Begun(1)),
            Act(Begin(20), Answer::Begun(2)),
            Act(Begin(30), Answer::Begun(3)),
            Act(Begin(40), Answer::Begun(4)),
            Act(Begin(50), Answer::Refused(Refusal::Depth)),
            Line::Receipt([4, 0, 0, 0, 0, 0, 0], false),
        ],
    ),
    (
        "K12",
        &[
            Fresh(1, 1, 0, SETUP),
            Fresh(17, 1, 0, SETUP),
            Fresh(2, 0, 0, SETUP),
            Fresh(2, 1, 0, Answer::Accepted),
            Fresh(16, 16, 1, Answer::Accepted),
        ],
    ),
];

/// The actions of the cases `names`, one case after the other, with 01's answers.
pub fn steps(names: &[&str]) -> Vec<(Action, Answer)> {
    let mut steps = Vec::new();
    for (_, lines) in K.iter().filter(|(name, _)| names.contains(name)) {
        for line in *lines {
            if let Act(action, answer) = *line {
                steps.push((action, answer));
            }
        }
    }
    steps
}

/// The whole text of `cases`, or what differs from the papers.
pub fn run() -> Result<String, String> {
    let mut out = String::new();
    small_ring(&mut out)?;
    section(&mut out, OUT_OF_SHAPE, out_of_shape)?;
    section(&mut out, MANY, many_readings)?;
    section(&mut out, EVENING, drained_evening)?;
    section(&mut out, LITTLE_ROOM, little_room)?;
    Ok(out)
}

const OUT_OF_SHAPE: &str = "Out of shape: fresh(2, 1, 0) with its read position set to 2";
const MANY: &str = "65537 readings in stop mode, each written and then read until Empty";
const EVENING: &str = "An evening of 65537 readings in stop mode, drained through small buffers";
const LITTLE_ROOM: &str = "Replays of 13 Begins in little room";

/// A section with its heading; what differs in it is told with the heading.
fn section<F>(out: &mut String, name: &str, run: F) -> Result<(), String>
where
    F: FnOnce(&mut String) -> Result<(), String>,
{
    text::heading(out, name);
    run(out).map_err(|differs| format!("{name}: {differs}"))
}

/// K1 to K12. K2 to K8 go on with the ring of the case before.
fn small_ring(out: &mut String) -> Result<(), String> {
    let (mut ring, _) = Ring::fresh(2, 1, 0);
    for (name, lines) in K {
        section(out, name, |out| {
            lines
                .iter()
                .try_for_each(|line| run_line(out, &mut ring, line))
        })?;
    }
    Ok(())
}

/// Prints what the ring says at a line and holds it to what the papers say.
fn run_line(out: &mut String, ring: &mut Ring, line: &Line) -> Result<(), String> {
    match *line {
        Fresh(n, s, mode, expected) => {
            let (made, answer) = Ring::fresh(n, s, mode);
            *ring = made;
            act_line(out, &text::fresh(n, s, mode), answer, expected)?;
            hold_plain(ring, answer)
        }
        Act(action, expected) => {
            let answer = ring.act(action);
            act_line(out, &text::action(action), answer, expected)
        }
        Words(expected) => {
            let words = text::words(&ring.words[..=ring.n as usize]);
            fact_line(out, "words", words, text::words(&expected))
        }
        Commit(page, index) => {
            let expected = format!("page {page}, index {index}");
            fact_line(out, "commit", text::commit(ring), expected)
        }
        ReaderPage(expected) => fact_line(out, "reader page", ring.reader_page, expected),
        Overwritten(expected) => fact_line(out, "overwritten", ring.overwritten, expected),
        Depth(expected) => fact_line(out, "depth", ring.depth, expected),
        Committed(expected) => fact_line(out, "committed", ring.committed, expected),
        Line::Receipt(counts, complete) => {
            receipt::of_ring(out, ring);
            hold_receipt(&ring.receipt(), counts, complete)
        }
    }
}

fn act_line(out: &mut String, left: &str, got: Answer, expected: Answer) -> Result<(), String> {
    fact_line(out, left, text::answer(got), text::answer(expected))
}

fn fact_line<T: ToString>(out: &mut String, left: &str, got: T, expected: T) -> Result<(), String> {
    let (got, expected) = (got.to_string(), expected.to_string());
    text::line(out, left, &got);
    if got == expected {
        Ok(())
    } else {
        Err(format!("{left}: {got} instead of {expected}"))
    }
}

/// Refusal 5 gives "the plain ring", "8 pages of 16 slots in overwrite mode".
fn hold_plain(ring: &Ring, answer: Answer) -> Result<(), String> {
    let (plain, _) = Ring::fresh(8, 16, 0);
    if answer == SETUP && *ring != plain {
        return Err("a refused set-up did not give the plain ring".to_string());
    }
    Ok(())
}

/// Of a receipt that is not refused.
fn hold_receipt(receipt: &Receipt, counts: [u64; 7], complete: bool) -> Result<(), String> {
    let held =
        receipt.refusal.is_none() && receipt.counts() == counts && receipt.complete == complete;
    if held {
        Ok(())
    } else {
        let got = receipt.counts();
        Err(format!("receipt {got:?} instead of {counts:?}"))
    }
}

/// Refusal 1: "an action or receipt on a state not in shape" gives "the same
/// state; receipt all zero, not complete".
fn out_of_shape(out: &mut String) -> Result<(), String> {
    let (mut ring, _) = Ring::fresh(2, 1, 0);
    ring.position = 2;
    for action in [Begin(70), Write, Read] {
        let mut after = ring.clone();
        let answer = after.act(action);
        let refused = Answer::Refused(Refusal::Shape);
        act_line(out, &text::action(action), answer, refused)?;
        if after != ring {
            return Err("not the same state came back".to_string());
        }
    }
    for length in [0, 1] {
        let mut after = ring.clone();
        let drained = drain::checked(&mut after, &mut [0], length)?;
        let last = drained.last.map_or("none".to_string(), text::answer);
        let refused = text::answer(Answer::Refused(Refusal::Shape));
        fact_line(out, &format!("drain of {length}"), last, refused)?;
    }
    receipt::of_ring(out, &ring);
    let receipt = ring.receipt();
    let refused = receipt.refusal == Some(Refusal::Shape);
    if !refused || receipt.counts() != [0; 7] || receipt.complete {
        return Err("the receipt is not refused with zeros".to_string());
    }
    Ok(())
}

/// "65,537 readings".
const READINGS: u32 = 65_537;

/// "N = 16, S = 16, stop mode, 65,537 readings, each written and then read until
/// Empty. Receipt 65,537 of 65,537, complete."
fn many_readings(out: &mut String) -> Result<(), String> {
    let (mut ring, answer) = Ring::fresh(16, 16, 1);
    act_line(out, &text::fresh(16, 16, 1), answer, Answer::Accepted)?;
    let mut tally = Tally::default();
    let mut events = 0;
    for i in 0..READINGS {
        tally.count(ring.act(Begin(i)));
        until_written(&mut ring, &mut tally)?;
        events += until_empty(&mut ring, &mut tally, i)?;
    }
    tally.print(out);
    let all = u64::from(READINGS);
    fact_line(out, "Event(i, i)", events, all)?;
    receipt::of_ring(out, &ring);
    hold_receipt(&ring.receipt(), [all, all, all, 0, 0, 0, 0], true)
}

/// More than any one reading takes, so that a wrong ring ends too.
const STEPS: u32 = 1000;

/// "Writes until the answer is Committed or Dropped".
fn until_written(ring: &mut Ring, tally: &mut Tally) -> Result<(), String> {
    for _ in 0..STEPS {
        let answer = ring.act(Write);
        tally.count(answer);
        if matches!(answer, Answer::Committed(_) | Answer::Dropped) {
            return Ok(());
        }
    }
    Err(format!("{STEPS} Writes without Committed or Dropped"))
}

/// "Reads until the answer is Empty": the number of Events (i, i) among them.
fn until_empty(ring: &mut Ring, tally: &mut Tally, i: u32) -> Result<u64, String> {
    let mut events = 0;
    for _ in 0..STEPS {
        let answer = ring.act(Read);
        tally.count(answer);
        if answer == Answer::Event(i, i) {
            events += 1;
        }
        if answer == Answer::Empty {
            return Ok(events);
        }
    }
    Err(format!("{STEPS} Reads without Empty"))
}

/// "0, 1, 2, 3, 5, 8, 13, 64 in turn".
const LENGTHS: [usize; 8] = [0, 1, 2, 3, 5, 8, 13, 64];
/// What an element of the buffer holds before each drain and each replay.
const OLD: u64 = u64::MAX;

/// The drains of an evening and what is told of them.
#[derive(Default)]
struct Evening {
    drains: u64,
    lasts: LastAnswers,
    stored: u64,
    in_order: u64,
    kept: u64,
}

impl Evening {
    /// A drain lent the first `length` of 64 elements; its last answer.
    fn drain(&mut self, ring: &mut Ring, length: usize) -> Result<Option<Answer>, String> {
        let mut buffer = [OLD; 64];
        let drained = drain::checked(ring, &mut buffer, length)?;
        drained.of_reached()?;
        self.drains += 1;
        self.lasts.count(drained.last);
        let (part, rest) = buffer.split_at(drained.filled);
        for &element in part {
            let value = 3 * self.stored + 7;
            self.in_order += u64::from(element == self.stored << 32 | value);
            self.stored += 1;
        }
        self.kept += rest.iter().filter(|&&element| element == OLD).count() as u64;
        Ok(drained.last)
    }

    /// "drains that are lent one element each, until the last answer is not an Event".
    fn until_no_event(&mut self, ring: &mut Ring) -> Result<(), String> {
        for _ in 0..STEPS {
            let last = self.drain(ring, 1)?;
            if !matches!(last, Some(Answer::Event(..))) {
                return Ok(());
            }
        }
        Err(format!("{STEPS} drains, each with an Event"))
    }

    /// Of every 32 readings the first six drains take 0, 1, 2, 3, 5 and 8, the seventh
    /// the 9 others of the 28 then written, and the eighth the last 4. After the last
    /// reading one drain takes it, and one finds the ring Empty.
    fn print(&self, out: &mut String) -> Result<(), String> {
        let (all, drains) = (u64::from(READINGS), 2048 * 8 + 2);
        fact_line(out, "drains", self.drains, drains)?;
        self.lasts.print(out);
        fact_line(out, "stored", self.stored, all)?;
        fact_line(out, "in order", self.in_order, all)?;
        fact_line(out, "kept", self.kept, 64 * drains - all)
    }
}

/// As many readings, number i with value 3 * i + 7, drained after every fourth one and at
/// the end.
fn drained_evening(out: &mut String) -> Result<(), String> {
    let (mut ring, answer) = Ring::fresh(16, 16, 1);
    act_line(out, &text::fresh(16, 16, 1), answer, Answer::Accepted)?;
    let mut tally = Tally::default();
    let mut evening = Evening::default();
    for i in 0..READINGS {
        tally.count(ring.act(Begin(3 * i + 7)));
        until_written(&mut ring, &mut tally)?;
        if i % 4 == 3 {
            let turn = i as usize / 4;
            evening.drain(&mut ring, LENGTHS[turn % LENGTHS.len()])?;
        }
    }
    evening.until_no_event(&mut ring)?;
    tally.print(out);
    evening.print(out)?;
    receipt::of_ring(out, &ring);
    let all = u64::from(READINGS);
    hold_receipt(&ring.receipt(), [all, all, all, 0, 0, 0, 0], true)
}

/// "13 times `Begin 16843009` as a trace has it after its header", alone and with a byte 9
/// after them. Their answers take 39 elements.
fn little_room(out: &mut String) -> Result<(), String> {
    let mut builder = Builder::new(2, 1, 0);
    for _ in 0..13 {
        builder.act(Begin(16_843_009));
    }
    let begins = &builder.bytes[builder.starts[0]..];
    if begins != [1; 65] {
        return Err("the Begins are not 65 bytes 1".to_string());
    }
    let damaged = &[begins, &[9]].concat()[..];
    let (refused, accepted) = (Answer::Refused(Refusal::Room), Answer::Accepted);
    for (bytes, length, due) in [
        (begins, 0, refused),
        (begins, 38, refused),
        (begins, 39, accepted),
        (begins, 64, accepted),
        (damaged, 38, refused),
        (damaged, 39, accepted),
    ] {
        replay_lines(out, bytes, length, due, &builder.ring)?;
    }
    Ok(())
}

/// A replay that is lent the first `length` of 64 elements. Where it is accepted, `after`
/// is the ring that must come of it.
fn replay_lines(
    out: &mut String,
    bytes: &[u8],
    length: usize,
    due: Answer,
    after: &Ring,
) -> Result<(), String> {
    let (fresh, _) = Ring::fresh(2, 1, 0);
    let (mut ring, mut buffer) = (fresh.clone(), [OLD; 64]);
    let replayed = trace::replay_in_room(bytes, &mut ring, &mut buffer[..length]);
    let (answer, reach) = match replayed {
        Ok(reach) => (Answer::Accepted, reach),
        Err(refusal) => (Answer::Refused(refusal), Reach::default()),
    };
    let (made, stop, kept, left) = match due {
        Answer::Accepted => (13, 65, 64 - 39, after),
        _ => (0, 0, 64, &fresh),
    };
    let before = if bytes.len() > 65 { "9, " } else { "" };
    act_line(out, &format!("{before}room of {length}"), answer, due)?;
    fact_line(out, "made", reach.made, made)?;
    fact_line(out, "stop", reach.stop, stop)?;
    let still = buffer.iter().filter(|&&element| element == OLD).count();
    fact_line(out, "kept", still, kept)?;
    must(buffer[..3 * made] == laid()[..3 * made], "other answers")?;
    must(ring == *left, "not the ring of the actions one by one")
}

/// The answers of the 13 Begins: Begun(1) to Begun(4), then 2 nine times.
fn laid() -> Vec<u64> {
    let begun = [1, 1, 0, 1, 2, 0, 1, 3, 0, 1, 4, 0];
    [&begun[..], &[24, 0, 0].repeat(9)].concat()
}
