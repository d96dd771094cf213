//! The receipt as it is printed: that of a ring, and that of a trace (docs/PROGRAMS.md).
//! What stands in quotes is the page's.

use crate::day::{counted, label, Day};
use crate::name::Name;
use crate::ring::{Receipt, Ring};
use crate::text;
use crate::trace::TraceRefusal;

/// "begun - taken - dropped".
pub fn unplaced(receipt: &Receipt) -> u64 {
    receipt.begun - receipt.taken - receipt.dropped
}

/// "Lost is overwritten + dropped".
pub fn lost(receipt: &Receipt) -> u64 {
    receipt.overwritten + receipt.dropped
}

/// "still in the logger is waiting + open + (begun - taken - dropped)".
pub fn remaining(receipt: &Receipt) -> u64 {
    receipt.waiting + receipt.open + unplaced(receipt)
}

/// What the sum says where the receipt covers all that there is.
const ALL: &str = "every reading begun is accounted for";

/// "A receipt that is refused is two lines".
pub fn of_ring(out: &mut String, ring: &Ring) {
    let receipt = ring.receipt();
    out.push_str("  Receipt\n");
    if receipt.refusal.is_some() {
        let all = "no statement about any reading; all counts are 0, not complete";
        out.push_str(&format!("    Refused 1 SHAPE: {all}\n"));
        return;
    }
    head(out, "ring", &set_up(ring.n, ring.s, ring.mode));
    counts(out, &receipt, ALL);
    end(out, &receipt);
}

/// "`trace` and `length` are there where the receipt is that of a trace". "Where nothing
/// was read, the ring is `none was set up`". "The receipt of a refused trace is no
/// statement about the day."
pub fn of_trace(out: &mut String, name: &Name, day: &Day) {
    start(out, name);
    head(out, "length", &day.length());
    match day.replay.set_up {
        Some((n, s, mode)) => head(out, "ring", &set_up(n, s, mode)),
        None => head(out, "ring", "none was set up"),
    }
    let receipt = day.receipt();
    match day.replay.refusal {
        None => {
            counts(out, &receipt, ALL);
            end(out, &receipt);
        }
        Some(why @ TraceRefusal::Action(offset)) => {
            counts(
                out,
                &receipt,
                "each begun before the damage is accounted for",
            );
            let (places, why) = (places(&receipt), label(why));
            out.push_str(&format!("    As far as byte {offset}: {places}\n"));
            out.push_str(&format!(
                "    Refused {why}: no statement about the day after that\n"
            ));
        }
        Some(why) => {
            counts(out, &receipt, "no reading was begun in what was read");
            let why = label(why);
            out.push_str(&format!("    Refused {why}: no statement about the day\n"));
        }
    }
}

/// "the three lines of a file that can't be read".
pub fn of_unreadable(out: &mut String, name: &Name) {
    start(out, name);
    out.push_str("    Unreadable: no statement about the day\n");
}

fn start(out: &mut String, name: &Name) {
    out.push_str("  Receipt\n");
    name.line(out, &labelled("trace"));
}

/// "A label of the head (`trace`, `length`, `ring`) is padded to 10 characters."
fn labelled(label: &str) -> String {
    format!("    {label:<10}")
}

fn head(out: &mut String, label: &str, what: &str) {
    out.push_str(&labelled(label));
    out.push_str(what);
    out.push('\n');
}

/// "The ring is N, S and the mode".
fn set_up(n: u32, s: u32, mode: u32) -> String {
    let (pages, slots) = (counted(n.into(), "page"), counted(s.into(), "slot"));
    let who = match mode {
        0 => "the oldest readings give way",
        _ => "the newest readings are kept out",
    };
    format!("{pages} of {slots}, {} mode: {who}", text::mode(mode))
}

/// "the readings begun and the six places where a reading can be, their sum", and those
/// that were given a place.
fn counts(out: &mut String, receipt: &Receipt, sum_says: &str) {
    count(out, "readings begun", receipt.begun, "begun");
    let lost_to_newer = "lost to newer readings before they were fetched";
    let places = [
        ("handed out", receipt.handed, "handed"),
        (lost_to_newer, receipt.overwritten, "overwritten"),
        ("lost for want of room", receipt.dropped, "dropped"),
        (
            "finished and still in the logger",
            receipt.waiting,
            "waiting",
        ),
        ("not finished", receipt.open, "open"),
        (
            "begun and not yet given a place",
            unplaced(receipt),
            "begun - taken - dropped",
        ),
    ];
    for (label, number, name) in places {
        count(out, &format!("  {label}"), number, name);
    }
    let sum = places.iter().map(|(_, number, _)| number).sum();
    count(out, sum_says, sum, "sum of these six");
    count(out, "given a number and a place", receipt.taken, "taken");
}

/// "A count ends at character 64 of its line, and three spaces follow it."
fn count(out: &mut String, label: &str, count: u64, name: &str) {
    out.push_str(&format!("    {label:<50}{count:>10}   {name}\n"));
}

fn end(out: &mut String, receipt: &Receipt) {
    let (handed, begun) = (receipt.handed, receipt.begun);
    let line = if receipt.complete {
        format!("Complete: {handed} of {begun} handed out")
    } else {
        format!("Not complete: {}", places(receipt))
    };
    out.push_str(&format!("    {line}\n"));
}

fn places(receipt: &Receipt) -> String {
    let (handed, lost, remaining) = (receipt.handed, lost(receipt), remaining(receipt));
    format!("{handed} handed out, {lost} lost, {remaining} still in the logger")
}

#[cfg(test)]
mod tests {
    use std::ffi::OsStr;

    use super::*;
    use crate::ring::LIMIT;
    use crate::samples;

    fn name() -> Name {
        Name::of(OsStr::new("worked.ptr"))
    }

    /// The page's first receipt, that of K1 to K8, with the length that they have.
    const WORKED: &str = "  Receipt
    trace     worked.ptr
    length    49 bytes, read whole
    ring      2 pages of 1 slot, overwrite mode: the oldest readings give way
    readings begun                                             3   begun
      handed out                                               2   handed
      lost to newer readings before they were fetched          1   overwritten
      lost for want of room                                    0   dropped
      finished and still in the logger                         0   waiting
      not finished                                             0   open
      begun and not yet given a place                          0   begun - taken - dropped
    every reading begun is accounted for                       3   sum of these six
    given a number and a place                                 3   taken
    Not complete: 2 handed out, 1 lost, 0 still in the logger
";

    #[test]
    fn worked() {
        let builder = samples::paper(&["K1", "K2", "K3", "K4", "K5", "K6", "K7", "K8"]).unwrap();
        let mut out = String::new();
        of_trace(&mut out, &name(), &Day::of(&builder.bytes));
        assert_eq!(out, WORKED);
        let mut out = String::new();
        of_ring(&mut out, &builder.ring);
        let lines: Vec<_> = WORKED.lines().collect();
        assert_eq!(
            out.lines().collect::<Vec<_>>(),
            [&lines[..1], &lines[3..]].concat()
        );
    }

    #[test]
    fn largest() {
        let (mut ring, _) = Ring::fresh(16, 16, 1);
        (ring.begun, ring.taken, ring.committed) = (LIMIT, LIMIT, LIMIT);
        ring.overwritten = LIMIT;
        let mut out = String::new();
        of_ring(&mut out, &ring);
        let lines: Vec<_> = out.lines().collect();
        let due = "    ring      16 pages of 16 slots, stop mode: the newest readings are kept out";
        assert_eq!(lines[1], due);
        let due = "      lost to newer readings before they were fetched 4294967295   overwritten";
        assert_eq!(lines[4], due);
        assert!(lines.iter().all(|line| line.len() <= 100));
    }

    #[test]
    fn ends() {
        let last = |ring: &Ring| {
            let mut out = String::new();
            of_ring(&mut out, ring);
            (out.lines().count(), out.lines().last().unwrap().to_string())
        };
        let (mut ring, _) = Ring::fresh(2, 1, 0);
        let complete = "    Complete: 0 of 0 handed out".to_string();
        assert_eq!(last(&ring), (12, complete));
        ring.position = 2;
        let refused = "    Refused 1 SHAPE: no statement about any reading; all counts are 0, \
                       not complete";
        assert_eq!(last(&ring), (2, refused.to_string()));
    }

    #[test]
    fn damaged() {
        let lines_of = |trace: &[u8]| {
            let mut out = String::new();
            of_trace(&mut out, &name(), &Day::of(trace));
            out.lines().map(str::to_string).collect::<Vec<_>>()
        };
        let lines = lines_of(&[80, 84, 82, 1, 0, 2, 1, 0, 1, 70, 0, 0, 0, 2, 2, 2, 1, 1]);
        let due = [
            "    each begun before the damage is accounted for              1   sum of these six",
            "    given a number and a place                                 1   taken",
            "    As far as byte 16: 0 handed out, 0 lost, 1 still in the logger",
            "    Refused 9 ACTION: no statement about the day after that",
        ];
        assert_eq!(lines[lines.len() - 4..], due);
        let lines = lines_of(b"PT");
        assert_eq!(lines[3], "    ring      none was set up");
        let due = [
            "    no reading was begun in what was read                      0   sum of these six",
            "    given a number and a place                                 0   taken",
            "    Refused 6 MARK: no statement about the day",
        ];
        assert_eq!(lines[lines.len() - 3..], due);
    }
}
