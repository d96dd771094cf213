//! The forms of a replay: `text`, `csv`, `receipt` and `plain` (docs/PROGRAMS.md). What
//! stands in quotes is the page's.

use std::ffi::OsStr;

use crate::day::{counted, Day, Outcome};
use crate::name::Name;
use crate::receipt;
use crate::ring::{Action, Answer, Receipt};
use crate::text;
use crate::trace::TraceRefusal;

/// "FORM is `text`, `csv`, `receipt` or `plain`".
#[derive(Clone, Copy, PartialEq)]
pub enum Form {
    Text,
    Csv,
    Receipt,
    Plain,
}

impl Form {
    pub fn named(name: &OsStr) -> Option<Form> {
        match name.to_str()? {
            "text" => Some(Form::Text),
            "csv" => Some(Form::Csv),
            "receipt" => Some(Form::Receipt),
            "plain" => Some(Form::Plain),
            _ => None,
        }
    }

    /// What is printed of one file, whose day is none where it can't be read.
    pub fn section(self, name: &Name, day: Option<&Day>) -> String {
        match self {
            Form::Text => text_of(name, day),
            Form::Csv => csv(day),
            Form::Receipt => receipt_of(name, day),
            Form::Plain => plain(name, day),
        }
    }

    /// "Then one more section", in the forms `receipt` and `plain`.
    pub fn last_section(self, counts: &Counts) -> Option<String> {
        match self {
            Form::Text | Form::Csv => None,
            Form::Receipt => Some(counts.line()),
            Form::Plain => Some(counts.plain()),
        }
    }
}

/// "Each file is a section, whose heading is `Trace ` and the name." Then the set-up,
/// the actions made, the refusal of the trace, and the receipt.
fn text_of(name: &Name, day: Option<&Day>) -> String {
    let mut out = String::new();
    name.line(&mut out, "Trace ");
    if let Some(day) = day {
        if let Some((n, s, mode)) = day.replay.set_up {
            let accepted = text::answer(Answer::Accepted);
            text::line(&mut out, &text::fresh(n, s, mode), &accepted);
        }
        for &(action, answer) in &day.replay.made {
            text::line(&mut out, &text::action(action), &text::answer(answer));
        }
        if let Some(refusal) = day.refusal() {
            text::line(&mut out, "trace", &refusal);
        }
    }
    out.push_str(&receipt_of(name, day));
    out
}

/// "its receipt alone, with no heading before it, or the three lines of a file that can't
/// be read".
fn receipt_of(name: &Name, day: Option<&Day>) -> String {
    let mut out = String::new();
    match day {
        Some(day) => receipt::of_trace(&mut out, name, day),
        None => receipt::of_unreadable(&mut out, name),
    }
    out
}

/// Bytes of a trace before its first action.
const HEADER: usize = 8;

/// "a line for each action made"; of a file that can't be read "nothing is printed but the
/// first line".
fn csv(day: Option<&Day>) -> String {
    let mut out = "index,offset,action,value,answer,first,second\n".to_string();
    let made = day.map_or(&[][..], |day| &day.replay.made);
    let mut offset = HEADER;
    for (index, &(action, answer)) in made.iter().enumerate() {
        let (length, action, value) = match action {
            Action::Begin(value) => (5, "Begin", value.to_string()),
            Action::Write => (1, "Write", String::new()),
            Action::Read => (1, "Read", String::new()),
        };
        let (answer, values) = (text::name(answer), values(answer));
        out.push_str(&format!(
            "{index},{offset},{action},{value},{answer},{values}\n"
        ));
        offset += length;
    }
    out
}

/// "its values; what ... an answer does not have is empty".
fn values(answer: Answer) -> String {
    match answer {
        Answer::Begun(x) | Answer::Reserved(x) | Answer::Committed(x) => format!("{x},"),
        Answer::Event(number, value) => format!("{number},{value}"),
        _ => ",".to_string(),
    }
}

/// "lines `key=value`". "Of a file that can't be read there are `trace` and `read` alone."
fn plain(name: &Name, day: Option<&Day>) -> String {
    let Some(day) = day else {
        return format!("trace={name}\nread=unreadable\n");
    };
    let (read, refusal) = match day.replay.refusal {
        None => ("whole", 0),
        Some(TraceRefusal::Mark) => ("refused", 6),
        Some(TraceRefusal::Version) => ("refused", 7),
        Some(TraceRefusal::Sizes) => ("refused", 8),
        Some(TraceRefusal::Action(_)) => ("refused", 9),
    };
    let (pages, slots, mode) = match day.replay.set_up {
        Some((n, s, mode)) => (n, s, text::mode(mode)),
        None => (0, 0, "none"),
    };
    let (bytes, stop) = (day.bytes, day.stop());
    let complete = match day.outcome() {
        Outcome::Complete => "yes",
        _ => "no",
    };
    [
        format!("trace={name}\nbytes={bytes}\nread={read}\nrefusal={refusal}\nstop={stop}\n"),
        format!("pages={pages}\nslots={slots}\nmode={mode}\n"),
        plain_counts(&day.receipt()),
        format!("complete={complete}\n"),
    ]
    .concat()
}

/// "the seven counts", and the sums of them.
fn plain_counts(receipt: &Receipt) -> String {
    let counts = [
        ("begun", receipt.begun),
        ("taken", receipt.taken),
        ("handed", receipt.handed),
        ("overwritten", receipt.overwritten),
        ("dropped", receipt.dropped),
        ("waiting", receipt.waiting),
        ("open", receipt.open),
        ("unplaced", receipt::unplaced(receipt)),
        ("lost", receipt::lost(receipt)),
        ("remaining", receipt::remaining(receipt)),
    ];
    keys(&counts)
}

/// A line for each key and its number.
fn keys(numbers: &[(&str, u64)]) -> String {
    let lines = numbers
        .iter()
        .map(|(key, number)| format!("{key}={number}\n"));
    lines.collect()
}

/// How many traces of a call had which outcome.
#[derive(Default)]
pub struct Counts {
    complete: u64,
    not_complete: u64,
    refused: u64,
    unreadable: u64,
}

impl Counts {
    pub fn count(&mut self, outcome: Outcome) {
        *match outcome {
            Outcome::Complete => &mut self.complete,
            Outcome::NotComplete => &mut self.not_complete,
            Outcome::Refused => &mut self.refused,
            Outcome::Unreadable => &mut self.unreadable,
        } += 1;
    }

    /// "every trace was read whole".
    pub fn all_whole(&self) -> bool {
        self.refused == 0 && self.unreadable == 0
    }

    fn all(&self) -> u64 {
        self.complete + self.not_complete + self.refused + self.unreadable
    }

    /// "`13 traces: 1 complete, 6 not complete, 6 refused, 0 unreadable`".
    fn line(&self) -> String {
        format!(
            "{}: {} complete, {} not complete, {} refused, {} unreadable\n",
            counted(self.all(), "trace"),
            self.complete,
            self.not_complete,
            self.refused,
            self.unreadable
        )
    }

    fn plain(&self) -> String {
        keys(&[
            ("traces", self.all()),
            ("traces_complete", self.complete),
            ("traces_not_complete", self.not_complete),
            ("traces_refused", self.refused),
            ("traces_unreadable", self.unreadable),
        ])
    }
}

#[cfg(test)]
mod tests {
    use super::*;

    const BYTES: [u8; 15] = [80, 84, 82, 1, 0, 2, 1, 0, 1, 70, 0, 0, 0, 2, 3];

    fn section(form: Form, name: &str, trace: Option<&[u8]>) -> String {
        let day = trace.map(Day::of);
        form.section(&Name::of(OsStr::new(name)), day.as_ref())
    }

    #[test]
    fn csv_rows() {
        let head = "index,offset,action,value,answer,first,second\n";
        let rows = "0,8,Begin,70,Begun,1,\n1,13,Write,,Reserved,0,\n2,14,Read,,Found,,\n";
        let due = format!("{head}{rows}");
        assert_eq!(section(Form::Csv, "a", Some(&BYTES)), due);
        let cut = [&BYTES[..], &[1]].concat();
        assert_eq!(section(Form::Csv, "a", Some(&cut)), due);
        assert_eq!(section(Form::Csv, "a", None), head);
        assert_eq!(section(Form::Csv, "a", Some(b"")), head);
        let answers = [
            &BYTES[..8],
            &[2, 1, 255, 255, 255, 255, 2, 2, 2, 3, 3, 3, 3],
        ]
        .concat();
        let text = section(Form::Csv, "a", Some(&answers));
        let lines: Vec<_> = text.lines().collect();
        assert_eq!(lines[1], "0,8,Write,,refused 3 NOBODY,,");
        assert_eq!(lines[2], "1,9,Begin,4294967295,Begun,1,");
        assert_eq!(lines[5], "4,16,Write,,Committed,1,");
        assert_eq!(lines[9], "8,20,Read,,Event,0,4294967295");
    }

    #[test]
    fn plain_keys() {
        let due = "trace=a\nbytes=15\nread=whole\nrefusal=0\nstop=15\npages=2\nslots=1\n\
                   mode=overwrite\nbegun=1\ntaken=1\nhanded=0\noverwritten=0\ndropped=0\n\
                   waiting=0\nopen=1\nunplaced=0\nlost=0\nremaining=1\ncomplete=no\n";
        assert_eq!(section(Form::Plain, "a", Some(&BYTES)), due);
        let due = "trace=-a\nbytes=9\nread=refused\nrefusal=9\nstop=8\npages=2\nslots=1\n\
                   mode=overwrite\nbegun=0\ntaken=0\nhanded=0\noverwritten=0\ndropped=0\n\
                   waiting=0\nopen=0\nunplaced=0\nlost=0\nremaining=0\ncomplete=no\n";
        assert_eq!(section(Form::Plain, "-a", Some(&BYTES[..9])), due);
        let start = "trace=a\nbytes=3\nread=refused\nrefusal=7\nstop=0\npages=0\nslots=0\n\
                     mode=none\nbegun=0\n";
        assert!(section(Form::Plain, "a", Some(&BYTES[..3])).starts_with(start));
        assert_eq!(
            section(Form::Plain, "a\n", None),
            "trace=a\\x0a\nread=unreadable\n"
        );
    }

    #[test]
    fn text_lines() {
        let cut = [&BYTES[..], &[1]].concat();
        let text = section(Form::Text, "a", Some(&cut));
        let due = "Trace a
  fresh(2, 1, 0)    Accepted
  Begin 70          Begun(1)
  Write             Reserved(0)
  Read              Found
  trace             refused 9 ACTION at byte 15: unknown or cut
  Receipt
    trace     a
    length    16 bytes, refused 9 ACTION: read up to byte 15
";
        assert!(text.starts_with(due), "{text}");
        let due =
            "Trace a\n  trace             refused 8 SIZES: N, S or mode out of range, or cut\n\
                   \x20 Receipt\n";
        assert!(section(Form::Text, "a", Some(&BYTES[..5])).starts_with(due));
        let due =
            "Trace a\n  Receipt\n    trace     a\n    Unreadable: no statement about the day\n";
        assert_eq!(section(Form::Text, "a", None), due);
    }

    #[test]
    fn counts() {
        let mut counts = Counts::default();
        counts.count(Outcome::Complete);
        let due = "1 trace: 1 complete, 0 not complete, 0 refused, 0 unreadable\n";
        assert_eq!(counts.line(), due);
        assert!(counts.all_whole());
        for outcome in [
            Outcome::NotComplete,
            Outcome::NotComplete,
            Outcome::Unreadable,
        ] {
            counts.count(outcome);
        }
        let due = "traces=4\ntraces_complete=1\ntraces_not_complete=2\ntraces_refused=0\n\
                   traces_unreadable=1\n";
        assert_eq!(counts.plain(), due);
        assert!(!counts.all_whole());
    }

    #[test]
    fn outcomes() {
        let outcome = |trace: &[u8]| Day::of(trace).outcome();
        assert_eq!(outcome(&BYTES[..8]), Outcome::Complete);
        assert_eq!(outcome(&BYTES), Outcome::NotComplete);
        assert_eq!(outcome(&BYTES[..9]), Outcome::Refused);
    }
}
