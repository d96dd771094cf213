//! The text form of actions, answers and tallies (docs/PROGRAMS.md).

use crate::ring::{Action, Answer, Refusal, Ring};

/// The answers' names in the order of their codes.
const NAMES: [&str; 33] = [
    "Accepted",
    "Begun",
    "Reserved",
    "Looked",
    "Dropped",
    "Marked",
    "Shared",
    "Retry",
    "Promoted",
    "Standing",
    "Cleared",
    "Pushed",
    "Passed",
    "Filled",
    "Committed",
    "Pending",
    "Event",
    "Empty",
    "Found",
    "Busy",
    "Prepared",
    "Swapped",
    "Missed",
    "refused 1 SHAPE",
    "refused 2 DEPTH",
    "refused 3 NOBODY",
    "refused 4 WORN",
    "refused 5 SETUP",
    "refused 6 MARK",
    "refused 7 VERSION",
    "refused 8 SIZES",
    "refused 9 ACTION",
    "refused 10 ROOM",
];

/// "Refusals by number".
pub fn refusal_number(refusal: Refusal) -> u32 {
    match refusal {
        Refusal::Shape => 1,
        Refusal::Depth => 2,
        Refusal::Nobody => 3,
        Refusal::Worn => 4,
        Refusal::Setup => 5,
        Refusal::Room => 10,
    }
}

/// An answer's code, its place in `NAMES`.
#[inline]
pub fn code(answer: Answer) -> u32 {
    match answer {
        Answer::Accepted => 0,
        Answer::Begun(_) => 1,
        Answer::Reserved(_) => 2,
        Answer::Looked => 3,
        Answer::Dropped => 4,
        Answer::Marked => 5,
        Answer::Shared => 6,
        Answer::Retry => 7,
        Answer::Promoted => 8,
        Answer::Standing => 9,
        Answer::Cleared => 10,
        Answer::Pushed => 11,
        Answer::Passed => 12,
        Answer::Filled => 13,
        Answer::Committed(_) => 14,
        Answer::Pending => 15,
        Answer::Event(..) => 16,
        Answer::Empty => 17,
        Answer::Found => 18,
        Answer::Busy => 19,
        Answer::Prepared => 20,
        Answer::Swapped => 21,
        Answer::Missed => 22,
        Answer::Refused(refusal) => 22 + refusal_number(refusal),
    }
}

/// An answer's first and second value, "0 for a value that it does not have".
#[inline]
pub fn values(answer: Answer) -> (u32, u32) {
    match answer {
        Answer::Begun(x) | Answer::Reserved(x) | Answer::Committed(x) => (x, 0),
        Answer::Event(number, value) => (number, value),
        _ => (0, 0),
    }
}

/// The answer's name, or `refused K NAME`.
pub fn name(answer: Answer) -> &'static str {
    NAMES[code(answer) as usize]
}

/// The name with its values in brackets, as `Begun(1)` or `Event(1, 71)`.
pub fn answer(answer: Answer) -> String {
    let name = name(answer);
    match answer {
        Answer::Begun(x) | Answer::Reserved(x) | Answer::Committed(x) => format!("{name}({x})"),
        Answer::Event(number, value) => format!("{name}({number}, {value})"),
        _ => name.to_string(),
    }
}

pub fn action(action: Action) -> String {
    match action {
        Action::Begin(value) => format!("Begin {value}"),
        Action::Write => "Write".to_string(),
        Action::Read => "Read".to_string(),
    }
}

pub fn fresh(n: u32, s: u32, mode: u32) -> String {
    format!("fresh({n}, {s}, {mode})")
}

/// The mode of a ring in shape, in a word.
pub fn mode(mode: u32) -> &'static str {
    match mode {
        0 => "overwrite",
        _ => "stop",
    }
}

/// The words of pages 0 to N as `4, 1, 0`.
pub fn words(words: &[u32]) -> String {
    let words: Vec<String> = words.iter().map(u32::to_string).collect();
    words.join(", ")
}

pub fn commit(ring: &Ring) -> String {
    format!("page {}, index {}", ring.commit_page, ring.commit_index)
}

/// Two spaces, the left padded to 18 characters, the right.
pub fn line(out: &mut String, left: &str, right: &str) {
    out.push_str(&format!("  {left:<18}{right}\n"));
}

/// The heading of a section, parted from the section before by an empty line.
pub fn heading(out: &mut String, heading: &str) {
    if !out.is_empty() {
        out.push('\n');
    }
    out.push_str(heading);
    out.push('\n');
}

/// How often each kind of answer came.
pub struct Tally {
    times: [u64; NAMES.len()],
}

impl Default for Tally {
    fn default() -> Tally {
        Tally {
            times: [0; NAMES.len()],
        }
    }
}

impl Tally {
    pub fn count(&mut self, answer: Answer) {
        self.times[code(answer) as usize] += 1;
    }

    /// Each kind of answer came, but those named.
    pub fn all_but(&self, named: &[&str]) -> Result<(), String> {
        for (name, times) in NAMES.iter().zip(self.times) {
            if (times == 0) != named.contains(name) {
                return Err(format!("{name} came {times} times"));
            }
        }
        Ok(())
    }

    /// A line for each kind of answer that came at least once.
    pub fn print(&self, out: &mut String) {
        for (name, times) in NAMES.iter().zip(self.times) {
            if times > 0 {
                line(out, name, &times.to_string());
            }
        }
    }
}

/// The last answers of drains, which may have none.
#[derive(Default)]
pub struct LastAnswers {
    none: u64,
    tally: Tally,
}

impl LastAnswers {
    pub fn count(&mut self, last: Option<Answer>) {
        match last {
            Some(answer) => self.tally.count(answer),
            None => self.none += 1,
        }
    }

    /// The line `none`, "printed also where that is 0", and the tally.
    pub fn print(&self, out: &mut String) {
        line(out, "none", &self.none.to_string());
        self.tally.print(out);
    }
}
