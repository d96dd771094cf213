//! `samples DIR`: small traces to look at, what `replay` prints of each, and the texts
//! that `encode` makes them of.

use std::ffi::OsStr;
use std::fs;
use std::ops::RangeInclusive;
use std::path::Path;

use crate::actions;
use crate::builder::Builder;
use crate::cases;
use crate::day::Day;
use crate::forms::Form;
use crate::name::Name;
use crate::ring::Action::{Begin, Read, Write};
use crate::text;
use crate::trace;

/// A trace and, where `encode` can make it, the text that it is made of.
struct Sample {
    name: &'static str,
    trace: Vec<u8>,
    text: Option<String>,
}

/// Writes NAME.ptr, NAME.replay and NAME.csv for each sample, and NAME.txt where there is
/// a text, which must give the trace.
pub fn run(dir: &Path) -> Result<String, String> {
    let samples = samples()?;
    fs::create_dir_all(dir).map_err(|error| format!("{}: {error}", dir.display()))?;
    for Sample { name, trace, text } in &samples {
        let put = |end, bytes: &[u8]| put(&dir.join(format!("{name}.{end}")), bytes);
        put("ptr", trace)?;
        let day = Day::of(trace);
        let file = Name::of(OsStr::new(&format!("{name}.ptr")));
        for (end, form) in [("replay", Form::Text), ("csv", Form::Csv)] {
            put(end, form.section(&file, Some(&day)).as_bytes())?;
        }
        if let Some(text) = text {
            if actions::trace(text.as_bytes()).as_ref() != Ok(trace) {
                return Err(format!("{name}: its text does not give its trace"));
            }
            put("txt", text.as_bytes())?;
        }
    }
    Ok(format!("{} samples\n", samples.len()))
}

pub fn put(path: &Path, bytes: &[u8]) -> Result<(), String> {
    fs::write(path, bytes).map_err(|error| format!("{}: {error}", path.display()))
}

fn samples() -> Result<Vec<Sample>, String> {
    let worked = worked()?;
    let (mark, version, sizes) = (
        changed(&worked.builder, 2, b'X'),
        changed(&worked.builder, 3, 2),
        changed(&worked.builder, 5, 17),
    );
    let bytes = |name, trace| Sample {
        name,
        trace,
        text: None,
    };
    Ok(vec![
        worked.sample("worked"),
        nested()?.sample("nested"),
        stuck()?.sample("stuck"),
        refusals()?.sample("refusals"),
        stop().sample("stop"),
        bytes("plain", plain().bytes),
        bytes("cut", cut()),
        bytes("unknown", unknown()),
        bytes("mark", mark),
        bytes("version", version),
        bytes("sizes", sizes),
        bytes("empty", Vec::new()),
        header().sample("header"),
    ])
}

/// A whole trace with the comments of its text.
struct Script {
    builder: Builder,
    /// What the day shows.
    about: &'static str,
    /// Comments, each with the number of actions before it.
    notes: Vec<(usize, &'static str)>,
}

impl Script {
    fn new(about: &'static str, builder: Builder) -> Script {
        Script {
            builder,
            about,
            notes: Vec::new(),
        }
    }

    /// A comment behind the last action.
    fn note(&mut self, words: &'static str) {
        self.notes.push((self.builder.made.len(), words));
    }

    fn readings(&mut self, values: RangeInclusive<u32>) {
        for value in values {
            self.builder.reading(value);
        }
    }

    fn sample(self, name: &'static str) -> Sample {
        Sample {
            name,
            text: Some(self.text()),
            trace: self.builder.bytes,
        }
    }

    /// What the day shows, the set-up, and "a line an action" with the comments between.
    fn text(&self) -> String {
        let ring = &self.builder.ring;
        let (n, s, mode) = (ring.n, ring.s, text::mode(ring.mode));
        let mut out = format!("# {}\nfresh {n} {s} {mode}\n", self.about);
        for (i, &(action, _)) in self.builder.made.iter().enumerate() {
            self.print_notes(&mut out, i);
            let line = match action {
                Begin(value) => format!("begin {value}\n"),
                Write => "write\n".to_string(),
                Read => "read\n".to_string(),
            };
            out.push_str(&line);
        }
        self.print_notes(&mut out, self.builder.made.len());
        out
    }

    fn print_notes(&self, out: &mut String, before: usize) {
        for (_, words) in self.notes.iter().filter(|(place, _)| *place == before) {
            out.push_str(&format!("# {words}\n"));
        }
    }
}

/// What each case of 01 from K1 to K8 shows.
const WORKED: [(&str, &str); 8] = [
    (
        "K1",
        "K1: a first reading gets its place, its value, and is finished.",
    ),
    ("K2", "K2: a second one goes on to the next page."),
    (
        "K3",
        "K3: a third one takes the oldest page; the first reading is lost.",
    ),
    ("K4", "K4: just now there is no oldest page to fetch."),
    (
        "K5",
        "K5: the next page becomes the oldest, and the third gets its place.",
    ),
    ("K6", "K6: the oldest page is fetched, in three steps."),
    (
        "K7",
        "K7: it holds the second reading; the third is not finished.",
    ),
    ("K8", "K8: the third is finished, and fetched too."),
];

fn worked() -> Result<Script, String> {
    let about = "Three readings on the smallest ring: the first is lost to the third, \
                 the others are handed out.";
    let mut script = Script::new(about, paper(&WORKED.map(|(name, _)| name))?);
    let mut before = 0;
    for (name, words) in WORKED {
        script.notes.push((before, words));
        before += cases::steps(&[name]).len();
    }
    Ok(script)
}

fn nested() -> Result<Script, String> {
    let about = "One reading is interrupted by two others: one of them is kept, \
                 the other finds no room.";
    let mut script = Script::new(about, paper(&["K9"])?);
    script.notes.extend([
        (0, "A first reading gets its place."),
        (
            2,
            "A second one comes in between, and is done before the first.",
        ),
        (8, "A third one finds no room, and is dropped."),
        (10, "The first is finished, and the second with it."),
    ]);
    Ok(script)
}

/// "K10 and then Reads until Empty": E3 of document 02 is about its nested readings.
fn stuck() -> Result<Script, String> {
    let about = "Two readings taken inside another one are finished when it is dropped, \
                 and are handed out.";
    let mut script = Script::new(about, paper(&["K10"])?);
    script.notes.extend([
        (0, "A first reading is begun, and has no place yet."),
        (
            1,
            "A second one comes in between, and takes the first page.",
        ),
        (5, "So does a third, on the other page."),
        (
            11,
            "Now the first finds no room, and is dropped; that finishes the two others.",
        ),
    ]);
    script.note("They do not stay in the logger: both are handed out.");
    script.builder.read_all();
    Ok(script)
}

fn refusals() -> Result<Script, String> {
    let about = "What the logger refuses: a write with no reading begun, \
                 and a fifth reading inside four.";
    let mut script = Script::new(about, paper(&["K11"])?);
    script.notes.extend([
        (0, "Nothing is begun: refused."),
        (1, "Four readings are begun, each inside the one before."),
        (5, "A fifth: refused."),
    ]);
    Ok(script)
}

/// Stop mode: six readings fill the ring and two more are dropped; a page is read,
/// and there is room again.
fn stop() -> Script {
    let about = "A ring in stop mode is full twice: three readings are dropped, \
                 and all others are handed out.";
    let mut script = Script::new(about, Builder::new(3, 2, 1));
    script.note("Six readings fill three pages of two slots.");
    script.readings(1..=6);
    script.note("Two more find no room.");
    script.readings(7..=8);
    script.note("The oldest page is fetched, and its two readings handed out.");
    for _ in 0..5 {
        script.builder.act(Read);
    }
    script.note("There is room for two more, and not for a third.");
    script.readings(9..=11);
    script.note("All that is there is handed out.");
    script.builder.read_all();
    script
}

fn header() -> Script {
    let about = "A logger that was set up, and nothing else: complete, 0 of 0 readings.";
    Script::new(about, Builder::new(2, 1, 0))
}

/// Cases of 01 on the small ring; the replay's answers are held to 01's.
pub fn paper(names: &[&str]) -> Result<Builder, String> {
    let steps = cases::steps(names);
    let mut builder = Builder::new(2, 1, 0);
    for &(action, _) in &steps {
        builder.act(action);
    }
    let replay = trace::replay(&builder.bytes);
    if replay.made != steps || replay.refusal.is_some() {
        return Err(format!("{names:?}: the replay is not as in 01"));
    }
    Ok(builder)
}

/// The plain ring with mode byte 2: 150 readings, the oldest 32 overwritten, and half
/// a page of the rest read.
fn plain() -> Builder {
    let mut builder = Builder::new(8, 16, 2);
    for value in 0..150 {
        builder.reading(1000 + value);
    }
    for _ in 0..11 {
        builder.act(Read);
    }
    builder
}

/// One reading and a second Begin with two of its value bytes gone.
fn cut() -> Vec<u8> {
    let mut builder = Builder::new(2, 1, 0);
    builder.reading(70);
    builder.act(Begin(71));
    builder.bytes.truncate(builder.bytes.len() - 2);
    builder.bytes
}

/// Byte 4 where an action begins, and whole actions after it.
fn unknown() -> Vec<u8> {
    let mut builder = Builder::new(2, 1, 0);
    builder.reading(70);
    builder.act(Begin(71));
    builder.act(Write);
    builder.bytes.push(4);
    builder.act(Write);
    builder.act(Read);
    builder.bytes
}

fn changed(builder: &Builder, place: usize, byte: u8) -> Vec<u8> {
    let mut bytes = builder.bytes.clone();
    bytes[place] = byte;
    bytes
}

#[cfg(test)]
mod tests {
    use super::*;
    use crate::ring::Answer;

    #[test]
    fn texts() {
        let due = "# A logger that was set up, and nothing else: complete, 0 of 0 readings.\n\
                   fresh 2 1 overwrite\n";
        assert_eq!(header().text(), due);
        let mut script = Script::new("All.", Builder::new(3, 16, 1));
        script.note("One.");
        script.builder.act(Begin(70));
        script.builder.act(Write);
        script.note("Two.");
        script.builder.act(Read);
        script.note("Three.");
        let due = "# All.\nfresh 3 16 stop\n# One.\nbegin 70\nwrite\n# Two.\nread\n# Three.\n";
        assert_eq!(script.text(), due);
    }

    #[test]
    fn stuck_no_more() {
        let made = stuck().unwrap().builder.made;
        let reads = &made[cases::steps(&["K10"]).len()..];
        let due = [
            Answer::Found,
            Answer::Prepared,
            Answer::Swapped,
            Answer::Event(0, 20),
            Answer::Found,
            Answer::Prepared,
            Answer::Swapped,
            Answer::Event(1, 30),
            Answer::Empty,
        ];
        assert_eq!(reads, due.map(|answer| (Read, answer)));
    }
}
