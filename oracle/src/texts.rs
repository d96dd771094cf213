//! `texts DIR`: many texts for `encode`, whole and damaged, each with the trace or the line
//! on standard error that comes of it. What is put into a text says what must come of it,
//! and what is made of the text is held to that.

use std::fs;
use std::path::{Path, PathBuf};

use crate::actions::{self, Reason, Refused};
use crate::builder::Builder;
use crate::draws::Generator;
use crate::kinds::Kinds;
use crate::ring::{Action, Ring};
use crate::samples;
use crate::text;

/// The most bytes of a trace and of a text; not taken from the modules that are tested.
const LONGEST_TRACE: usize = 65_536;
const LONGEST_TEXT: usize = 1_048_576;

/// How often a trace and each way to be refused must come.
const MANY: usize = 10;

/// What must come of a text: its trace, or why it is refused.
type Due = Result<Vec<u8>, Refused>;

/// The directory, how many texts of each kind went into it, and what came of them.
struct Texts {
    dir: PathBuf,
    kinds: Kinds,
    outcomes: [usize; OUTCOMES.len()],
}

/// What can come of a text.
const OUTCOMES: [&str; 7] = [
    "a trace",
    "too long a text",
    "an unknown line",
    "another order",
    "sizes out of range",
    "too long a trace",
    "nothing said",
];

/// The place of what came of a text in `OUTCOMES`.
fn outcome(made: &Due) -> usize {
    match made {
        Ok(_) => 0,
        Err(Refused::TooLong) => 1,
        Err(Refused::Line(_, Reason::Unknown)) => 2,
        Err(Refused::Line(_, Reason::Order)) => 3,
        Err(Refused::Line(_, Reason::Sizes)) => 4,
        Err(Refused::Line(_, Reason::Length)) => 5,
        Err(Refused::NothingSaid) => 6,
    }
}

pub fn run(dir: &Path) -> Result<String, String> {
    fs::create_dir_all(dir).map_err(|error| format!("{}: {error}", dir.display()))?;
    let mut texts = Texts {
        dir: dir.to_path_buf(),
        kinds: Kinds::default(),
        outcomes: [0; OUTCOMES.len()],
    };
    whole(&mut texts)?;
    set_ups(&mut texts)?;
    values(&mut texts)?;
    nothing(&mut texts)?;
    unknown(&mut texts)?;
    order(&mut texts)?;
    sizes(&mut texts)?;
    long_traces(&mut texts)?;
    long_texts(&mut texts)?;
    changed(&mut texts)?;
    for (outcome, times) in OUTCOMES.iter().zip(texts.outcomes) {
        if times < MANY {
            return Err(format!("{outcome} came {times} times"));
        }
    }
    Ok(texts.kinds.line("texts"))
}

impl Texts {
    /// Writes the next text, with the trace or the line that comes of it, after that is
    /// found to be what is due.
    fn put(&mut self, kind: &'static str, text: &[u8], due: Option<Due>) -> Result<(), String> {
        let name = format!("t{:03}", self.kinds.all());
        let made = actions::trace(text);
        if due.is_some_and(|due| due != made) {
            return Err(format!("{name}.txt ({kind}): not what is due"));
        }
        self.outcomes[outcome(&made)] += 1;
        let (trace, told) = match made {
            Ok(trace) => (trace, String::new()),
            Err(refused) => (Vec::new(), format!("ring: {name}.txt: {refused}\n")),
        };
        let put = |end, bytes: &[u8]| samples::put(&self.dir.join(format!("{name}.{end}")), bytes);
        put("txt", text)?;
        put("ptr", &trace)?;
        put("err", told.as_bytes())?;
        self.kinds.count(kind);
        Ok(())
    }
}

/// What stands between words, before the first and behind the last, behind a line, and
/// between lines; the plain ways more often.
const GAPS: [&[u8]; 8] = [
    b" ",
    b" ",
    b" ",
    b"\t",
    b"  ",
    b"\r",
    b" \t\r ",
    b"         ",
];
const EDGES: [&[u8]; 8] = [b"", b"", b"", b"", b" ", b"\t", b"\r", b" \r\t"];
const COMMENTS: [&[u8]; 10] = [
    b"",
    b"",
    b"",
    b"",
    b"",
    b"#",
    b"# as found",
    b"#\x00\xff\x80#",
    b"#write\r",
    b"  # f\xc3\xbcr morgen",
];
const BLANKS: [&[u8]; 12] = [
    b"",
    b"",
    b"",
    b"",
    b"",
    b"",
    b"",
    b"\n",
    b"\r\n",
    b"\t \n\n",
    b"# fresh 2 1 stop\n",
    b"  #begin\n#\x00\n",
];
/// What may follow a line that is refused.
const AFTER: [&[u8]; 8] = [
    b"",
    b"",
    b"write\n",
    b"fresh 2 1 stop\n",
    b"what\n",
    b"begin 70\n",
    b"fresh 0 0 0\n",
    b"\x00",
];

/// A text in the making, and the trace that its lines say.
struct Sheet {
    draws: Generator,
    text: Vec<u8>,
    builder: Builder,
}

impl Sheet {
    /// An empty text, for a set-up that is drawn.
    fn new(seed: usize) -> Sheet {
        let mut draws = Generator::new(8_000_000 + seed as u64);
        let n = 2 + draws.below(15) as u8;
        let s = 1 + draws.below(16) as u8;
        let builder = Builder::new(n, s, draws.below(2) as u8);
        Sheet {
            draws,
            text: Vec::new(),
            builder,
        }
    }

    /// The set-up and some actions.
    fn drawn(seed: usize, actions: u32) -> Sheet {
        let mut sheet = Sheet::new(seed);
        sheet.fresh();
        for _ in 0..actions {
            sheet.action();
        }
        sheet
    }

    fn pick(&mut self, of: &[&[u8]]) {
        let which = self.draws.below(of.len() as u32) as usize;
        self.text.extend(of[which]);
    }

    /// A line of these words, and what may stand before it.
    fn say(&mut self, words: &[&str]) {
        self.pick(&BLANKS);
        self.pick(&EDGES);
        for (i, word) in words.iter().enumerate() {
            if i > 0 {
                self.pick(&GAPS);
            }
            self.text.extend(word.as_bytes());
        }
        self.pick(&EDGES);
        self.pick(&COMMENTS);
        self.text.push(b'\n');
    }

    /// A number's digits, some with zeros in front.
    fn digits(&mut self, number: u32) -> String {
        let zeros = [0, 0, 0, 0, 1, 2, 8, 30][self.draws.below(8) as usize];
        format!("{}{number}", "0".repeat(zeros))
    }

    fn fresh(&mut self) {
        let Ring { n, s, mode, .. } = self.builder.ring;
        let [n, s, number] = [n, s, mode].map(|size| self.digits(size));
        let mode = match self.draws.zero_of(3) {
            true => &number,
            false => text::mode(mode),
        };
        self.say(&["fresh", &n, &s, mode]);
    }

    fn action(&mut self) {
        let action = match self.draws.below(10) {
            0 => Action::Begin(u32::MAX - self.draws.below(2)),
            1 => Action::Begin(self.draws.below(3)),
            2 => Action::Begin(self.draws.any()),
            3..=7 => Action::Write,
            _ => Action::Read,
        };
        match action {
            Action::Begin(value) => {
                let value = self.digits(value);
                self.say(&["begin", &value]);
            }
            Action::Write => self.say(&["write"]),
            Action::Read => self.say(&["read"]),
        }
        self.builder.act(action);
    }

    /// A line as it stands, which is refused, and some lines after it.
    fn refused(&mut self, line: &[u8], reason: Reason) -> Option<Due> {
        self.pick(&BLANKS);
        let before = self.text.iter().filter(|&&byte| byte == b'\n').count();
        self.text.extend(line);
        if !self.draws.zero_of(4) {
            self.text.push(b'\n');
            self.pick(&AFTER);
            self.pick(&AFTER);
        }
        Some(Err(Refused::Line(before + 1, reason)))
    }

    fn whole(&self) -> Option<Due> {
        Some(Ok(self.builder.bytes.clone()))
    }
}

/// Set-ups and actions spelled in all ways, some with no newline at the end.
fn whole(texts: &mut Texts) -> Result<(), String> {
    for i in 0..80 {
        let mut sheet = Sheet::drawn(i, i as u32 / 2);
        match i % 5 {
            0 => {}
            1 => {
                sheet.text.pop();
            }
            2 => sheet.text.extend(b"# end"),
            3 => sheet.text.extend(b"\r"),
            _ => sheet.text.extend(b"\n\n \t"),
        }
        texts.put("whole", &sheet.text, sheet.whole())?;
    }
    Ok(())
}

/// The smallest and largest sizes, with each word and number for the mode.
fn set_ups(texts: &mut Texts) -> Result<(), String> {
    for (n, s) in [(2, 1), (2, 16), (16, 1), (16, 16)] {
        for (word, mode) in [
            ("overwrite", 0),
            ("0", 0),
            ("stop", 1),
            ("1", 1),
            ("00", 0),
            ("0001", 1),
        ] {
            let text = format!("fresh {n} {s} {word}\n");
            let trace = Builder::new(n, s, mode).bytes;
            texts.put("set-up", text.as_bytes(), Some(Ok(trace)))?;
        }
    }
    Ok(())
}

/// Values that show each byte, and digits with many zeros in front.
fn values(texts: &mut Texts) -> Result<(), String> {
    let values = [
        0,
        1,
        255,
        256,
        65_536,
        67_305_985,
        1 << 24,
        1 << 31,
        u32::MAX,
    ];
    for (value, zeros) in values
        .into_iter()
        .flat_map(|value| [(value, 0), (value, 300)])
    {
        let text = format!("fresh 2 1 0\nbegin {}{value}\nwrite", "0".repeat(zeros));
        let mut builder = Builder::new(2, 1, 0);
        builder.act(Action::Begin(value));
        builder.act(Action::Write);
        texts.put("value", text.as_bytes(), Some(Ok(builder.bytes)))?;
    }
    Ok(())
}

const NOTHING: [&[u8]; 15] = [
    b"",
    b"\n",
    b"\n\n\n",
    b" ",
    b"\t",
    b"\r",
    b"\r\n",
    b" \t\r \n\t\n\r\n",
    b"#",
    b"##\n#",
    b"# fresh 2 1 overwrite\n# begin 70\n",
    b"#fresh 2 1 overwrite",
    b" # \x00\x01\x7f\x80\xff\n",
    b"\r#fresh 2 1 0\rbegin 70\rwrite\r",
    b"\n\n# nothing\n\t# at all\r\n\r",
];

fn nothing(texts: &mut Texts) -> Result<(), String> {
    for text in NOTHING {
        texts.put("nothing said", text, Some(Err(Refused::NothingSaid)))?;
    }
    Ok(())
}

/// Lines that say nothing that is known, each on a line of its own.
const UNKNOWN: &[u8] = b"begin
begin70
begin 70 71
begin 7 0
begin 70,
begin, 70
begin=70
begin (70)
begin seventy
begin begin 70
70
70 begin
write 1
write write
writewrite
writeread
write read
write;
read 0
reads
rea
r
wri te
wri\rte
begin\r7\r0
0
overwrite
stop
fresh
fresh 2
fresh 2 1
fresh 2 1 overwrite stop
fresh 2 1 0 0
fresh 2, 1, 0
fresh(2, 1, 0)
fresh2 1 overwrite
fresh 2 1overwrite
fresh 21 overwrite
fresh overwrite 2 1
2 1 overwrite
begin 4294967296
begin 4294967300
begin 4294967366
begin 5000000000
begin 10000000000
begin 42949672950
begin 18446744073709551615
begin 18446744073709551616
begin 18446744073709551686
begin 340282366920938463463374607431768211456
begin 00000000004294967296
begin -1
begin -0
begin - 1
begin +70
begin 7e1
begin 0x46
begin 70.0
begin 70.
begin 7_0
begin 7,000
begin \xd9\xa7\xd9\xa0
begin \xef\xbc\x97\xef\xbc\x90
begin 7\xb2
fresh 4294967296 1 0
fresh 4294967298 1 0
fresh 18446744073709551618 1 0
fresh 2 4294967297 0
fresh 2 1 4294967296
fresh 2 1 4294967297
fresh 2 1 18446744073709551616
fresh -2 1 0
fresh 2 +1 0
fresh 2 1 -0
fresh 2 1 -1
fresh 0x2 1 0
fresh 2 1 Overwrite
fresh 2 1 STOP
fresh 2 1 over
fresh 2 1 overwrites
fresh 2 1 plain
fresh 2 1 mode
fresh two one stop
fresh stop stop stop
fresh N S MODE
Begin 70
BEGIN 70
bEGIN 70
Write
WRITE
Read
READ
Fresh 2 1 stop
FRESH 2 1 STOP
write\x00
\x00
\x00write
re\x00ad
begin 70\x00
begin\x0070
write\xff
\x80
\xef\xbb\xbfwrite
\xef\xbb\xbf# fresh
write\xc2\xa0
begin\xc2\xa070
write\xe2\x80\xa8read
\x85
write\x0b
write\x0c
\x0cread
begin\x0b70
\x7f
\x1b[0mwrite
writ\x08e
// write
; write
'write'
-
--
!
\\
be#gin 70
begin# 70
w#rite
fresh 2 1# overwrite";

/// Each unknown line after some whole ones, and some as a text's first; then digits
/// without end.
fn unknown(texts: &mut Texts) -> Result<(), String> {
    for (i, line) in UNKNOWN.split(|&byte| byte == b'\n').enumerate() {
        let mut sheet = Sheet::drawn(1000 + i, i as u32 % 7);
        let due = sheet.refused(line, Reason::Unknown);
        texts.put("unknown line", &sheet.text, due)?;
        if i % 5 == 0 {
            let mut sheet = Sheet::new(1500 + i);
            let due = sheet.refused(line, Reason::Unknown);
            texts.put("unknown line", &sheet.text, due)?;
        }
    }
    for (i, digits) in [21, 39, 40, 1000].into_iter().enumerate() {
        for first in ["1", "9"] {
            let mut sheet = Sheet::drawn(1800 + i, 2);
            let line = format!("begin {first}{}", "0".repeat(digits - 1));
            let due = sheet.refused(line.as_bytes(), Reason::Unknown);
            texts.put("unknown line", &sheet.text, due)?;
        }
    }
    Ok(())
}

/// Another line first, also with a `fresh` after it, and a second `fresh`, also one that is
/// out of range.
fn order(texts: &mut Texts) -> Result<(), String> {
    let first = ["begin 70", "write", "read", "begin 4294967295", "\tread\r#"];
    let second = [
        "fresh 2 1 overwrite",
        "fresh 16 16 stop",
        "fresh 17 1 0",
        "fresh 2 0 0 # again",
        "fresh 2 1 7",
        "\rfresh 02 01 01",
    ];
    for i in 0..15 {
        let mut sheet = Sheet::new(2000 + i);
        let due = sheet.refused(first[i % first.len()].as_bytes(), Reason::Order);
        if i % 3 == 0 {
            sheet.text.extend(b"\nfresh 2 1 overwrite\n");
        }
        texts.put("other order", &sheet.text, due)?;
    }
    for i in 0..18 {
        let mut sheet = Sheet::drawn(2100 + i, i as u32 / 6 * 4);
        let due = sheet.refused(second[i % second.len()].as_bytes(), Reason::Order);
        texts.put("other order", &sheet.text, due)?;
    }
    Ok(())
}

/// Each size out of range with the others in range, and all of them out of range. Some of
/// these would be in range as a byte.
fn sizes(texts: &mut Texts) -> Result<(), String> {
    let large = "4294967295";
    let n = [
        "0", "1", "17", "18", "255", "256", "258", "65538", "0017", large,
    ];
    let s = ["0", "17", "18", "256", "257", "65537", "00", large];
    let modes = ["2", "3", "7", "255", "256", "257", "002", "65536", large];
    let mut lines = Vec::new();
    lines.extend(n.map(|n| format!("fresh {n} 1 overwrite")));
    lines.extend(s.map(|s| format!("fresh 2 {s} stop")));
    lines.extend(modes.map(|mode| format!("fresh 2 1 {mode}")));
    lines.extend(["0 0 0", "17 17 2", "1 0 stop", "256 256 256"].map(|all| format!("fresh {all}")));
    for (i, line) in lines.iter().enumerate() {
        let mut sheet = Sheet::new(3000 + i);
        let due = sheet.refused(line.as_bytes(), Reason::Sizes);
        texts.put("sizes out of range", &sheet.text, due)?;
    }
    Ok(())
}

/// A text of a trace of exactly `length` bytes, with as many Begins as asked for, or as fit.
fn of_length(length: usize, begins: usize) -> Sheet {
    let mut sheet = Sheet::new(length + begins);
    sheet.fresh();
    let begins = begins.min((length - sheet.builder.bytes.len()) / 5);
    for i in 0..begins {
        sheet.text.extend(format!("begin {}\n", i % 10).as_bytes());
        sheet.builder.act(Action::Begin(i as u32 % 10));
    }
    while sheet.builder.bytes.len() < length {
        sheet.text.extend(b"read\n");
        sheet.builder.act(Action::Read);
    }
    sheet
}

/// "it would be, with this line": traces of exactly 65,536 bytes, and lines that go over
/// that or would, if they were known or in order.
fn long_traces(texts: &mut Texts) -> Result<(), String> {
    let all = LONGEST_TRACE;
    for (length, begins) in [(all, 0), (all, 20), (all, all), (all - 1, all)] {
        let mut sheet = of_length(length, begins);
        sheet.text.extend(b"\n# the last\n");
        texts.put("long trace", &sheet.text, sheet.whole())?;
    }
    for (line, shortest, reason) in [
        ("write", all, Reason::Length),
        ("read # one too many", all, Reason::Length),
        ("begin 70", all - 4, Reason::Length),
        ("begin", all - 1, Reason::Unknown),
        ("fresh 2 1 stop", all, Reason::Order),
    ] {
        for length in shortest..=all {
            let mut sheet = of_length(length, all);
            let due = sheet.refused(line.as_bytes(), reason);
            texts.put("long trace", &sheet.text, due)?;
        }
    }
    for line in ["write", "begin 0", "read"] {
        let mut sheet = of_length(all, 13_000);
        let due = sheet.refused(line.as_bytes(), Reason::Length);
        texts.put("long trace", &sheet.text, due)?;
    }
    Ok(())
}

/// Texts of exactly 1,048,576 bytes and of more.
fn long_texts(texts: &mut Texts) -> Result<(), String> {
    let mut builder = Builder::new(2, 1, 0);
    builder.act(Action::Begin(70));
    let refused = |number, reason| Err(Refused::Line(number, reason));
    let rows: [(&str, &str, &str, Due); 7] = [
        (
            "fresh 2 1 0\nbegin 70\n#",
            "c",
            "#",
            Ok(builder.bytes.clone()),
        ),
        ("fresh 2 1 0\nbegin ", "0", "70", Ok(builder.bytes.clone())),
        ("fresh 2 1 0\nbegin", "\r", "70\n", Ok(builder.bytes)),
        ("", "\n", "", Err(Refused::NothingSaid)),
        (
            "fresh 2 1 0\n",
            "\n",
            "?",
            refused(LONGEST_TEXT - 11, Reason::Unknown),
        ),
        ("#", "\n", "write", refused(LONGEST_TEXT - 5, Reason::Order)),
        ("what\n", "x", "", refused(1, Reason::Unknown)),
    ];
    for (before, between, after, due) in rows {
        let of_bytes = |length: usize| {
            let fill = length - before.len() - after.len();
            [before, &between.repeat(fill), after].concat().into_bytes()
        };
        texts.put("long text", &of_bytes(LONGEST_TEXT), Some(due))?;
        let too_long = || Some(Err(Refused::TooLong));
        texts.put("long text", &of_bytes(LONGEST_TEXT + 1), too_long())?;
        if before.is_empty() || after.is_empty() || after == "#" {
            texts.put("long text", &of_bytes(LONGEST_TEXT + 4096), too_long())?;
        }
    }
    Ok(())
}

/// Bytes changed, put in or taken out anywhere. The text does not say what comes of it.
fn changed(texts: &mut Texts) -> Result<(), String> {
    let bytes = b" \t\r\n#0127\x00\xffabefw-";
    for i in 0..50 {
        let mut sheet = Sheet::drawn(4000 + i, 6);
        for _ in 0..=sheet.draws.below(2) {
            let place = sheet.draws.below(sheet.text.len() as u32) as usize;
            let byte = bytes[sheet.draws.below(bytes.len() as u32) as usize];
            match sheet.draws.below(3) {
                0 => sheet.text[place] = byte,
                1 => sheet.text.insert(place, byte),
                _ => {
                    sheet.text.remove(place);
                }
            }
        }
        texts.put("changed anywhere", &sheet.text, None)?;
    }
    Ok(())
}
