//! `traces DIR`: many traces for comparing programs, whole and damaged. What is put
//! into a trace says what must come of it; the replay of each is held to that, and
//! its history to demand 3.

use std::fs;
use std::path::{Path, PathBuf};

use crate::builder::Builder;
use crate::demand::History;
use crate::draws::Generator;
use crate::kinds::Kinds;
use crate::ring::{Action, Answer, Ring};
use crate::samples;
use crate::text::{self, Tally};
use crate::trace::{self, Replay, TraceRefusal};

/// "A file has at most 65,536 bytes"; not taken from `trace`, which is tested here.
const LONGEST: usize = 65_536;
/// Bytes of the header: mark, version, N, S, mode.
const HEADER: usize = 8;
/// Histories with more actions than this are not held to demand 3, which looks at
/// every reading after every action.
const HELD: usize = 5000;

/// What must come of a trace: the actions made with their answers, then the refusal.
struct Due {
    made: Vec<(Action, Answer)>,
    refusal: Option<TraceRefusal>,
}

impl Due {
    fn whole(builder: &Builder) -> Option<Due> {
        Some(Due {
            made: builder.made.clone(),
            refusal: None,
        })
    }

    fn refused(refusal: TraceRefusal) -> Option<Due> {
        Some(Due {
            made: Vec::new(),
            refusal: Some(refusal),
        })
    }

    /// Refused at the action that begins at an offset, after `made` whole ones.
    fn action(builder: &Builder, made: usize, offset: usize) -> Option<Due> {
        Some(Due {
            made: builder.made[..made].to_vec(),
            refusal: Some(TraceRefusal::Action(offset)),
        })
    }
}

/// The directory, how many traces of each kind went into it, and how often each
/// answer came in them.
struct Files {
    dir: PathBuf,
    kinds: Kinds,
    tally: Tally,
    answers: Vec<u64>,
}

pub fn run(dir: &Path) -> Result<String, String> {
    fs::create_dir_all(dir).map_err(|error| format!("{}: {error}", dir.display()))?;
    let mut files = Files {
        dir: dir.to_path_buf(),
        kinds: Kinds::default(),
        tally: Tally::default(),
        answers: vec![0; 3 * LONGEST],
    };
    whole(&mut files)?;
    longer(&mut files)?;
    cut(&mut files)?;
    marks(&mut files)?;
    versions(&mut files)?;
    set_ups(&mut files)?;
    unknown(&mut files)?;
    cut_begins(&mut files)?;
    longest(&mut files)?;
    several(&mut files)?;
    cut_headers(&mut files)?;
    changed(&mut files)?;
    files.tally.all_but(&UNREACHED)?;
    Ok(files.kinds.line("traces"))
}

/// Answers that no action of a trace gets: the set-up's two; 1, as a ring from a
/// set-up stays in shape; 4, as no trace has so many Begins; 6 to 10, which are not
/// answers to an action.
const UNREACHED: [&str; 9] = [
    "Accepted",
    "refused 1 SHAPE",
    "refused 4 WORN",
    "refused 5 SETUP",
    "refused 6 MARK",
    "refused 7 VERSION",
    "refused 8 SIZES",
    "refused 9 ACTION",
    "refused 10 ROOM",
];

impl Files {
    /// Writes the next file, after its replay is found to be what is due.
    fn put(&mut self, kind: &'static str, bytes: &[u8], due: Option<Due>) -> Result<(), String> {
        let number = self.kinds.all();
        self.hold(bytes, due)
            .map_err(|fails| format!("trace {number} ({kind}): {fails}"))?;
        samples::put(&self.dir.join(format!("{number:05}.ptr")), bytes)?;
        self.kinds.count(kind);
        Ok(())
    }

    fn hold(&mut self, bytes: &[u8], due: Option<Due>) -> Result<(), String> {
        let replay = trace::replay(bytes);
        if let Some(due) = due {
            if replay.refusal != due.refusal {
                let (got, due) = (replay.refusal, due.refusal);
                return Err(format!("refusal {got:?} instead of {due:?}"));
            }
            must(replay.made == due.made, "other actions or answers")?;
        }
        for &(_, answer) in &replay.made {
            self.tally.count(answer);
        }
        one_by_one(&replay)?;
        self.into(bytes, &replay, Ring::act)?;
        self.into(bytes, &replay, Ring::act_in_shape)
    }

    /// The replay in place gives the same answers as numbers.
    fn into(
        &mut self,
        bytes: &[u8],
        replay: &Replay,
        act: impl Fn(&mut Ring, Action) -> Answer,
    ) -> Result<(), String> {
        let made = trace::replay_into(bytes, &mut self.answers, act);
        must(made == replay.made.len(), "in place: not as many actions")?;
        let same = self
            .answers
            .chunks_exact(3)
            .zip(&replay.made)
            .all(|(numbers, &(_, answer))| {
                let (first, second) = text::values(answer);
                numbers == [text::code(answer), first, second].map(u64::from)
            });
        must(same, "in place: other answers")
    }
}

fn must(holds: bool, otherwise: &str) -> Result<(), String> {
    if holds {
        Ok(())
    } else {
        Err(otherwise.to_string())
    }
}

/// "Replay equals the actions one by one", and these hold to demand 3. A trace whose
/// set-up is not accepted gives the plain ring.
fn one_by_one(replay: &Replay) -> Result<(), String> {
    let Some((n, s, mode)) = replay.set_up else {
        let plain = replay.ring == Ring::fresh(8, 16, 0).0 && replay.made.is_empty();
        return must(plain, "no set-up, and not the plain ring");
    };
    let (mut ring, answer) = Ring::fresh(n, s, mode);
    must(answer == Answer::Accepted, "a set-up out of range")?;
    let held = replay.made.len() <= HELD;
    let mut history = History::new();
    history.holds(&ring)?;
    for (i, &(action, answer)) in replay.made.iter().enumerate() {
        if held {
            let before = ring.clone();
            must(ring.act(action) == answer, "not the actions one by one")?;
            history
                .check(&before, action, answer, &ring)
                .map_err(|fails| format!("action {i}: {fails}"))?;
        } else {
            must(ring.act(action) == answer, "not the actions one by one")?;
        }
    }
    must(ring.in_shape(), "the last ring is out of shape")?;
    must(ring == replay.ring, "not the last ring of the actions")
}

/// How the actions of a trace are drawn.
#[derive(Clone, Copy)]
enum Mix {
    /// Begin where a draw of 100 is below the first, Write where below the second.
    Share(u32, u32),
    /// Runs of the same action.
    Runs,
    /// Readings written one after another, with some nested and some Reads.
    InTurn,
    /// Readings in turn until the ring has been filled once or `FILLING` actions are
    /// made, then nested writers and Reads among them.
    Filled,
    /// A Read mostly just where a writer is on its way to the next page.
    Between,
}

const FILLING: usize = 120;

const MIXES: [Mix; 12] = [
    Mix::Share(15, 75),
    Mix::Filled,
    Mix::Share(20, 95),
    Mix::Between,
    Mix::Share(35, 85),
    Mix::InTurn,
    Mix::Share(25, 60),
    Mix::Filled,
    Mix::Runs,
    Mix::Share(50, 90),
    Mix::Between,
    Mix::Share(8, 40),
];

fn generator(seed: usize) -> Generator {
    Generator::new(7_000_000 + seed as u64)
}

fn byte(draws: &mut Generator) -> u8 {
    draws.below(256) as u8
}

/// A Begin's value: any, or one whose bytes could be taken for something else.
fn value(draws: &mut Generator) -> u32 {
    match draws.below(8) {
        0 => draws.below(4),
        1 => u32::MAX - draws.below(4),
        2 => [0x0101_0101, 0x0202_0202, 0x0303_0303, 0x0102_0304][draws.below(4) as usize],
        3 => 1 << draws.below(32),
        _ => draws.any(),
    }
}

fn share(draws: &mut Generator, begin: u32, write: u32) -> Action {
    let d = draws.below(100);
    if d < begin {
        Action::Begin(value(draws))
    } else if d < write {
        Action::Write
    } else {
        Action::Read
    }
}

/// The next action of a mix.
fn draw(draws: &mut Generator, mix: Mix, builder: &Builder) -> Action {
    let ring = &builder.ring;
    match mix {
        Mix::Share(begin, write) => share(draws, begin, write),
        Mix::Runs => match builder.made.last() {
            Some(&(Action::Write, _)) if !draws.zero_of(7) => Action::Write,
            Some(&(Action::Read, _)) if !draws.zero_of(5) => Action::Read,
            Some(&(Action::Begin(_), _)) if draws.zero_of(2) => Action::Begin(value(draws)),
            _ => share(draws, 30, 75),
        },
        Mix::InTurn if ring.depth == 0 => share(draws, 80, 81),
        Mix::InTurn => share(draws, 5, 97),
        Mix::Filled => {
            let room = u64::from(ring.n * ring.s);
            if ring.taken >= room || builder.made.len() >= FILLING {
                share(draws, 20, 80)
            } else if ring.depth == 0 {
                Action::Begin(value(draws))
            } else {
                Action::Write
            }
        }
        Mix::Between => {
            let last = builder.made.last().map(|&(_, answer)| answer);
            match last {
                Some(Answer::Looked | Answer::Marked | Answer::Promoted) => share(draws, 25, 55),
                Some(Answer::Found | Answer::Prepared) => share(draws, 10, 60),
                _ if ring.depth == 0 => share(draws, 80, 81),
                _ => share(draws, 8, 92),
            }
        }
    }
}

/// A whole trace with a number of actions.
fn drawn(draws: &mut Generator, set_up: (u8, u8, u8), mix: Mix, actions: usize) -> Builder {
    let (n, s, mode) = set_up;
    let mut builder = Builder::new(n, s, mode);
    for _ in 0..actions {
        let action = draw(draws, mix, &builder);
        builder.act(action);
    }
    builder
}

/// Any set-up in range.
fn any_set_up(draws: &mut Generator) -> (u8, u8, u8) {
    let n = 2 + draws.below(15) as u8;
    let s = 1 + draws.below(16) as u8;
    (n, s, draws.below(3) as u8)
}

/// A set-up of few places, in which a short trace comes round.
fn small_set_up(draws: &mut Generator) -> (u8, u8, u8) {
    let n = 2 + draws.below(3) as u8;
    let s = 1 + draws.below(2) as u8;
    (n, s, draws.below(3) as u8)
}

/// A small set-up and some ten actions and more.
fn small(draws: &mut Generator) -> Builder {
    let set_up = small_set_up(draws);
    let mix = MIXES[draws.below(MIXES.len() as u32) as usize];
    let actions = 10 + draws.below(50) as usize;
    drawn(draws, set_up, mix, actions)
}

/// Each set-up with each mix.
fn whole(files: &mut Files) -> Result<(), String> {
    let mut number = 0;
    for n in 2..=16 {
        for s in 1..=16 {
            for mode in 0..=2 {
                for mix in MIXES {
                    let mut draws = generator(number);
                    let actions = match draws.below(8) {
                        0 => draws.below(12),
                        1..=3 => 12 + draws.below(60),
                        _ => 72 + draws.below(80),
                    };
                    let builder = drawn(&mut draws, (n, s, mode), mix, actions as usize);
                    files.put("whole", &builder.bytes, Due::whole(&builder))?;
                    number += 1;
                }
            }
        }
    }
    Ok(())
}

/// Some thousand actions, on rings of all sizes.
fn longer(files: &mut Files) -> Result<(), String> {
    for i in 0..96 {
        let mut draws = generator(20_000 + i);
        let set_up = match i % 4 {
            0 => (16, 16, (i / 4 % 3) as u8),
            1 => small_set_up(&mut draws),
            _ => any_set_up(&mut draws),
        };
        let actions = 1000 + draws.below(2500) as usize;
        let builder = drawn(&mut draws, set_up, MIXES[i % MIXES.len()], actions);
        files.put("longer", &builder.bytes, Due::whole(&builder))?;
    }
    Ok(())
}

/// What is due of the first `length` bytes of a whole trace.
fn due_cut(builder: &Builder, length: usize) -> Option<Due> {
    match length {
        0..=2 => return Due::refused(TraceRefusal::Mark),
        3..=4 => return Due::refused(TraceRefusal::Version),
        5..=7 => return Due::refused(TraceRefusal::Sizes),
        _ => {}
    }
    let begun = builder
        .starts
        .iter()
        .filter(|&&start| start < length)
        .count();
    let end = *builder.starts.get(begun).unwrap_or(&builder.bytes.len());
    if end == length {
        Some(Due {
            made: builder.made[..begun].to_vec(),
            refusal: None,
        })
    } else {
        Due::action(builder, begun - 1, builder.starts[begun - 1])
    }
}

/// Small traces cut at every offset.
fn cut(files: &mut Files) -> Result<(), String> {
    let mut builders = vec![
        samples::paper(&["K1", "K2", "K3", "K4", "K5", "K6", "K7", "K8"])?,
        samples::paper(&["K9"])?,
        samples::paper(&["K10"])?,
        samples::paper(&["K11"])?,
    ];
    for i in 0..8 {
        builders.push(small(&mut generator(21_000 + i)));
    }
    for builder in &builders {
        for length in 0..=builder.bytes.len() {
            let due = due_cut(builder, length);
            files.put("cut anywhere", &builder.bytes[..length], due)?;
        }
    }
    Ok(())
}

/// A small trace with other bytes at a place, and what is due of it.
fn put_changed(
    files: &mut Files,
    kind: &'static str,
    builder: &Builder,
    place: usize,
    with: &[u8],
    due: Option<Due>,
) -> Result<(), String> {
    let mut bytes = builder.bytes.clone();
    bytes[place..place + with.len()].copy_from_slice(with);
    files.put(kind, &bytes, due)
}

/// Each wrong value of each byte of the mark, and other wrong marks.
fn marks(files: &mut Files) -> Result<(), String> {
    let builder = small(&mut generator(22_000));
    let refused = || Due::refused(TraceRefusal::Mark);
    for (place, right) in [80u8, 84, 82].into_iter().enumerate() {
        for wrong in (0..=255).filter(|&byte| byte != right) {
            put_changed(files, "mark", &builder, place, &[wrong], refused())?;
        }
    }
    for wrong in [
        b"ptr", b"RTP", b"PRT", b"TPR", b"TRP", b"RPT", b"PPT", b"\0\0\0",
    ] {
        put_changed(files, "mark", &builder, 0, wrong, refused())?;
    }
    for before in [&[0][..], b" ", b"P", &[0xef, 0xbb, 0xbf]] {
        let bytes = [before, &builder.bytes].concat();
        files.put("mark", &bytes, refused())?;
    }
    Ok(())
}

/// All of 0 to 3 in both bytes, each value of each byte, and random ones.
fn versions(files: &mut Files) -> Result<(), String> {
    let builder = small(&mut generator(23_000));
    let mut draws = generator(23_001);
    let mut pairs = Vec::new();
    for low in 0..=3 {
        for high in 0..=3 {
            pairs.push([low, high]);
        }
    }
    for byte in 0..=255 {
        pairs.push([byte, 0]);
        pairs.push([1, byte]);
    }
    for _ in 0..100 {
        pairs.push([byte(&mut draws), byte(&mut draws)]);
    }
    for pair in pairs {
        let due = match pair {
            [1, 0] => Due::whole(&builder),
            _ => Due::refused(TraceRefusal::Version),
        };
        put_changed(files, "version", &builder, 3, &pair, due)?;
    }
    Ok(())
}

/// Every byte for N, for S and for the mode, with actions that tell the rings apart.
fn set_ups(files: &mut Files) -> Result<(), String> {
    let sizes: [(usize, [u8; 3]); 3] = [(0, [0, 1, 0]), (1, [2, 0, 1]), (2, [2, 1, 0])];
    for (which, right) in sizes {
        for byte in 0..=255 {
            let mut set_up = right;
            set_up[which] = byte;
            let [n, s, mode] = set_up;
            let fits = (2..=16).contains(&n) && (1..=16).contains(&s) && mode <= 2;
            let of_ring = if fits { (n, s, mode) } else { (2, 1, 0) };
            let mut draws = generator(24_000 + which);
            let builder = drawn(&mut draws, of_ring, Mix::InTurn, 90);
            let due = if fits {
                Due::whole(&builder)
            } else {
                Due::refused(TraceRefusal::Sizes)
            };
            put_changed(files, "set-up", &builder, 5, &set_up, due)?;
        }
    }
    Ok(())
}

/// An unknown action byte put in front of an action or behind the last.
fn with_unknown(builder: &Builder, at: usize, byte: u8) -> (Vec<u8>, Option<Due>) {
    let offset = *builder.starts.get(at).unwrap_or(&builder.bytes.len());
    let mut bytes = builder.bytes.clone();
    bytes.insert(offset, byte);
    (bytes, Due::action(builder, at, offset))
}

/// Each unknown byte at random places, put in or instead of an action's first byte.
fn unknown(files: &mut Files) -> Result<(), String> {
    let mut unknown: Vec<u8> = (4..=255).chain([0]).collect();
    unknown.extend([0, 4].repeat(40));
    for (i, &byte) in unknown.iter().enumerate() {
        let mut draws = generator(25_000 + i);
        let builder = small(&mut draws);
        let actions = builder.made.len();
        let at = draws.below(actions as u32 + 1) as usize;
        let (bytes, due) = with_unknown(&builder, at, byte);
        files.put("unknown action", &bytes, due)?;
        let at = draws.below(actions as u32) as usize;
        let due = Due::action(&builder, at, builder.starts[at]);
        let place = builder.starts[at];
        put_changed(files, "unknown action", &builder, place, &[byte], due)?;
    }
    Ok(())
}

/// A Begin at the end with 0 to 3 of its value bytes.
fn cut_begins(files: &mut Files) -> Result<(), String> {
    for i in 0..60 {
        for values in 0..=3 {
            let mut draws = generator(26_000 + i);
            let builder = small(&mut draws);
            let bytes = with_cut_begin(&mut draws, &builder.bytes, values);
            let due = Due::action(&builder, builder.made.len(), builder.bytes.len());
            files.put("cut Begin", &bytes, due)?;
        }
    }
    Ok(())
}

fn with_cut_begin(draws: &mut Generator, bytes: &[u8], values: usize) -> Vec<u8> {
    let value = value(draws).to_le_bytes();
    [bytes, &[1], &value[..values]].concat()
}

/// A whole trace of exactly `length` bytes.
fn of_length(draws: &mut Generator, set_up: (u8, u8, u8), mix: Mix, length: usize) -> Builder {
    let mut builder = drawn(draws, set_up, mix, 0);
    while builder.bytes.len() < length {
        let mut action = draw(draws, mix, &builder);
        if matches!(action, Action::Begin(_)) && builder.bytes.len() + 5 > length {
            action = Action::Read;
        }
        builder.act(action);
    }
    builder
}

/// At and around "at most 65,536 bytes".
fn longest(files: &mut Files) -> Result<(), String> {
    let mut draws = generator(27_000);
    let set_ups = [(2, 1, 0), (8, 16, 2), (16, 16, 1), (16, 16, 0), (3, 5, 2)];
    let mixes = [Mix::Share(20, 80), Mix::InTurn, Mix::Share(15, 75)];
    for (i, set_up) in set_ups.into_iter().enumerate() {
        let mix = mixes[i % mixes.len()];
        let builder = of_length(&mut draws, set_up, mix, LONGEST);
        files.put("65536 bytes", &builder.bytes, Due::whole(&builder))?;
    }
    let builder = of_length(&mut draws, (5, 3, 0), Mix::InTurn, LONGEST - 1);
    files.put("65535 bytes", &builder.bytes, Due::whole(&builder))?;
    for byte in [0, 4, 1] {
        let bytes = [&builder.bytes, &[byte][..]].concat();
        let due = Due::action(&builder, builder.made.len(), LONGEST - 1);
        files.put("65536 bytes", &bytes, due)?;
    }

    let fit = of_length(&mut draws, (4, 4, 0), Mix::InTurn, LONGEST);
    let heads: [(usize, u8, TraceRefusal); 6] = [
        (0, b'Q', TraceRefusal::Mark),
        (2, b'X', TraceRefusal::Mark),
        (3, 2, TraceRefusal::Version),
        (4, 1, TraceRefusal::Version),
        (6, 0, TraceRefusal::Sizes),
        (7, 3, TraceRefusal::Sizes),
    ];
    for (place, byte, refusal) in heads {
        let due = Due::refused(refusal);
        put_changed(files, "65536 bytes", &fit, place, &[byte], due)?;
    }

    let too_long = || Due::refused(TraceRefusal::Mark);
    for (i, set_up) in set_ups.into_iter().enumerate() {
        let mix = mixes[i % mixes.len()];
        let builder = of_length(&mut draws, set_up, mix, LONGEST + 1);
        files.put("65537 bytes", &builder.bytes, too_long())?;
        let (place, byte, _) = heads[i];
        put_changed(files, "65537 bytes", &builder, place, &[byte], too_long())?;
    }
    for byte in 0..=4 {
        let bytes = [&fit.bytes, &[byte][..]].concat();
        files.put("65537 bytes", &bytes, too_long())?;
    }
    files.put("65537 bytes", &vec![0; LONGEST + 1], too_long())?;
    for length in [LONGEST + 2, 70_000, 2 * LONGEST, 2 * LONGEST + 9] {
        let builder = of_length(&mut draws, (2, 1, 0), Mix::InTurn, length);
        files.put("longer than 65537 bytes", &builder.bytes, too_long())?;
    }
    Ok(())
}

/// What can be wrong in one trace, in the order of the refusals.
const DAMAGES: usize = 7;

/// Every choice of two and more damages: mark, version, N, S, mode, an unknown action,
/// a Begin cut at the end.
fn several(files: &mut Files) -> Result<(), String> {
    for round in 0..6 {
        for chosen in 1..1usize << DAMAGES {
            if chosen.count_ones() < 2 {
                continue;
            }
            let mut draws = generator(28_000 + 200 * round + chosen);
            let builder = small(&mut draws);
            let has = |damage: usize| chosen >> damage & 1 == 1;
            let (mut bytes, mut due) = (builder.bytes.clone(), None);
            if has(6) {
                let values = draws.below(4) as usize;
                bytes = with_cut_begin(&mut draws, &bytes, values);
                due = Due::action(&builder, builder.made.len(), builder.bytes.len());
            }
            if has(5) {
                let at = draws.below(builder.made.len() as u32 + 1) as usize;
                let offset = *builder.starts.get(at).unwrap_or(&builder.bytes.len());
                bytes.insert(offset, [0, 4, 4 + draws.below(252) as u8][round % 3]);
                due = Due::action(&builder, at, offset);
            }
            let sizes = [17 + draws.below(239) as u8, 17, 3 + draws.below(253) as u8];
            for which in (0..3).filter(|which| has(2 + which)) {
                bytes[5 + which] = if round % 2 == 0 { sizes[which] } else { 255 };
                due = Due::refused(TraceRefusal::Sizes);
            }
            if has(1) {
                let wrong = [[0, 1], [2, 0], [1, 1], [0, 0], [255, 255], [3, 0]];
                bytes[3..5].copy_from_slice(&wrong[round]);
                due = Due::refused(TraceRefusal::Version);
            }
            if has(0) {
                bytes[draws.below(3) as usize] = draws.below(80) as u8;
                due = Due::refused(TraceRefusal::Mark);
            }
            files.put("several damages", &bytes, due)?;
        }
    }
    Ok(())
}

/// Headers with wrong mark, version or set-up, cut at every offset.
fn cut_headers(files: &mut Files) -> Result<(), String> {
    for chosen in 0..8usize {
        let mut builder = Builder::new(2, 1, 0);
        builder.act(Action::Begin(70));
        let mut bytes = builder.bytes.clone();
        let has = |damage: usize| chosen >> damage & 1 == 1;
        for (damage, place, byte) in [(0, 0, b'p'), (1, 3, 0), (2, 5, 1)] {
            if has(damage) {
                bytes[place] = byte;
            }
        }
        for length in 0..=bytes.len() {
            let due = if length < 3 || has(0) {
                Due::refused(TraceRefusal::Mark)
            } else if length < 5 || has(1) {
                Due::refused(TraceRefusal::Version)
            } else if length < HEADER || has(2) {
                Due::refused(TraceRefusal::Sizes)
            } else {
                due_cut(&builder, length)
            };
            files.put("cut header", &bytes[..length], due)?;
        }
    }
    Ok(())
}

/// Bytes changed, put in or taken out anywhere, and action bytes drawn at random. The
/// trace does not say what comes of it.
fn changed(files: &mut Files) -> Result<(), String> {
    for i in 0..600 {
        let mut draws = generator(30_000 + i);
        let mut bytes = small(&mut draws).bytes;
        for _ in 0..=draws.below(3) {
            let place = draws.below(bytes.len() as u32) as usize;
            match draws.below(4) {
                0 => bytes[place] = byte(&mut draws),
                1 => bytes[place] = draws.below(5) as u8,
                2 => bytes.insert(place, draws.below(5) as u8),
                _ => {
                    bytes.remove(place);
                }
            }
        }
        files.put("changed anywhere", &bytes, None)?;
    }
    for i in 0..400 {
        let mut draws = generator(31_000 + i);
        let (n, s, mode) = small_set_up(&mut draws);
        let mut bytes = Builder::new(n, s, mode).bytes;
        for _ in 0..draws.below(120) {
            bytes.push(match draws.below(100) {
                0 => byte(&mut draws),
                1 => 0,
                2 => 4,
                d => 1 + d as u8 % 3,
            });
        }
        files.put("drawn bytes", &bytes, None)?;
    }
    Ok(())
}
