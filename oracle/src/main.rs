//! The ring's rules a second time, written from document 01 and not from the
//! ring's code; where 01 leaves a point open, by docs/DECISIONS.md. The trace's are
//! from request E1 of document 02, the drain's from E2, what a drop commits from E3.
//! `oracle cases`, `random`, `replay` and `encode` print what docs/PROGRAMS.md says;
//! `oracle samples` and `traces` write files for `replay`, `oracle texts` for `encode`.

mod actions;
mod builder;
mod cases;
mod console;
mod day;
mod demand;
mod drain;
mod drains;
mod draws;
mod encode;
mod forms;
mod kinds;
mod name;
mod random;
mod receipt;
mod replay;
mod ring;
mod samples;
mod states;
mod text;
mod texts;
mod trace;
mod traces;

use std::env;
use std::io::{self, Write};
use std::path::Path;
use std::process::ExitCode;

const USAGE: &str = "usage: oracle cases, random, replay FORM FILE.., encode FILE, samples DIR, \
                     texts DIR or traces DIR";

fn main() -> ExitCode {
    let arguments: Vec<_> = env::args_os().skip(1).collect();
    let text = match arguments.as_slice() {
        [program] if program == "cases" => cases::run(),
        [program] if program == "random" => random::run(),
        [program, called @ ..] if program == "replay" => return replay::run(called).into(),
        [program, called @ ..] if program == "encode" => return encode::run(called).into(),
        [program, dir] if program == "samples" => samples::run(Path::new(dir)),
        [program, dir] if program == "texts" => texts::run(Path::new(dir)),
        [program, dir] if program == "traces" => traces::run(Path::new(dir)),
        _ => return fail(USAGE, 2),
    };
    match text {
        Ok(text) => print(&text),
        Err(differs) => fail(&differs, 1),
    }
}

fn print(text: &str) -> ExitCode {
    let mut out = io::stdout().lock();
    match out.write_all(text.as_bytes()).and_then(|()| out.flush()) {
        Ok(()) => ExitCode::SUCCESS,
        Err(error) => fail(&format!("standard output: {error}"), 1),
    }
}

/// One line on standard error; where even that can't be written, the status stands.
fn fail(line: &str, status: u8) -> ExitCode {
    let _ = writeln!(io::stderr(), "oracle: {line}");
    ExitCode::from(status)
}
