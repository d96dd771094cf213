//! What `replay` and `encode` share: FILE, standard output, standard error and the status
//! (docs/PROGRAMS.md). What stands in quotes is the page's.

use std::ffi::OsStr;
use std::fs::File;
use std::io::{self, Read, Write};
use std::os::fd::AsFd;
use std::process::ExitCode;

use crate::name::Name;

/// "The independent program ends with that as its status."
#[derive(Clone, Copy)]
pub enum Status {
    /// "`0` where every trace was read whole".
    Whole = 0,
    /// "`1` where one was refused or could not be read".
    Refused = 1,
    /// "`2` where it was called in another way than the above".
    Miscalled = 2,
    /// "whatever else, `3` where something could not be written to standard output".
    Unwritten = 3,
}

impl From<Status> for ExitCode {
    fn from(status: Status) -> ExitCode {
        ExitCode::from(status as u8)
    }
}

/// The file's bytes, no more of them than show that there are more than `most`.
pub fn read(file: &OsStr, most: usize) -> io::Result<Vec<u8>> {
    let mut bytes = Vec::new();
    open(file)?.take(most as u64 + 1).read_to_end(&mut bytes)?;
    Ok(bytes)
}

/// "FILE `-` is standard input". As a file it tells where it can't be read, which
/// `io::stdin` takes for its end.
fn open(file: &OsStr) -> io::Result<File> {
    if file == "-" {
        Ok(io::stdin().as_fd().try_clone_to_owned()?.into())
    } else {
        File::open(file)
    }
}

/// All of the bytes, so that "nothing is held back". As a file standard output tells
/// where it can't be written to, which `io::stdout` keeps to itself.
pub fn write(bytes: &[u8]) -> io::Result<()> {
    let out: File = io::stdout().as_fd().try_clone_to_owned()?.into();
    (&out).write_all(bytes)
}

/// One line on standard error; where even that can't be written, the status stands.
pub fn tell(line: &str) {
    let _ = io::stderr().write_all(format!("ring: {line}\n").as_bytes());
}

/// "`ring: `, the name, a colon, a space and the system's reason"; Rust puts the error's
/// number behind the system's words, and it is left out.
pub fn tell_unreadable(name: &Name, error: &io::Error) {
    let reason = error.to_string();
    let number = error.raw_os_error().map(|os| format!(" (os error {os})"));
    let words = number.and_then(|number| reason.strip_suffix(&number));
    tell(&format!("{name}: {}", words.unwrap_or(&reason)));
}
