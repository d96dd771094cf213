//! `replay FORM FILE..` (docs/PROGRAMS.md). What stands in quotes is the page's.

use std::ffi::OsString;
use std::io;

use crate::console::{self, Status};
use crate::day::{Day, Outcome};
use crate::forms::{Counts, Form};
use crate::name::Name;
use crate::trace::LONGEST;

pub fn run(arguments: &[OsString]) -> Status {
    let Some((form, files)) = called(arguments) else {
        console::tell("replay FORM FILE..");
        return Status::Miscalled;
    };
    if form == Form::Csv && files.len() > 1 {
        console::tell("csv takes one file");
        return Status::Miscalled;
    }
    match replay(form, files) {
        Ok(counts) if counts.all_whole() => Status::Whole,
        Ok(_) => Status::Refused,
        Err(_) => Status::Unwritten,
    }
}

/// FORM and at least one FILE.
fn called(arguments: &[OsString]) -> Option<(Form, &[OsString])> {
    let (form, files) = arguments.split_first()?;
    let form = Form::named(form)?;
    (!files.is_empty()).then_some((form, files))
}

/// Replays each file and then prints what there is of it; "sections are parted by one
/// empty line".
fn replay(form: Form, files: &[OsString]) -> io::Result<Counts> {
    let mut counts = Counts::default();
    let mut parted = "";
    for file in files {
        let name = Name::of(file);
        let day = match console::read(file, LONGEST) {
            Ok(trace) => Some(Day::of(&trace)),
            Err(error) => {
                console::tell_unreadable(&name, &error);
                None
            }
        };
        let section = form.section(&name, day.as_ref());
        console::write(format!("{parted}{section}").as_bytes())?;
        parted = "\n";
        let refusal = day.as_ref().and_then(Day::refusal);
        if let (Form::Csv, Some(refusal)) = (form, refusal) {
            console::tell(&format!("{name}: {refusal}"));
        }
        counts.count(day.map_or(Outcome::Unreadable, |day| day.outcome()));
    }
    if let Some(section) = form.last_section(&counts) {
        console::write(format!("{parted}{section}").as_bytes())?;
    }
    Ok(counts)
}
