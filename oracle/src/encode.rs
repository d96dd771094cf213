//! `encode FILE` (docs/PROGRAMS.md).

use std::ffi::OsString;

use crate::actions;
use crate::console::{self, Status};
use crate::name::Name;

pub fn run(arguments: &[OsString]) -> Status {
    let [file] = arguments else {
        console::tell("encode FILE");
        return Status::Miscalled;
    };
    let name = Name::of(file);
    let text = match console::read(file, actions::LONGEST) {
        Ok(text) => text,
        Err(error) => {
            console::tell_unreadable(&name, &error);
            return Status::Refused;
        }
    };
    match actions::trace(&text) {
        Ok(trace) => match console::write(&trace) {
            Ok(()) => Status::Whole,
            Err(_) => Status::Unwritten,
        },
        Err(refused) => {
            console::tell(&format!("{name}: {refused}"));
            Status::Refused
        }
    }
}
