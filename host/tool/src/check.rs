//! `leamugi check BTF...`
use crate::{asks_help, complain, files, help, End, Out, Stop};
use leamugi::Btf;
use std::ffi::OsString;
use std::io::Write as _;
use std::path::Path;

const HELP: &str = "\
leamugi check BTF...

Says of each file whether it is a BTF that can be used, with its counts, or which refusal it gets, where and why.
Exit status: 0 all are, 1 some are refused, 2 some cannot be read (the others are looked at all the same).";

/// Runs the command.
pub fn run(words: &[OsString], out: &mut Out) -> Result<End, Stop> {
    if asks_help(words) {
        return help(HELP, out);
    }
    if words.is_empty() {
        return Err(Stop::BadUse("check takes one or more BTF files".into()));
    }
    let mut end = End::Done;
    for path in words {
        end = end.max(check(path, out)?);
    }
    Ok(end)
}

fn check(path: &OsString, out: &mut Out) -> Result<End, Stop> {
    let bytes = match files::bytes(path) {
        Ok(bytes) => bytes,
        Err(why) => {
            complain(&why);
            return Ok(End::BadUse);
        }
    };
    let path = Path::new(path).display();
    match Btf::read(bytes) {
        Ok(btf) => {
            writeln!(out, "{path}: accepted, {} types, {} bytes of strings, {} bytes", btf.types(), btf.strings(), btf.bytes().len())?;
            Ok(End::Done)
        }
        Err(refused) => {
            writeln!(out, "{path}: refusal {}: {refused}", refused.number())?;
            Ok(End::Refused)
        }
    }
}
