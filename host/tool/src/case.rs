//! `leamugi case FILE...`: one block for each case file, as docs/CASES.md says.
use crate::{asks_help, complain, files, help, End, Out, Stop};
use leamugi::{read_both, relocate_reported, BtfRefusal, Refused};
use std::ffi::{OsStr, OsString};
use std::fmt::Write as _;
use std::io::Write as _;
use std::path::Path;

const HELP: &str = "\
leamugi case FILE...
leamugi case --list FILE

Runs each case file (docs/CASES.md) and prints one block for each: the report, the outcome, the instructions left.
With --list, runs each case of a list (oracle/README.md); case= is then the case's number.
Exit status: 0 whatever the answers are, 1 where a file is no case file, 2 where one cannot be read (the others are run all
the same).";

/// The four byte strings of a case and the section offset.
struct Case<'a> {
    local: &'a [u8],
    target: &'a [u8],
    insns: &'a [u8],
    records: &'a [u8],
    section: u64,
}

/// Runs the command.
pub fn run(words: &[OsString], out: &mut Out) -> Result<End, Stop> {
    if asks_help(words) {
        return help(HELP, out);
    }
    match words {
        [] => Err(Stop::BadUse("case takes one or more case files".into())),
        [word, path] if word == "--list" => list(path, out),
        [word, ..] if word == "--list" => Err(Stop::BadUse("case --list takes one list".into())),
        paths => {
            let mut end = End::Done;
            for path in paths {
                end = end.max(one(path, out)?);
            }
            Ok(end)
        }
    }
}

/// Runs a case file.
fn one(path: &OsStr, out: &mut Out) -> Result<End, Stop> {
    let (bytes, unread) = match files::bytes(path) {
        Ok(bytes) => (bytes, End::Refused),
        Err(why) => {
            complain(&why);
            (vec![], End::BadUse)
        }
    };
    let (block, end) = match parse(&bytes) {
        Some(case) => (block(&case), End::Done),
        None => ("bad case file\nend\n".into(), unread),
    };
    write!(out, "case={}\n{block}", Path::new(path).display())?;
    Ok(end)
}

/// Runs the cases of a list.
fn list(path: &OsStr, out: &mut Out) -> Result<End, Stop> {
    let bytes = files::bytes(path)?;
    let name = Path::new(path).display();
    let begins = bytes.starts_with(b"LEALIST1");
    let mut rest = bytes.get(32..).filter(|_| begins).ok_or(format!("{name} is no list of cases"))?;
    let mut number = 0;
    while !rest.is_empty() {
        let (case, after) = entry(rest).ok_or(format!("{name} ends inside case {number}"))?;
        write!(out, "case={number}\n{}", block(&case))?;
        rest = after;
        number += 1;
    }
    Ok(End::Done)
}

/// The number in four bytes.
fn word(bytes: &[u8], at: usize) -> Option<usize> {
    Some(u32::from_le_bytes(bytes.get(at..at + 4)?.try_into().ok()?) as usize)
}

/// The first entry of a list's rest, and what follows it.
fn entry(bytes: &[u8]) -> Option<(Case<'_>, &[u8])> {
    let section = u64::from_le_bytes(bytes.get(16..24)?.try_into().ok()?);
    let lengths = [word(bytes, 0)?, word(bytes, 4)?, word(bytes, 8)?, word(bytes, 12)?];
    let (case, after) = parts(bytes.get(32..)?, lengths, section)?;
    Some((case, after.get(word(bytes, 24)?..)?))
}

/// The four byte strings of these lengths, and what follows them.
fn parts(bytes: &[u8], lengths: [usize; 4], section: u64) -> Option<(Case<'_>, &[u8])> {
    let mut rest = bytes;
    let mut part = |length: usize| {
        let part = rest.get(..length)?;
        rest = &rest[length..];
        Some(part)
    };
    let case = Case { local: part(lengths[0])?, target: part(lengths[1])?, insns: part(lengths[2])?, records: part(lengths[3])?, section };
    Some((case, rest))
}

/// The parts of a case file, if it is one.
fn parse(bytes: &[u8]) -> Option<Case<'_>> {
    if bytes.get(..8)? != b"LEACASE1" {
        return None;
    }
    let section = u64::from_le_bytes(bytes.get(24..32)?.try_into().ok()?);
    let lengths = [word(bytes, 8)?, word(bytes, 12)?, word(bytes, 16)?, word(bytes, 20)?];
    let (case, after) = parts(&bytes[32..], lengths, section)?;
    after.is_empty().then_some(case)
}

/// What a case gives, from the report to `end`.
fn block(case: &Case) -> String {
    let mut insns = case.insns.to_vec();
    let (report, outcome) = outcome(case, &mut insns);
    let mut block = format!("{report}{outcome}\ninsns=");
    for byte in &insns {
        write!(block, "{byte:02x}").expect("a string takes all");
    }
    block.push_str("\nend\n");
    block
}

/// The report and the outcome.
fn outcome(case: &Case, insns: &mut [u8]) -> (String, String) {
    match read_both(case.local.to_vec(), case.target.to_vec(), insns, case.section, case.records) {
        Err(refused) => (String::new(), said(&Err(refused))),
        Ok((local, target)) => {
            let (result, report) = relocate_reported(&local, &target, insns, case.section, case.records);
            (report, said(&result))
        }
    }
}

/// The outcome line of a call.
fn said(result: &Result<u64, Refused>) -> String {
    match result {
        Ok(applied) => format!("outcome=0 applied={applied}"),
        Err(refused) => format!("outcome={}{} applied={}", refused.number(), beside(refused), refused.applied()),
    }
}

/// What stands beside a refusal's number.
fn beside(refused: &Refused) -> String {
    let (record, why) = match refused {
        Refused::Btf { which, why: BtfRefusal::Bad { id, .. } } => return format!(" btf={which} id={id}"),
        Refused::Btf { which, .. } => return format!(" btf={which}"),
        Refused::Record { record, why, .. } => (*record, *why),
        _ => return String::new(),
    };
    let keys: &[&str] = match why.number() {
        4 => &["kind"],
        6 => &["index"],
        8 => &["index", "count"],
        10 => &["id", "count"],
        11 => &["id"],
        12 => &["reason"],
        _ => &["record"],
    };
    keys.iter().zip(why.values(record)).map(|(key, value)| format!(" {key}={value}")).collect()
}
