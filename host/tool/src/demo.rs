//! `leamugi demo`: the main job on what is embedded: a function that reads a TCP socket's last activity (demo/).
use crate::{asks_help, complain, files, help, insn, End, Out, Stop};
use leamugi::{Btf, Which};
use std::ffi::{OsStr, OsString};
use std::io::Write as _;

const HELP: &str = "\
leamugi demo

Relocates a small function that reads a TCP socket's last-activity fields (demo/last_activity.c) against the running
kernel's BTF, or against an embedded target where there is none or it is refused; prints each record, each instruction
before and after, and the report.";

const LOCAL: &[u8] = include_bytes!("../../../demo/local.btf");
const INSNS: &[u8] = include_bytes!("../../../demo/insns.bin");
const RECORDS: &[u8] = include_bytes!("../../../demo/records.bin");
const EMBEDDED: &[u8] = include_bytes!("../../../demo/target.btf");

/// The kinds of records, by number.
const KINDS: [&str; 12] = [
    "field offset",
    "field size",
    "field exists",
    "field signed",
    "field left shift",
    "field right shift",
    "type id, local",
    "type id, target",
    "type exists",
    "type size",
    "variant exists",
    "variant value",
];

/// Runs the command.
pub fn run(words: &[OsString], out: &mut Out) -> Result<End, Stop> {
    if asks_help(words) {
        return help(HELP, out);
    }
    if let Some(word) = words.first() {
        return Err(Stop::BadUse(format!("demo takes no '{}'", word.to_string_lossy())));
    }
    let local = Btf::read(LOCAL.to_vec()).expect("the embedded BTF is one");
    let target = target(out)?;
    let mut insns = INSNS.to_vec();
    let (result, report) = leamugi::relocate_reported(&local, &target, &mut insns, 0, RECORDS);
    writeln!(out, "records")?;
    for (number, record) in RECORDS.chunks(16).enumerate() {
        writeln!(out, "  {number}: {}", told(&local, record, &value(&report, number)))?;
    }
    writeln!(out, "instructions")?;
    for (index, (before, after)) in INSNS.chunks(8).zip(insns.chunks(8)).enumerate() {
        writeln!(out, "  {index:3}  {}", insn::line(before))?;
        if before != after {
            writeln!(out, "   ->  {}", insn::line(after))?;
        }
    }
    write!(out, "report\n{report}")?;
    match result {
        Ok(applied) => {
            writeln!(out, "{applied} records applied")?;
            Ok(End::Done)
        }
        Err(refused) => {
            out.flush()?;
            complain(&format!("refusal {}: {refused}", refused.number()));
            Ok(End::Refused)
        }
    }
}

/// The running kernel's BTF where it can be used, else the embedded one; says which.
fn target(out: &mut Out) -> Result<Btf, Stop> {
    let running = files::bytes(OsStr::new(files::RUNNING));
    match running.and_then(|bytes| Btf::read(bytes).map_err(|why| format!("refusal {}: {}", why.number(), why.of(Which::Target)))) {
        Ok(btf) => {
            writeln!(out, "target: the running kernel, {} types", btf.types())?;
            Ok(btf)
        }
        Err(why) => {
            writeln!(out, "target: embedded ({why})")?;
            Ok(Btf::read(EMBEDDED.to_vec()).expect("the embedded BTF is one"))
        }
    }
}

/// A record in words: its kind, type, access string and value.
fn told(local: &Btf, record: &[u8], value: &str) -> String {
    let number = |at: usize| u32::from_le_bytes(record[at..at + 4].try_into().expect("four bytes"));
    let kind = KINDS.get(number(12) as usize).copied().unwrap_or("unknown kind");
    let access = local.text(number(8));
    let path = local.path(number(4), &access);
    format!("insn {}: {kind} of {path} ({access}) = {value}", number(0) / 8)
}

/// The value line of a record in the report.
fn value(report: &str, number: usize) -> String {
    let lines: Vec<&str> = report.lines().collect();
    lines.get(4 * number + 3).and_then(|line| line.strip_prefix("value=")).unwrap_or("not reached").into()
}
