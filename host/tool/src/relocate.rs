//! `leamugi relocate`
use crate::{asks_help, complain, files, help, End, Out, Stop};
use leamugi::{read_both, relocate_reported, Refused};
use std::ffi::{OsStr, OsString};
use std::io::Write as _;
use std::path::Path;

const HELP: &str = "\
leamugi relocate --local FILE --records FILE --insns FILE [--target FILE] [--section-offset N] [--out FILE]

  --local FILE          the program's BTF (section .BTF)
  --target FILE         the kernel's BTF; the running kernel's by default
  --records FILE        CO-RE records of the function, 16 bytes each
  --insns FILE          the function's instructions, 8 bytes each
  --section-offset N    where the function begins in its section, in bytes (0 by default)
  --out FILE            where to write the relocated instructions; else they are printed in hexadecimal

Each is given once. The report goes to standard output, progress and errors to standard error.
Exit status: 0 all records applied, 1 refused (where a record is, what was applied before stays in the output), 2 bad use.";

/// What the options say.
#[derive(Default)]
struct Words<'a> {
    local: Option<&'a OsStr>,
    target: Option<&'a OsStr>,
    records: Option<&'a OsStr>,
    insns: Option<&'a OsStr>,
    section: Option<&'a OsStr>,
    out: Option<&'a OsStr>,
}

/// The files' bytes.
struct Given {
    local: Vec<u8>,
    target: Vec<u8>,
    records: Vec<u8>,
    insns: Vec<u8>,
    section: u64,
}

/// Runs the command.
pub fn run(words: &[OsString], out: &mut Out) -> Result<End, Stop> {
    if asks_help(words) {
        return help(HELP, out);
    }
    let words = parse(words)?;
    let Given { local, target, records, mut insns, section } = read(&words)?;
    let (local, target) = match read_both(local, target, &insns, section, &records) {
        Ok(both) => both,
        Err(refused) => return Ok(refuse(&refused)),
    };
    eprintln!("{} records against {} types", records.len() / 16, target.types());
    let (result, report) = relocate_reported(&local, &target, &mut insns, section, &records);
    write!(out, "{report}")?;
    leave(&insns, words.out, out)?;
    Ok(match result {
        Ok(applied) => {
            eprintln!("{applied} records applied");
            End::Done
        }
        Err(refused) => refuse(&refused),
    })
}

/// A refusal in one line.
fn refuse(refused: &Refused) -> End {
    complain(&format!("refusal {}: {refused}", refused.number()));
    End::Refused
}

/// The options, each with its value.
fn parse(words: &[OsString]) -> Result<Words<'_>, String> {
    let mut given = Words::default();
    let mut rest = words.iter();
    while let Some(word) = rest.next() {
        let name = word.to_string_lossy();
        let place = match &*name {
            "--local" => &mut given.local,
            "--target" => &mut given.target,
            "--records" => &mut given.records,
            "--insns" => &mut given.insns,
            "--section-offset" => &mut given.section,
            "--out" => &mut given.out,
            other => return Err(format!("unknown word '{other}' (try leamugi relocate --help)")),
        };
        let value = rest.next().filter(|value| !value.to_string_lossy().starts_with("--"));
        let value = value.ok_or(format!("{name} takes a value (try leamugi relocate --help)"))?;
        if place.replace(value).is_some() {
            return Err(format!("{name} is given twice"));
        }
    }
    Ok(given)
}

/// The files that the options name.
fn read(words: &Words) -> Result<Given, String> {
    let needed =
        |path: Option<&OsStr>, name: &str| files::bytes(path.ok_or(format!("{name} FILE is needed (try leamugi relocate --help)"))?);
    let target = words.target.unwrap_or(OsStr::new(files::RUNNING));
    let section = section(words.section)?;
    let (local, records, insns) = (needed(words.local, "--local")?, needed(words.records, "--records")?, needed(words.insns, "--insns")?);
    eprintln!("reading {}", Path::new(target).display());
    Ok(Given { local, target: files::bytes(target)?, records, insns, section })
}

fn section(value: Option<&OsStr>) -> Result<u64, String> {
    let text = value.unwrap_or(OsStr::new("0")).to_string_lossy();
    text.parse().map_err(|_| format!("--section-offset takes a decimal number of bytes, not '{text}'"))
}

/// The instructions into a file, else in hexadecimal.
fn leave(insns: &[u8], path: Option<&OsStr>, out: &mut Out) -> Result<(), Stop> {
    match path {
        Some(path) => std::fs::write(path, insns).map_err(|error| format!("cannot write {}: {error}", Path::new(path).display()))?,
        None => writeln!(out, "insns={}", insns.iter().map(|byte| format!("{byte:02x}")).collect::<String>())?,
    }
    Ok(out.flush()?)
}
