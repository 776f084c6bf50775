//! Fits one function to a kernel: `cargo run --example relocate [LOCAL.btf TARGET.btf INSNS RECORDS]`, the demo's files by default.
use leamugi::{Btf, Record, RecordKind, Which};
use std::error::Error;
use std::{env, fs};

fn main() -> Result<(), Box<dyn Error>> {
    let [local, target, insns, records] = paths()?;
    let local = Btf::parse(fs::read(local)?).map_err(|why| why.of(Which::Local))?;
    // Read once, a target serves any number of functions.
    let target = Btf::parse(fs::read(target)?).map_err(|why| why.of(Which::Target))?;
    let mut insns = fs::read(insns)?;
    let records = fs::read(records)?;

    for record in Record::list(&records) {
        println!("{}", asked(&local, record));
    }
    let before = insns.clone();
    let applied = leamugi::relocate(&local, &target, &mut insns, 0, &records)?;
    println!("{applied} records applied");
    for (index, (old, new)) in before.chunks(8).zip(insns.chunks(8)).enumerate() {
        if old != new {
            println!("instruction {index}: {old:02x?} -> {new:02x?}");
        }
    }
    Ok(())
}

/// The four files: all of the command's words, or the demo's.
fn paths() -> Result<[String; 4], String> {
    let words: Vec<String> = env::args().skip(1).collect();
    if words.is_empty() {
        let demo = |name: &str| format!("{}/demo/{name}", env!("CARGO_MANIFEST_DIR"));
        return Ok(["local.btf", "target.btf", "insns.bin", "records.bin"].map(demo));
    }
    words.try_into().map_err(|_| "four files are needed: LOCAL.btf TARGET.btf INSNS RECORDS".into())
}

/// What a record asks for, in words.
fn asked(local: &Btf, record: Record) -> String {
    let kind = RecordKind::from_number(record.kind).map_or("an unknown kind".into(), |kind| kind.to_string());
    let path = local.path(record.type_id, &local.text(record.access_offset));
    format!("instruction {}: {kind} of {path}", record.insn_offset / 8)
}
