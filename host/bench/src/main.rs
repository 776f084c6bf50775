//! `bench DEMO BTF...`: reading and relocating, timed side by side; `bench --accepts BTF`: whether the library reads it.
#[cfg(feature = "libbpf")]
mod libbpf;
#[cfg(not(feature = "libbpf"))]
#[path = "without_libbpf.rs"]
mod libbpf;
mod measure;
mod ours;
mod reading;
mod relocating;
mod table;

use leamugi::Btf;
use relocating::Function;
use std::path::Path;
use std::process::ExitCode;
use std::{env, fs};
use table::grouped;

/// What was cleared beforehand, and what was not.
const HOW: &str = "\
- The clock is the thread's own time on the processor. The ways of a table take turns, each turn begins with another way, and a
  first turn is thrown away. In a turn a way repeats its work for at least 4 ms.
- Files are in memory beforehand. The processor's caches are not cleared: they hold what the turn before and the repeats leave.
- Reading: nothing is kept from one read to the next; the lent table is written over.
- Relocating: both BTFs are read beforehand. The instructions are put back before each call, which is counted. We keep nothing
  between records or calls. The crate keeps a type's candidates for the records of one call and drops them with it. libbpf's
  functions are called without its loader's cache of candidates.";

fn main() -> ExitCode {
    let words: Vec<String> = env::args().skip(1).collect();
    let done = match &words[..] {
        [option, btf] if option == "--accepts" => read(btf).map(drop),
        [demo, btfs @ ..] if !btfs.is_empty() => run(Path::new(demo), btfs),
        _ => Err("usage: bench DEMO BTF... | bench --accepts BTF".to_string()),
    };
    match done {
        Ok(()) => ExitCode::SUCCESS,
        Err(why) => {
            eprintln!("bench: {why}");
            ExitCode::from(2)
        }
    }
}

fn run(demo: &Path, btfs: &[String]) -> Result<(), String> {
    let file = |name: &str| bytes_of(&demo.join(name).display().to_string());
    let function = Function { local: file("local.btf")?, insns: file("insns.bin")?, records: file("records.bin")? };
    println!("- {} runs of each way.\n{HOW}", measure::RUNS);
    match libbpf::version() {
        Some(version) => {
            println!("- libbpf says {version}: Debian's static archive; its candidates and instructions were seen to be ours.")
        }
        None => println!("- libbpf is left out: not installed, not linkable, or not asked for."),
    }
    for path in btfs {
        let (bytes, btf) = read(path)?;
        println!("\n### {path}: {} bytes, {} types", grouped(bytes.len() as f64), grouped(btf.types().into()));
        reading::bench(&bytes, btf.types());
        relocating::bench(&function, &bytes, &btf);
    }
    Ok(())
}

fn bytes_of(path: &str) -> Result<Vec<u8>, String> {
    fs::read(path).map_err(|why| format!("{path}: {why}"))
}

fn read(path: &str) -> Result<(Vec<u8>, Btf), String> {
    let bytes = bytes_of(path)?;
    let btf = Btf::read(bytes.clone()).map_err(|why| format!("{path}: {why}"))?;
    Ok((bytes, btf))
}
