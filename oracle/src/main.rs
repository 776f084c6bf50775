//! `oracle COMMAND ...`: see README.md.

use std::{
    env,
    fs::{self, File},
    io::{self, BufWriter, Write},
    path::{Path, PathBuf},
    process::ExitCode,
};

use oracle::{
    Case, compare, differences, fixed, hand, limits, list, made, made::kernel::Kernel, reading, run, section4, section8, stats, timing,
};

const USAGE: &str = "\
oracle run FILE...                       blocks of case files, of lists, of folders of case files
oracle gen SEED COUNT DIR                made cases as case files
oracle batch SEED COUNT LIST BLOCKS      made cases as one list, their blocks as one text
oracle stats [SEED COUNT | PATH]         the histogram of answers, of made cases (1 20000) or of a path's
oracle kernel TARGET SEED COUNT DIR [FROM]   made cases against a kernel's BTF, the program's types cut from FROM (TARGET)
oracle pack LOCAL TARGET INSNS RECORDS FILE  those files as one case file, section offset 0
oracle fixed DIR                         makes the fixed lists
oracle check LIST...                     runs a list's cases again and compares with its blocks
oracle hand DIR                          the hand-made cases as case files
oracle section8 DIR                      section 8's cases and the blocks that it asks for
oracle split LIST DIR                    a list's cases as case files, their blocks beside them
oracle compare BLOCKS OTHERS             two texts of blocks, case by case
oracle read FILE...                      what the crate's own reader says of a BTF
oracle bare FILE...                      the crate's public call alone, nothing guarded: it may end the process
oracle limits DIR                        cases on both sides of section 2's limits, told outcomes beside them
oracle differences DIR                   the smallest inputs of docs/DIFFERENCES.md and what comes of them";

fn main() -> ExitCode {
    let args: Vec<String> = env::args().skip(1).collect();
    let words: Vec<&str> = args.iter().map(String::as_str).collect();
    let done = match words.as_slice() {
        ["run", files @ ..] => run_files(files),
        ["gen", seed, count, dir] => generate(seed, count, dir),
        ["batch", seed, count, list, blocks] => batch(seed, count, list, blocks),
        ["stats"] => histogram("1", "20000"),
        ["stats", path] => histogram_of(path),
        ["stats", seed, count] => histogram(seed, count),
        ["kernel", target, seed, count, dir] => kernel_cases(target, seed, count, dir, target),
        ["kernel", target, seed, count, dir, from] => kernel_cases(target, seed, count, dir, from),
        ["pack", local, target, insns, records, file] => pack(local, target, insns, records, file),
        ["fixed", dir] => make_fixed(dir),
        ["check", files @ ..] => check(files),
        ["hand", dir] => write_cases(dir, hand::cases()),
        ["section8", dir] => write_section8(dir),
        ["split", file, dir] => split(file, dir),
        ["compare", ours, others] => compare_texts(ours, others),
        ["read", files @ ..] => read_files(files),
        ["bare", files @ ..] => bare(files),
        ["limits", dir] => write_limits(dir),
        ["differences", dir] => write_differences(dir),
        _ => {
            eprintln!("{USAGE}");
            Ok(false)
        }
    };
    match done {
        Ok(true) => ExitCode::SUCCESS,
        Ok(false) => ExitCode::from(1),
        Err(e) => {
            eprintln!("{e}");
            ExitCode::from(2)
        }
    }
}

/// Whether everything was as it should be.
type Done = io::Result<bool>;

fn numbers(seed: &str, count: &str) -> io::Result<(u64, u64)> {
    match (seed.parse(), count.parse()) {
        (Ok(seed), Ok(count)) => Ok((seed, count)),
        _ => Err(io::Error::other("SEED and COUNT are numbers")),
    }
}

/// The case files of a folder in order of their names, or the file itself.
fn files_of(path: &str) -> io::Result<Vec<PathBuf>> {
    if !Path::new(path).is_dir() {
        return Ok(vec![PathBuf::from(path)]);
    }
    let mut files: Vec<PathBuf> = fs::read_dir(path)?.map(|e| e.map(|e| e.path())).collect::<io::Result<_>>()?;
    files.retain(|f| f.extension().is_some_and(|e| e == "case"));
    files.sort();
    Ok(files)
}

/// The cases of a file, each with its name; none where it is neither a case file nor a list.
fn cases_of(file: &Path) -> io::Result<Vec<(String, Case)>> {
    let (bytes, name) = (fs::read(file)?, file.display().to_string());
    Ok(match (Case::unpack(&bytes), list::unpack(&bytes)) {
        (Some(case), _) => vec![(name, case)],
        (None, Some(entries)) => entries.into_iter().zip(0..).map(|(e, n)| (format!("{name}#{n}"), e.case)).collect(),
        (None, None) => Vec::new(),
    })
}

fn run_files(paths: &[&str]) -> Done {
    let mut out = BufWriter::new(io::stdout().lock());
    let mut good = true;
    for path in paths {
        for file in files_of(path)? {
            let cases = cases_of(&file)?;
            if cases.is_empty() {
                writeln!(out, "case={}\nbad case file\nend", file.display())?;
                good = false;
            }
            for (name, case) in cases {
                good &= print_block(&mut out, &name, &case)?;
            }
        }
    }
    Ok(good)
}

fn print_block(out: &mut impl Write, name: &str, case: &Case) -> Done {
    let run = run(case, true);
    out.write_all(run.block(name).as_bytes())?;
    run.faults.iter().for_each(|fault| eprintln!("self-check: {name}: {fault}"));
    Ok(run.faults.is_empty())
}

fn write_cases(dir: &str, cases: impl IntoIterator<Item = (String, Case)>) -> Done {
    fs::create_dir_all(dir)?;
    for (name, case) in cases {
        fs::write(format!("{dir}/{name}.case"), case.pack())?;
    }
    Ok(true)
}

fn generate(seed: &str, count: &str, dir: &str) -> Done {
    let (seed, count) = numbers(seed, count)?;
    write_cases(dir, (0..count).map(|i| (format!("{i:07}"), made::case(seed, i))))
}

/// Case files named by seed and number.
fn kernel_cases(target: &str, seed: &str, count: &str, dir: &str, from: &str) -> Done {
    let (seed, count) = numbers(seed, count)?;
    let target = fs::read(target)?;
    let refused = || io::Error::other(format!("{from}: section 4 refuses it, or it names no type"));
    let from = Kernel::read(&fs::read(from)?).ok_or_else(refused)?;
    write_cases(dir, (0..count).map(|i| (format!("{seed}-{i:04}"), made::kernel::case(&from, &target, seed, i))))
}

fn pack(local: &str, target: &str, insns: &str, records: &str, file: &str) -> Done {
    let case =
        Case { local: fs::read(local)?, target: fs::read(target)?, insns: fs::read(insns)?, records: fs::read(records)?, section: 0 };
    fs::write(file, case.pack())?;
    Ok(true)
}

fn batch(seed: &str, count: &str, list: &str, blocks: &str) -> Done {
    let (seed, count) = numbers(seed, count)?;
    let (mut list, mut blocks) = (BufWriter::new(File::create(list)?), BufWriter::new(File::create(blocks)?));
    list.write_all(&list::head(count as u32, list::NO_BLOCKS))?;
    let mut packed = Vec::new();
    for index in 0..count {
        let case = made::case(seed, index);
        blocks.write_all(run(&case, false).block(&index.to_string()).as_bytes())?;
        packed.clear();
        list::Entry { origin: index as u32, case, block: String::new() }.pack(&mut packed);
        list.write_all(&packed)?;
    }
    list.flush()?;
    blocks.flush()?;
    Ok(true)
}

fn histogram(seed: &str, count: &str) -> Done {
    let (seed, count) = numbers(seed, count)?;
    let histogram = stats::over((0..count).map(|i| made::case(seed, i)));
    let good = print_histogram(&histogram);
    let short = histogram.short();
    short.iter().for_each(|row| println!("too seldom: {row}"));
    Ok(good && (short.is_empty() || count < stats::DEMAND.0))
}

fn print_histogram(histogram: &stats::Histogram) -> bool {
    print!("{}", histogram.print());
    histogram.faults.iter().take(20).for_each(|fault| eprintln!("self-check: {fault}"));
    histogram.faults.is_empty()
}

/// Of a case file, a list or a folder.
fn histogram_of(path: &str) -> Done {
    let cases: Vec<_> = files_of(path)?.iter().map(|file| cases_of(file)).collect::<io::Result<Vec<_>>>()?;
    Ok(print_histogram(&stats::over(cases.into_iter().flatten().map(|(_, case)| case))))
}

fn make_fixed(dir: &str) -> Done {
    let lists = fixed::make();
    fs::create_dir_all(dir)?;
    for (name, entries, by) in
        [("crate.list", &lists.by_crate, list::BY_CRATE), ("by-document-01.list", &lists.by_document, list::BY_DOCUMENT)]
    {
        let bytes = list::pack(entries, by);
        println!("{name}: {} cases, {} bytes", entries.len(), bytes.len());
        fs::write(format!("{dir}/{name}"), bytes)?;
    }
    lists.faults.iter().for_each(|fault| eprintln!("self-check: {fault}"));
    Ok(lists.faults.is_empty())
}

fn entries_of(file: &str) -> io::Result<Vec<list::Entry>> {
    list::unpack(&fs::read(file)?).ok_or_else(|| io::Error::other(format!("{file} is no list")))
}

fn check(files: &[&str]) -> Done {
    let mut good = true;
    for file in files {
        let entries = entries_of(file)?;
        let agrees = |entry: &list::Entry| {
            let run = run(&entry.case, true);
            run.faults.is_empty() && run.plain() == entry.block
        };
        let wrong: Vec<usize> = (0..entries.len()).filter(|&i| !agrees(&entries[i])).collect();
        println!("{file}: {} cases, {} differ {:?}", entries.len(), wrong.len(), &wrong[..wrong.len().min(10)]);
        good &= wrong.is_empty();
    }
    Ok(good)
}

fn split(file: &str, dir: &str) -> Done {
    fs::create_dir_all(dir)?;
    for (entry, n) in entries_of(file)?.into_iter().zip(0..) {
        fs::write(format!("{dir}/{n:05}.case"), entry.case.pack())?;
        fs::write(format!("{dir}/{n:05}.expected"), entry.block)?;
    }
    Ok(true)
}

fn write_section8(dir: &str) -> Done {
    let told = section8::cases();
    let good = told.iter().all(|t| run(&t.case, true).plain() == t.block());
    fs::create_dir_all(dir)?;
    for told in told {
        fs::write(format!("{dir}/{}.case", told.name), told.case.pack())?;
        fs::write(format!("{dir}/{}.expected", told.name), told.block())?;
    }
    let rows = reading::cases();
    let agreed = rows.iter().filter(|r| run(&r.case, true).outcome == r.outcome).count();
    println!("section 8 and the crate agree: {good}; {agreed} of {} told outcomes of reading agree", rows.len());
    Ok(good && agreed == rows.len())
}

fn compare_texts(ours: &str, others: &str) -> Done {
    let (ours, others) = (fs::read_to_string(ours)?, fs::read_to_string(others)?);
    let told = compare::compare(&ours, &others);
    print!("{}", told.print());
    Ok(told.differ() == 0)
}

fn read_files(files: &[&str]) -> Done {
    for file in files {
        let bytes = fs::read(file)?;
        let section4 = match section4::read(&bytes) {
            Ok(accepted) => format!("accepted, entries={}", accepted.types + 1),
            Err(section4::Fault::Bad(id)) => format!("outcome=1 id={id}"),
            Err(section4::Fault::Limit) => "outcome=2".to_string(),
        };
        println!("{file}: section 4: {section4}; the crate: {}", oracle::crate_reads(&bytes));
    }
    Ok(true)
}

fn bare(files: &[&str]) -> Done {
    for file in files {
        let case = Case::unpack(&fs::read(file)?).ok_or_else(|| io::Error::other(format!("{file} is no case")))?;
        let prepared = timing::Prepared::new(&case.local, &case.insns, case.section, &case.records);
        let (Some(mut prepared), Some(target)) = (prepared, timing::Read::new(&case.target)) else {
            println!("{file}: not read");
            continue;
        };
        let said = prepared.relocate_caught(&target).map_or("panics", |accepted| if accepted { "accepts" } else { "refuses" });
        let insns: String = prepared.insns().iter().map(|b| format!("{b:02x}")).collect();
        println!("{file}: {said} insns={insns}");
    }
    Ok(true)
}

fn write_differences(dir: &str) -> Done {
    fs::create_dir_all(dir)?;
    let mut good = true;
    for row in differences::rows() {
        fs::write(format!("{dir}/{}.case", row.name), row.case.pack())?;
        let said = differences::summary(&run(&row.case, true));
        good &= said == row.told;
        println!("{} {:32} {said}", if said == row.told { " " } else { "!" }, row.name);
    }
    Ok(good)
}

fn write_limits(dir: &str) -> Done {
    fs::create_dir_all(dir)?;
    let mut good = true;
    for told in limits::cases() {
        fs::write(format!("{dir}/{}.case", told.name), told.case.pack())?;
        fs::write(format!("{dir}/{}.outcome", told.name), format!("{}\n", told.outcome))?;
        let said = run(&told.case, true).outcome;
        good &= said == told.outcome;
        println!("{} {:24} {said}", if said == told.outcome { " " } else { "!" }, told.name);
    }
    Ok(good)
}
