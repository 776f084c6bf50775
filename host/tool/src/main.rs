//! The command line: `leamugi demo | relocate | check | case`.
mod case;
mod check;
mod demo;
mod files;
mod insn;
mod relocate;

use std::ffi::OsString;
use std::io::{self, BufWriter, Write};
use std::process::ExitCode;

const HELP: &str = "\
leamugi: fit an eBPF function to a kernel's types (CO-RE relocation)

  leamugi demo                 relocate a small function that reads a TCP socket's last activity
  leamugi relocate OPTIONS     relocate one function from files
  leamugi check BTF...         say whether files are BTFs that can be used
  leamugi case FILE...         run case files and print one block for each
  leamugi COMMAND --help       what a command takes

Exit status: 0 done, 1 refused, 2 bad use: words that are not understood, files that cannot be read or written.";

/// How a command ended; what is to be said of it is said already.
#[derive(Clone, Copy, PartialEq, Eq, PartialOrd, Ord)]
pub enum End {
    /// All went well.
    Done,
    /// Something was refused.
    Refused,
    /// Some of the command's words or files are off.
    BadUse,
}

/// What ends a command at once.
pub enum Stop {
    /// Its words or files are off; in one line.
    BadUse(String),
    /// Standard output takes no more.
    Unwritten(io::Error),
}

impl From<io::Error> for Stop {
    fn from(error: io::Error) -> Stop {
        Stop::Unwritten(error)
    }
}

impl From<String> for Stop {
    fn from(why: String) -> Stop {
        Stop::BadUse(why)
    }
}

/// Where a command's result goes: standard output.
pub type Out<'a> = BufWriter<io::StdoutLock<'a>>;

extern "C" {
    fn signal(number: i32, handler: usize) -> usize;
}

/// A reader that goes away (`leamugi demo | head`) ends the program quietly, as it ends others.
fn end_with_the_reader() {
    const SIGPIPE: i32 = 13;
    const SIG_DFL: usize = 0;
    // SAFETY: the C library's call, with a signal's number and the default handling; no handler of ours is called.
    unsafe { signal(SIGPIPE, SIG_DFL) };
}

fn main() -> ExitCode {
    end_with_the_reader();
    let words: Vec<OsString> = std::env::args_os().skip(1).collect();
    let mut out = BufWriter::new(io::stdout().lock());
    let end = run(&words, &mut out).and_then(|end| Ok(out.flush().map(|()| end)?));
    match end {
        Ok(End::Done) => ExitCode::SUCCESS,
        Ok(End::Refused) => ExitCode::from(1),
        Ok(End::BadUse) => ExitCode::from(2),
        Err(stop) => {
            complain(&match stop {
                Stop::BadUse(why) => why,
                Stop::Unwritten(error) => format!("cannot write to standard output: {error}"),
            });
            ExitCode::from(2)
        }
    }
}

fn run(words: &[OsString], out: &mut Out) -> Result<End, Stop> {
    let Some((command, rest)) = words.split_first() else {
        return help(HELP, out);
    };
    let text = match &*command.to_string_lossy() {
        "demo" => return demo::run(rest, out),
        "relocate" => return relocate::run(rest, out),
        "check" => return check::run(rest, out),
        "case" => return case::run(rest, out),
        "--help" | "-h" | "help" => return help(HELP, out),
        other => format!("unknown command '{other}' (try leamugi --help)"),
    };
    Err(Stop::BadUse(text))
}

/// One line on standard error.
pub fn complain(why: &str) {
    eprintln!("leamugi: {why}");
}

/// Prints a help text.
pub fn help(text: &str, out: &mut Out) -> Result<End, Stop> {
    writeln!(out, "{text}")?;
    Ok(End::Done)
}

/// Whether help is asked for.
pub fn asks_help(words: &[OsString]) -> bool {
    words.iter().any(|word| word == "--help" || word == "-h")
}
