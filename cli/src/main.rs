//! `dekvoz`: lists, checks and reads unwind tables, and walks recorded faults. What it prints comes out of the library; here are files, arguments and text.
#![forbid(unsafe_code)]

mod args;
mod arm64;
mod check;
mod digest;
mod dump;
mod example;
mod facts;
mod grounds;
mod handler;
mod input;
mod json;
mod listed;
mod missing;
mod object;
mod out;
mod page;
mod progress;
mod readelf;
mod recorded;
mod registers;
mod relocate;
mod replay;
mod rules;
mod table;
mod tie;
mod walk;
mod words;
mod x64;

use std::fmt::Display;
use std::io::{ErrorKind, Write};
use std::process::ExitCode;

use args::{Args, Usage};
use out::Out;

/// The status where something is refused or damaged, and that of a command line that cannot be understood.
const REFUSED: u8 = 1;
const MISUSED: u8 = 2;
/// What a shell shows of a program that a closed pipe ended (128 and SIGPIPE).
const CLOSED: u8 = 141;

/// Why a command ends early.
pub enum Stop {
    /// The command line cannot be understood.
    Usage(Usage),
    /// What the words say of a file.
    Failed(String, String),
    /// Nobody reads the output any more.
    Closed,
}

impl Stop {
    fn failed(name: &str, why: impl Display) -> Stop {
        Stop::Failed(name.to_string(), why.to_string())
    }
}

impl From<Usage> for Stop {
    fn from(usage: Usage) -> Stop {
        Stop::Usage(usage)
    }
}

const HELP: &str = include_str!("help.txt");

/// Tells on standard error what is wrong with a file.
pub fn complain(name: &str, why: &str) {
    // Nowhere else could it be told.
    let _ = writeln!(std::io::stderr(), "dekvoz: {name}: {why}");
}

/// Writes what is left of the output.
///
/// # Errors
/// It cannot be written.
pub fn finished(out: &mut Out) -> Result<(), Stop> {
    match out.done() {
        Ok(()) => Ok(()),
        Err(error) if error.kind() == ErrorKind::BrokenPipe => Err(Stop::Closed),
        Err(error) => Err(Stop::failed("standard output", error)),
    }
}

fn say(text: &str) -> Result<bool, Stop> {
    let mut out = Out::new();
    out.text(text);
    finished(&mut out)?;
    Ok(true)
}

/// The commands that take several files, one after the other.
const OVER_FILES: [&str; 4] = ["dump", "check", "x64", "arm64"];

fn run() -> Result<bool, Stop> {
    let words = std::env::args_os().skip(1).map(|word| word.to_string_lossy().into_owned());
    let args = Args::new(words)?;
    let command = args.command.as_deref();
    if args.has("--help") || command == Some("help") {
        return say(HELP);
    }
    if args.has("--version") {
        return say(concat!("dekvoz ", env!("CARGO_PKG_VERSION"), "\n"));
    }
    match (command, args.files.get(1)) {
        (Some(command), Some(_)) if OVER_FILES.contains(&command) => over_files(&args),
        (_, Some(second)) => Err(Stop::Usage(Usage(format!("one file is taken, and `{second}` is one more word")))),
        (_, None) => one(&args),
    }
}

/// One file after the other, each under its name. Whether nothing is wrong with any.
fn over_files(args: &Args) -> Result<bool, Stop> {
    let mut good = true;
    for (n, file) in args.files.iter().enumerate() {
        if args.has("--readelf") {
            say(&format!("\nFile: {file}\n"))?;
        } else if !args.has("--json") {
            say(&format!("{}{file}:\n", if n == 0 { "" } else { "\n" }))?;
        }
        match one(&args.of_file(file)) {
            Ok(whole) => good &= whole,
            Err(Stop::Failed(name, why)) => {
                complain(&name, &why);
                good = false;
            }
            Err(stop) => return Err(stop),
        }
    }
    Ok(good)
}

fn one(args: &Args) -> Result<bool, Stop> {
    match args.command.as_deref() {
        Some("example") => example::run(args),
        Some("dump") => dump::run(args),
        Some("rules") => rules::run(args),
        Some("check") => check::run(args),
        Some("handler") => handler::run(args),
        Some("walk") => walk::run(args),
        Some("x64") => x64::run(args),
        Some("arm64") => arm64::run(args),
        Some(other) => Err(Stop::Usage(Usage(format!("there is no command `{other}`")))),
        None => Err(Stop::Usage(Usage("a command is asked for".to_string()))),
    }
}

fn main() -> ExitCode {
    match run() {
        Ok(true) => ExitCode::SUCCESS,
        Ok(false) => ExitCode::from(REFUSED),
        Err(Stop::Closed) => ExitCode::from(CLOSED),
        Err(Stop::Failed(name, why)) => {
            complain(&name, &why);
            ExitCode::from(REFUSED)
        }
        Err(Stop::Usage(Usage(why))) => {
            let _ = writeln!(std::io::stderr(), "dekvoz: {why}; dekvoz --help says what there is");
            ExitCode::from(MISUSED)
        }
    }
}
