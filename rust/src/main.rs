//! The desk's program. Nothing of it is trusted for a verdict: it reads files, calls the checker and presents what it says.
//!
//!     tariff check THEORY GOALS PROOF [--facts] [--explain] [--json]
//!     tariff check FOLDER...          [--facts] [--explain] [--json]
//!     tariff explain [NUMBER]
//!
//! It ends with 0 where all was accepted, 1 where something was refused, 2 where something could not be read or the words were wrong.
#![forbid(unsafe_code)]

mod desk;

use desk::args::{self, Command};
use desk::{check, question};
use std::ffi::OsString;
use std::io::{self, ErrorKind};
use std::process::ExitCode;

const CANNOT: u8 = 2;

fn main() -> ExitCode {
    let words: Vec<OsString> = std::env::args_os().skip(1).collect();
    // a check needs more stack than a system may give to the main thread
    let status = match tariff::with_stack(|| run(&words)) {
        Ok(done) => done,
        Err(why) => Err(format!("no thread with a stack large enough: {why}")),
    };
    ExitCode::from(status.unwrap_or_else(|why| {
        eprintln!("tariff: {why}");
        CANNOT
    }))
}

fn run(words: &[OsString]) -> Result<u8, String> {
    let out = &mut io::stdout().lock();
    let done = match args::command(words)? {
        Command::Check(cases, options) => check::run(&cases, options, out),
        Command::Explain(numbers) => question::print(&numbers, out),
        Command::Help => question::help(out),
    };
    match done {
        // whoever read our output has gone: there is nobody to tell
        Err(e) if e.kind() == ErrorKind::BrokenPipe => Ok(CANNOT),
        done => done.map_err(|e| e.to_string()),
    }
}
