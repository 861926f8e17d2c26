//! `second`: an independent second program for the machine of document 01.
//!
//! "Other cases are run and compared with an independent second program."
//! This is that program. It was written from document 01, the change requests
//! and the description of the panel alone; comments quote the sentence that a
//! piece of code renders.

#![forbid(unsafe_code)]

mod checker;
mod compare;
mod generate;
mod hex;
mod key;
mod key_text;
mod keys;
mod lines;
mod machine;
mod outcome_text;
mod panel;
mod panel_kinds;
mod pieces;
mod run;
mod stream;
mod sweep;
mod unrun;

#[cfg(test)]
mod bench_cases;
#[cfg(test)]
mod every_schedule;

use std::env;
use std::ffi::{OsStr, OsString};
use std::io;
use std::path::Path;
use std::process::ExitCode;

use generate::Flavour;

const USAGE: &str = "usage:
  second run < FILE
  second generate SEED COUNT [FLAVOUR] > STREAM
    of any, short, few, many, quiet, reads, few2, many2, quiet2, reads2,
    advance2, mixed2 and short-advance2
  second unrun < STREAM > STREAM
  second sweep < STREAM > OUTCOMES
  second compare STREAM OUTCOMES_A OUTCOMES_B
  second check STREAM OUTCOMES
  second panel FILE < KEYS
  second keys < FILE > KEYS
  second key-text SEED < FILE > KEYS
  second panel-kinds < TEXTS";

/// How a subcommand ended, when reading and writing went well.
#[derive(Clone, Copy, PartialEq, Eq)]
pub enum Ending {
    /// Nothing to object to: exit status 0.
    Clean,
    /// A difference or a violation was found and printed: exit status 1.
    Objection,
}

fn main() -> ExitCode {
    // `args_os`, since `args` panics on an argument that is not Unicode.
    let arguments: Vec<OsString> = env::args_os().skip(1).collect();
    match dispatch(&arguments) {
        Some(Ok(Ending::Clean)) => ExitCode::SUCCESS,
        Some(Ok(Ending::Objection)) => ExitCode::from(1),
        Some(Err(error)) => complain(&error.to_string()),
        None => complain(USAGE),
    }
}

/// Carries out the subcommand; `None` if the arguments name none.
fn dispatch(arguments: &[OsString]) -> Option<io::Result<Ending>> {
    let (name, rest) = arguments.split_first()?;
    match (name.to_str()?, rest) {
        ("run", []) => Some(run::command()),
        ("generate", [seed, count]) => Some(generate::command(
            number(seed)?,
            number(count)?,
            Flavour::Any,
        )),
        ("generate", [seed, count, flavour]) => Some(generate::command(
            number(seed)?,
            number(count)?,
            Flavour::named(flavour.to_str()?)?,
        )),
        ("unrun", []) => Some(unrun::command()),
        ("sweep", []) => Some(sweep::command()),
        ("compare", [stream, a, b]) => Some(compare::command(
            Path::new(stream),
            Path::new(a),
            Path::new(b),
        )),
        ("check", [stream, outcomes]) => {
            Some(checker::command(Path::new(stream), Path::new(outcomes)))
        }
        (name, rest) => dispatch_panel(name, rest),
    }
}

/// The subcommands of change request 3.
fn dispatch_panel(name: &str, rest: &[OsString]) -> Option<io::Result<Ending>> {
    match (name, rest) {
        ("panel", [file]) => Some(panel::command(Path::new(file))),
        ("keys", []) => Some(keys::command()),
        ("key-text", [seed]) => Some(key_text::command(number(seed)?)),
        ("panel-kinds", []) => Some(panel_kinds::command()),
        _ => None,
    }
}

fn number(argument: &OsStr) -> Option<u64> {
    argument.to_str()?.parse().ok()
}

/// Says on standard error what is wrong; exit status 2. A closed standard
/// error is no reason to fail otherwise, hence no `eprintln!`.
fn complain(message: &str) -> ExitCode {
    let _ = io::Write::write_all(&mut io::stderr(), format!("second: {message}\n").as_bytes());
    ExitCode::from(2)
}
