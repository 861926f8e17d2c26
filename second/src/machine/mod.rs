//! The machine of document 01: it "runs a schedule of steps, crashes and
//! wakings over shared words that survive a crash". Start is the three steps
//! of change request 1, refusal 9 has the place of change request 2, values
//! have the 32 bits of change request 5, a row may be an advance (change
//! request 6), and idle crashes and wakes are refused (change request 7).
//!
//! The way of a run: [`run_file`] reads and checks the file (refusals 1 to
//! 12, and then 16), [`lending`] checks the buffers (13 to 15) and writes the
//! outcome into them, and [`carry_out`] does the work in between on its own
//! structures.
//! [`crate::key`] carries out one byte alone, over what a panel lends.

mod action;
mod carry_out;
mod idle;
mod lending;
mod log;
mod process;
mod refusal;
mod row;
mod run_file;
mod version;
mod word;

pub use action::Action;
pub use lending::{run, Buffers, Ran};
pub use log::{Entry, Verdict};
pub use process::Store;
pub use refusal::{refuse_if, Cause, Refusal};
pub use row::{Operation, Row};
pub use run_file::RunFile;
pub use version::{Version, LONGEST_SCHEDULE, MOST_PROCESSES, MOST_ROWS, MOST_WORDS};
pub use word::Word;

#[cfg(test)]
mod advance_tests;
#[cfg(test)]
mod announcement_tests;
#[cfg(test)]
mod refusal_tests;
#[cfg(test)]
mod version_2_tests;
