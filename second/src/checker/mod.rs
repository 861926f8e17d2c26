//! `second check`: holds every outcome against demand 3, that the log tells a
//! true story of the run, without running anything.
//!
//! This module shares no code with the machine: it reads the run file and the
//! outcome lines in its own way and knows nothing of stages, only that an
//! operation begins with its third store and that an advance tries in rounds of
//! four steps. What it demands is what can be seen from outside: the file, the
//! log, the answers and the final words. Of the refusals it judges the places
//! of 9, 11 and 16, so that it can count them by what is wrong and by version.

mod demands;
mod fields;
mod given;
mod idle;
mod outcome;
mod positions;
mod spans;
mod sum;
mod swaps;
mod tally;

#[cfg(test)]
mod tests;

use std::fs::File;
use std::io::{self, BufRead, BufReader, Write};
use std::path::Path;

use crate::hex::hex;
use crate::outcome_text::next_outcome;
use crate::stream::Record;
use crate::Ending;

use given::{Given, Layout};
use outcome::{Outcome, Ran, Told};
use spans::Spans;
use tally::Tally;

/// What is wrong with an outcome, in words.
type Violation = String;

pub fn command(stream: &Path, outcomes: &Path) -> io::Result<Ending> {
    let mut stream = BufReader::new(File::open(stream)?);
    let mut outcomes = BufReader::new(File::open(outcomes)?);
    check(&mut stream, &mut outcomes, &mut io::stdout().lock())
}

pub fn check(
    stream: &mut impl BufRead,
    outcomes: &mut impl BufRead,
    out: &mut impl Write,
) -> io::Result<Ending> {
    let mut tally = Tally::default();
    let mut checked = 0u64;
    while let Some(record) = Record::read(stream)? {
        let text = next_outcome(outcomes)?;
        if let Err(violation) = check_record(&record, &text, &mut tally) {
            writeln!(out, "record {checked} (counted from 0): {violation}")?;
            out.write_all(&text)?;
            writeln!(out, "lent {}", record.lengths)?;
            writeln!(out, "file {}", hex(&record.file))?;
            return Ok(Ending::Objection);
        }
        checked += 1;
    }
    if !next_outcome(outcomes)?.is_empty() {
        writeln!(out, "more outcomes than the {checked} records")?;
        return Ok(Ending::Objection);
    }
    writeln!(out, "{checked} records checked, no violation")?;
    report_kinds(&tally, out)
}

fn report_kinds(tally: &Tally, out: &mut impl Write) -> io::Result<Ending> {
    for kind in tally.kinds() {
        writeln!(out, "{} {}", kind.name, kind.count)?;
    }
    let mut ending = Ending::Clean;
    for kind in tally.kinds().iter().filter(|kind| kind.is_missing()) {
        writeln!(out, "never met: {}", kind.name)?;
        ending = Ending::Objection;
    }
    Ok(ending)
}

fn check_record(record: &Record, text: &[u8], tally: &mut Tally) -> Result<(), Violation> {
    let Outcome { told, sum } = Outcome::read(text)?;
    sum::check(&record.lengths, &told, sum)?;
    match told {
        Told::Refused { number, place } => {
            if place > record.file.len() {
                return Err(format!("the place {place} is not in the file"));
            }
            let fault = match number {
                9 | 11 => fields::fault_at(&record.file, number, place)?,
                16 => Some(idle::idle_at(&record.file, place)?.to_string()),
                _ => None,
            };
            tally.refused(number, fault, Layout::of(&record.file))?;
            if matches!(number, 13..=15) {
                idle::check_none(&Given::read(&record.file)?)?;
            }
            Ok(())
        }
        Told::Ran(ran) => {
            let given = Given::read(&record.file)?;
            let spans = check_run(&given, &ran)?;
            tally.ran(&given, &ran, &spans);
            Ok(())
        }
    }
}

fn check_run(given: &Given, ran: &Ran) -> Result<Spans, Violation> {
    idle::check_none(given)?;
    demands::check_counts(given, ran)?;
    demands::check_replay(given, ran)?;
    demands::check_sums(given, ran)?;
    demands::check_once(given, ran)?;
    demands::check_flip_bits(given, ran)?;
    positions::check_log(given, ran)?;
    positions::check_answers(given, ran)?;
    let spans = Spans::follow(given, ran)?;
    positions::check_advances(ran, &spans)?;
    demands::check_order(ran, &spans)?;
    positions::check_between(ran, &spans)?;
    Ok(spans)
}
