//! What a key has changed, in the lines of the panel. They come from what
//! stands in the records and buffers before and after, so a wrong number
//! there shows.

use std::io::{self, Write};

use crate::key::{Answer, Record, Stage, Status};
use crate::lines::write_word;
use crate::machine::Store;
use crate::pieces::pieces;

use super::State;

/// The lines of what changed, "in this order"; `nothing` where there is none.
pub fn write_changes(out: &mut impl Write, before: &State, after: &State) -> io::Result<()> {
    let mut lines = Vec::new();
    write_processes(&mut lines, before, after)?;
    write_words(&mut lines, before, after)?;
    write_log_row(&mut lines, before, after)?;
    write_answer(&mut lines, before, after)?;
    if lines.is_empty() {
        writeln!(lines, "nothing")?;
    }
    out.write_all(&lines)
}

/// "The lines of process 0 come first, all seven kinds in the table's order,
/// then those of process 1, and so on."
fn write_processes(out: &mut impl Write, before: &State, after: &State) -> io::Result<()> {
    let pairs = before.records.iter().zip(&after.records);
    for (process, (then, now)) in pairs.enumerate() {
        for ((name, was), (_, is)) in told(then).iter().zip(told(now)) {
            if *was != is {
                writeln!(out, "process {process} {name} {is}")?;
            }
        }
    }
    Ok(())
}

/// All that the panel tells of a record, in the table's order.
fn told(record: &Record) -> [(&'static str, String); 7] {
    let bit = |bit: bool| u8::from(bit).to_string();
    [
        ("stage", stage_name(record.status).to_string()),
        ("row", row_name(record.open_row)),
        ("stored", answer_name(record.stored)),
        ("checkpoint", bit(record.checkpoint)),
        ("kept", bit(record.kept_bit)),
        ("kept value", record.kept_value.to_string()),
        ("begun", record.begun.to_string()),
    ]
}

/// "`N2` and `N3` (the first or the first two of the three stores that
/// announce a row are made)": the number is that of the store to come.
fn stage_name(status: Status) -> &'static str {
    match status {
        Status::Down => "down",
        Status::Idle => "idle",
        Status::Announcing(Store::ClearCheckpoint) => "N2",
        Status::Announcing(Store::OpenRow) => "N3",
        Status::AtWork(work) => match work.stage {
            Stage::A1 => "A1",
            Stage::A2 => "A2",
            Stage::A3 => "A3",
            Stage::A4 => "A4",
            Stage::A5 => "A5",
            Stage::A6 => "A6",
            Stage::V1 => "V1",
            Stage::V2 => "V2",
            Stage::V3 => "V3",
            Stage::V4 => "V4",
            Stage::V5 => "V5",
            Stage::V6 => "V6",
        },
    }
}

fn row_name(open_row: Option<usize>) -> String {
    open_row.map_or("none".to_string(), |number| number.to_string())
}

fn answer_name(stored: Option<Answer>) -> String {
    match stored {
        None => "none".to_string(),
        Some(Answer::False) => "false".to_string(),
        Some(Answer::True) => "true".to_string(),
        Some(Answer::Value(value)) => format!("value {value}"),
        Some(Answer::Was(value)) => format!("was {value}"),
    }
}

fn write_words(out: &mut impl Write, before: &State, after: &State) -> io::Result<()> {
    let pairs = before.buffers.words.iter().zip(&after.buffers.words);
    for (number, (was, is)) in pairs.enumerate() {
        if was != is {
            write_word(out, number, *is)?;
        }
    }
    Ok(())
}

/// "a row has entered the log, with PLACE rows in front of it": the first row
/// that is another one than before. An operation enters the log once, so the
/// row behind is never like the new one.
fn write_log_row(out: &mut impl Write, before: &State, after: &State) -> io::Result<()> {
    if after.counts.log == before.counts.log {
        return Ok(());
    }
    let then: Vec<[u32; 5]> = pieces(&before.buffers.log)
        .take(before.counts.log)
        .collect();
    let now = pieces(&after.buffers.log).take(after.counts.log);
    let is_new = |(place, row): &(usize, [u32; 5])| then.get(*place) != Some(row);
    if let Some((place, row)) = now.enumerate().find(is_new) {
        writeln!(out, "log {} at {place}", row_text(row))?;
    }
    Ok(())
}

fn write_answer(out: &mut impl Write, before: &State, after: &State) -> io::Result<()> {
    let rows = pieces(&after.buffers.answers).take(after.counts.answers);
    for row in rows.skip(before.counts.answers) {
        writeln!(out, "answer {}", row_text(row))?;
    }
    Ok(())
}

fn row_text([position, process, row, verdict, value]: [u32; 5]) -> String {
    format!("{position} {process} {row} {verdict} {value}")
}
