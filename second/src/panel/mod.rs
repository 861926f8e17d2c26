//! `second panel`: the bench panel. It keeps the records, the words, the log
//! and the answers, lends them for one key at a time, and tells what changed.

mod changes;
mod line;

#[cfg(test)]
mod rebuilt_tests;
#[cfg(test)]
mod tests;

pub use line::{read as read_line, Line};

use std::fs;
use std::io::{self, BufRead, BufReader, BufWriter, Write};
use std::path::Path;

use crate::key::{key, Counts, Press, Record};
use crate::lines::{write_outcome, write_refusal};
use crate::machine::{Buffers, Ran, Refusal, RunFile};
use crate::Ending;

use changes::write_changes;

/// Positions end at 1,023 and a key adds at most one row to the log and one
/// to the answers, so there is always room for one more.
const ROW_NUMBERS: usize = 5 * 1024;

pub fn command(file: &Path) -> io::Result<Ending> {
    let file = fs::read(file)?;
    let mut keys = BufReader::new(io::stdin().lock());
    let mut out = BufWriter::new(io::stdout().lock());
    panel(&file, &mut keys, &mut out)?;
    Ok(Ending::Clean)
}

/// "A file that is refused by 1 to 12: the one line `refused N PLACE`, and
/// the program ends."
pub fn panel(file: &[u8], keys: &mut impl BufRead, out: &mut impl Write) -> io::Result<()> {
    match RunFile::read(file) {
        Ok(read) => Panel::begin(file, &read, out)?.take_lines(keys, out)?,
        Err(refusal) => write_refusal(out, refusal)?,
    }
    out.flush()
}

/// What the panel keeps from key to key.
#[derive(Clone)]
struct State {
    records: Vec<Record>,
    buffers: Buffers,
    counts: Counts,
}

struct Panel<'f> {
    file: &'f [u8],
    state: State,
    position: u32,
}

impl<'f> Panel<'f> {
    /// "first the header and the words that the file starts from"; "all idle"
    /// (change request 3). The schedule of the file is not carried out.
    fn begin(file: &'f [u8], read: &RunFile, out: &mut impl Write) -> io::Result<Panel<'f>> {
        let buffers = Buffers {
            words: read.words.iter().map(|word| word.number()).collect(),
            log: vec![0; ROW_NUMBERS],
            answers: vec![0; ROW_NUMBERS],
        };
        let nothing_done = Ran {
            processes: read.processes,
            words: read.words.len(),
            rows: read.rows.len(),
            schedule: read.schedule.len(),
            log_rows: 0,
            answer_rows: 0,
        };
        write_outcome(out, Ok(nothing_done), &buffers)?;
        Ok(Panel {
            file,
            state: State {
                records: vec![Record::AT_FIRST; read.processes],
                buffers,
                counts: Counts::default(),
            },
            position: 0,
        })
    }

    /// "A last line that no newline ends is a line like the others; with
    /// nothing in it, it is none."
    fn take_lines(&mut self, keys: &mut impl BufRead, out: &mut impl Write) -> io::Result<()> {
        let mut line = Vec::new();
        // Whoever types wants to see what has been done so far.
        out.flush()?;
        while keys.read_until(b'\n', &mut line)? > 0 {
            match read_line(line.strip_suffix(b"\n").unwrap_or(&line)) {
                Line::Nothing => {}
                Line::Key(byte) => self.press(byte, out)?,
                Line::NotAKey => writeln!(out, "not a key")?,
            }
            out.flush()?;
            line.clear();
        }
        Ok(())
    }

    /// "A key that is refused has one line more ...; nothing has changed and
    /// the position stays. A key that is carried out has the lines of what
    /// changed, ... and the position goes up by one".
    fn press(&mut self, byte: u8, out: &mut impl Write) -> io::Result<()> {
        let position = self.position;
        writeln!(out, "key {position} {byte:02x} {}", action_name(byte))?;
        let before = self.state.clone();
        match self.lend(byte) {
            Err(refusal) => write_refusal(out, refusal),
            Ok(counts) => {
                self.state.counts = counts;
                self.position += 1;
                write_changes(out, &before, &self.state)
            }
        }
    }

    fn lend(&mut self, byte: u8) -> Result<Counts, Refusal> {
        let State {
            records,
            buffers,
            counts,
        } = &mut self.state;
        let press = Press {
            byte,
            position: self.position,
            counts: *counts,
        };
        key(self.file, records, buffers, press)
    }
}

/// "ACTION is `step Q`, `crash Q` or `wake Q`, with Q the low four bits, where
/// the high four bits are 0, 1 or 2; `crash all` where they are 15; `none`
/// otherwise": also where the key is refused for its low bits.
fn action_name(byte: u8) -> String {
    let low = byte & 0x0F;
    match byte >> 4 {
        0 => format!("step {low}"),
        1 => format!("crash {low}"),
        2 => format!("wake {low}"),
        15 => "crash all".to_string(),
        _ => "none".to_string(),
    }
}
