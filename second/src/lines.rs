//! The lines of an outcome. They are written from what stands in the lent
//! buffers after the run, so a wrong number in a buffer shows.

use std::io::{self, Write};

use crate::machine::{Buffers, Ran, Refusal};
use crate::pieces::pieces;

pub fn write_outcome(
    out: &mut impl Write,
    result: Result<Ran, Refusal>,
    buffers: &Buffers,
) -> io::Result<()> {
    match result {
        Ok(ran) => write_run(out, &ran, buffers),
        Err(refusal) => write_refusal(out, refusal),
    }
}

/// "A refusal prints only `refused`, number, place."
pub fn write_refusal(out: &mut impl Write, refusal: Refusal) -> io::Result<()> {
    writeln!(out, "refused {} {}", refusal.number(), refusal.place)
}

/// "First comes `run`, P, W, rows, S. Then for each word, in order, a line of
/// `word`, number, value, flip bits as one number. Then the log rows and the
/// answer rows."
fn write_run(out: &mut impl Write, ran: &Ran, buffers: &Buffers) -> io::Result<()> {
    let Ran {
        processes,
        words,
        rows,
        schedule,
        ..
    } = ran;
    writeln!(out, "run {processes} {words} {rows} {schedule}")?;
    for (number, word) in buffers.words.iter().take(ran.words).enumerate() {
        write_word(out, number, *word)?;
    }
    write_rows(out, "log", &buffers.log, ran.log_rows)?;
    write_rows(out, "answer", &buffers.answers, ran.answer_rows)
}

/// The value is the word's low 32 bits, and the flip bits are all the others.
pub fn write_word(out: &mut impl Write, number: usize, word: u64) -> io::Result<()> {
    writeln!(out, "word {number} {} {}", word & 0xFFFF_FFFF, word >> 32)
}

fn write_rows(out: &mut impl Write, name: &str, buffer: &[u32], rows: usize) -> io::Result<()> {
    for [position, process, row, verdict, value] in pieces(buffer).take(rows) {
        writeln!(out, "{name} {position} {process} {row} {verdict} {value}")?;
    }
    Ok(())
}
