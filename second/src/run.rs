//! `second run`: "a program that reads one run file from standard input and
//! prints the outcome".

use std::io::{self, BufWriter, Read, Write};

use crate::lines::write_outcome;
use crate::machine::{self, Buffers};
use crate::Ending;

/// Buffers long enough for every file that is not refused by 1 to 12: W is at
/// most 16 and S at most 1,024.
const WORDS: usize = 16;
const ROW_NUMBERS: usize = 5 * 1024;

pub fn command() -> io::Result<Ending> {
    let mut file = Vec::new();
    io::stdin().lock().read_to_end(&mut file)?;
    let mut out = BufWriter::new(io::stdout().lock());
    print_run(&file, &mut out)?;
    out.flush()?;
    Ok(Ending::Clean)
}

pub fn print_run(file: &[u8], out: &mut impl Write) -> io::Result<()> {
    let mut buffers = Buffers {
        words: vec![0; WORDS],
        log: vec![0; ROW_NUMBERS],
        answers: vec![0; ROW_NUMBERS],
    };
    let result = machine::run(file, &mut buffers);
    write_outcome(out, result, &buffers)
}
