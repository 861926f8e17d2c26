//! `second keys`: the schedule of a run file, as keys for the panel.

use std::io::{self, BufWriter, ErrorKind, Read, Write};

use crate::machine::{Refusal, RunFile};
use crate::Ending;

pub fn command() -> io::Result<Ending> {
    let mut file = Vec::new();
    io::stdin().lock().read_to_end(&mut file)?;
    let mut out = BufWriter::new(io::stdout().lock());
    for byte in schedule(&file).map_err(no_schedule)? {
        writeln!(out, "{byte:02x}")?;
    }
    out.flush()?;
    Ok(Ending::Clean)
}

/// "The schedule is the part of the file that begins after the last row", and
/// behind it stands "nothing more".
pub fn schedule(file: &[u8]) -> Result<&[u8], Refusal> {
    let length = RunFile::read(file)?.schedule.len();
    Ok(&file[file.len() - length..])
}

/// A refused file has no schedule that could be trusted to be one.
fn no_schedule(refusal: Refusal) -> io::Error {
    let (number, place) = (refusal.number(), refusal.place);
    let message = format!("the file is refused: {number} at {place}");
    io::Error::new(ErrorKind::InvalidData, message)
}

#[cfg(test)]
mod tests {
    use super::*;

    /// One process, one word, one row, S bytes of schedule.
    fn file(schedule: &[u8]) -> Vec<u8> {
        let mut file = b"SWR\x01\x00\x01\x01\x01\x00".to_vec();
        file.extend([schedule.len() as u8, 0]);
        file.extend([7, 0, 0, 0, 0, 1, 0, 0, 7, 0, 8, 0]);
        file.extend(schedule);
        file
    }

    #[test]
    fn the_schedule_is_what_stands_after_the_last_row() {
        for bytes in [&[][..], &[0x20], &[0, 0x10, 0x20, 0xF0, 0]] {
            assert_eq!(schedule(&file(bytes)).unwrap(), bytes);
        }
    }

    #[test]
    fn a_refused_file_has_none() {
        let refusal = schedule(&file(&[0, 0x30])).unwrap_err();
        assert_eq!((refusal.number(), refusal.place), (12, 24));
        let said = no_schedule(refusal).to_string();
        assert_eq!(said, "the file is refused: 12 at 24");
    }
}
