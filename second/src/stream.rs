//! A stream of run files with the lengths of the buffers to lend.
//!
//! A record: four little-endian 32-bit numbers (file length, then the lengths
//! of the words, log and answers buffers), then the bytes of the file.

use std::fmt;
use std::io::{self, BufRead, ErrorKind, Write};

/// Limits of a record. They keep a damaged stream from asking for gigabytes.
/// The longest file that need not be refused has 7,307 bytes.
pub const LONGEST_FILE: usize = 8_000;
pub const MOST_WORDS: usize = 40;
pub const MOST_LOG: usize = 5_200;
pub const MOST_ANSWERS: usize = 5_200;

#[derive(Clone, Debug, PartialEq, Eq)]
pub struct Record {
    pub file: Vec<u8>,
    pub lengths: Lengths,
}

/// How many numbers are lent in each buffer.
#[derive(Clone, Copy, Debug, PartialEq, Eq)]
pub struct Lengths {
    pub words: usize,
    pub log: usize,
    pub answers: usize,
}

impl fmt::Display for Lengths {
    fn fmt(&self, out: &mut fmt::Formatter) -> fmt::Result {
        let Lengths {
            words,
            log,
            answers,
        } = self;
        write!(out, "words {words}, log {log}, answers {answers}")
    }
}

impl Record {
    pub fn write(&self, out: &mut impl Write) -> io::Result<()> {
        let Lengths {
            words,
            log,
            answers,
        } = self.lengths;
        for length in [self.file.len(), words, log, answers] {
            let length = u32::try_from(length).map_err(|_| invalid("a record is too long"))?;
            out.write_all(&length.to_le_bytes())?;
        }
        out.write_all(&self.file)
    }

    /// The next record, or none at the end of the stream. Only between two
    /// records may the stream end.
    pub fn read(stream: &mut impl BufRead) -> io::Result<Option<Record>> {
        if stream.fill_buf()?.is_empty() {
            return Ok(None);
        }
        let length = read_length(stream, LONGEST_FILE)?;
        let lengths = Lengths {
            words: read_length(stream, MOST_WORDS)?,
            log: read_length(stream, MOST_LOG)?,
            answers: read_length(stream, MOST_ANSWERS)?,
        };
        let mut file = vec![0; length];
        stream.read_exact(&mut file)?;
        Ok(Some(Record { file, lengths }))
    }
}

fn read_length(stream: &mut impl BufRead, most: usize) -> io::Result<usize> {
    let mut bytes = [0; 4];
    stream.read_exact(&mut bytes)?;
    usize::try_from(u32::from_le_bytes(bytes))
        .ok()
        .filter(|length| *length <= most)
        .ok_or_else(|| invalid("the stream has a length over its limit"))
}

fn invalid(message: &str) -> io::Error {
    io::Error::new(ErrorKind::InvalidData, message)
}

#[cfg(test)]
mod tests {
    use super::*;

    fn record() -> Record {
        Record {
            file: vec![1, 2, 3],
            lengths: Lengths {
                words: 4,
                log: 300,
                answers: 6,
            },
        }
    }

    #[test]
    fn a_record_comes_back_as_it_was_written() {
        let mut bytes = Vec::new();
        record().write(&mut bytes).unwrap();
        assert_eq!(
            bytes,
            [3, 0, 0, 0, 4, 0, 0, 0, 44, 1, 0, 0, 6, 0, 0, 0, 1, 2, 3]
        );
        let mut stream = bytes.as_slice();
        assert_eq!(Record::read(&mut stream).unwrap(), Some(record()));
        assert_eq!(Record::read(&mut stream).unwrap(), None);
    }

    #[test]
    fn a_stream_cut_within_a_record_or_over_a_limit_is_an_error() {
        let mut bytes = Vec::new();
        record().write(&mut bytes).unwrap();
        for length in 1..bytes.len() {
            assert!(Record::read(&mut &bytes[..length]).is_err());
        }
        assert!(Record::read(&mut [0xFF; 400].as_slice()).is_err());
    }
}
