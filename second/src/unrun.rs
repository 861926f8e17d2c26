//! `second unrun`: the same stream with answers buffers that are too short, so
//! that every check is made and nothing is run. What a program takes for it
//! is what it takes for all that is not running and printing.

use std::io::{self, BufRead, BufReader, BufWriter, Write};

use crate::stream::Record;
use crate::Ending;

pub fn command() -> io::Result<Ending> {
    let mut out = BufWriter::new(io::stdout().lock());
    unrun(&mut BufReader::new(io::stdin().lock()), &mut out)?;
    out.flush()?;
    Ok(Ending::Clean)
}

/// One number less is enough where a record lends just what its file needs.
fn unrun(stream: &mut impl BufRead, out: &mut impl Write) -> io::Result<()> {
    while let Some(mut record) = Record::read(stream)? {
        record.lengths.answers = record.lengths.answers.saturating_sub(1);
        record.write(out)?;
    }
    Ok(())
}

#[cfg(test)]
mod tests {
    use super::*;
    use crate::stream::Lengths;

    #[test]
    fn one_number_less_is_lent_for_the_answers() {
        let with = |answers| Record {
            file: vec![1],
            lengths: Lengths {
                words: 2,
                log: 3,
                answers,
            },
        };
        let mut stream = Vec::new();
        with(5).write(&mut stream).unwrap();
        let mut out = Vec::new();
        unrun(&mut stream.as_slice(), &mut out).unwrap();
        assert_eq!(Record::read(&mut out.as_slice()).unwrap(), Some(with(4)));
    }
}
