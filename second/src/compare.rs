//! `second compare`: two outcome texts of one stream, held against each other
//! record by record.

use std::fs::File;
use std::io::{self, BufRead, BufReader, Write};
use std::path::Path;

use crate::hex::hex;
use crate::outcome_text::{is_whole, next_outcome};
use crate::stream::Record;
use crate::Ending;

pub fn command(stream: &Path, a: &Path, b: &Path) -> io::Result<Ending> {
    let open = |path: &Path| File::open(path).map(BufReader::new);
    compare(
        &mut open(stream)?,
        &mut open(a)?,
        &mut open(b)?,
        &mut io::stdout().lock(),
    )
}

fn compare(
    stream: &mut impl BufRead,
    a: &mut impl BufRead,
    b: &mut impl BufRead,
    out: &mut impl Write,
) -> io::Result<Ending> {
    let mut agreeing = 0u64;
    while let Some(record) = Record::read(stream)? {
        let outcome_a = next_outcome(a)?;
        let outcome_b = next_outcome(b)?;
        // A record without a whole outcome is one to show, even if both texts
        // break off at the same byte.
        if outcome_a != outcome_b || !is_whole(&outcome_a) {
            writeln!(out, "record {agreeing} (counted from 0) differs")?;
            write_side(out, "a", &outcome_a)?;
            write_side(out, "b", &outcome_b)?;
            writeln!(out, "lent {}", record.lengths)?;
            writeln!(out, "file {}", hex(&record.file))?;
            return Ok(Ending::Objection);
        }
        agreeing += 1;
    }
    if !next_outcome(a)?.is_empty() || !next_outcome(b)?.is_empty() {
        writeln!(out, "more outcomes than the {agreeing} records")?;
        return Ok(Ending::Objection);
    }
    writeln!(out, "{agreeing} records agree")?;
    Ok(Ending::Clean)
}

fn write_side(out: &mut impl Write, name: &str, outcome: &[u8]) -> io::Result<()> {
    writeln!(out, "outcome {name}:")?;
    out.write_all(outcome)?;
    if is_whole(outcome) {
        return Ok(());
    }
    writeln!(out, "(the text ends here)")
}

#[cfg(test)]
mod tests {
    use super::*;
    use crate::stream::Lengths;

    const TWO: &str = "refused 1 0\nsum 1\nrefused 1 0\nsum 1\n";

    fn compared(a: &str, b: &str) -> (bool, String) {
        let record = Record {
            file: vec![0x53, 0x0C],
            lengths: Lengths {
                words: 0,
                log: 0,
                answers: 0,
            },
        };
        let mut stream = Vec::new();
        record.write(&mut stream).unwrap();
        record.write(&mut stream).unwrap();
        let mut out = Vec::new();
        let ending = compare(
            &mut stream.as_slice(),
            &mut a.as_bytes(),
            &mut b.as_bytes(),
            &mut out,
        );
        let clean = ending.unwrap() == Ending::Clean;
        (clean, String::from_utf8(out).unwrap())
    }

    #[test]
    fn equal_texts_agree() {
        assert_eq!(compared(TWO, TWO), (true, "2 records agree\n".to_string()));
    }

    #[test]
    fn the_first_difference_is_shown_with_its_file() {
        let other = "refused 1 0\nsum 1\nrefused 1 0\nsum 2\n";
        let (clean, text) = compared(TWO, other);
        assert!(!clean);
        assert!(text.starts_with("record 1 (counted from 0) differs\n"));
        assert!(text.contains("outcome a:\nrefused 1 0\nsum 1\n"));
        assert!(text.contains("outcome b:\nrefused 1 0\nsum 2\n"));
        assert!(text.ends_with("file 53 0C\n"));
    }

    #[test]
    fn a_missing_or_superfluous_outcome_is_a_difference() {
        let one = "refused 1 0\nsum 1\n";
        let three = TWO.to_string() + one;
        let cut = &TWO[..TWO.len() - 1];
        assert!(!compared(TWO, cut).0);
        assert!(!compared(cut, cut).0);
        assert!(!compared(TWO, one).0);
        assert!(!compared(one, one).0);
        assert!(!compared(&three, &three).0);
    }
}
