//! `second sweep`: the outcome of every record of a stream, and a sum over
//! everything that stands in the lent buffers afterwards.

use std::io::{self, BufReader, BufWriter, Write};

use crate::lines::write_outcome;
use crate::machine::{self, Buffers};
use crate::stream::{Lengths, Record};
use crate::Ending;

/// What number 0 of each buffer is before a run; number i is that plus i. So
/// a number that a run should have left alone is missed wherever it stood.
const WORDS_FILL: u64 = 0xC0DE_0000_C0DE_0000;
const LOG_FILL: u32 = 0x1060_0000;
const ANSWERS_FILL: u32 = 0xA500_0000;

const FACTOR: u64 = 1_000_003;
/// The largest prime below 2 to the 32nd.
const MODULUS: u64 = 4_294_967_291;

pub fn command() -> io::Result<Ending> {
    let mut stream = BufReader::new(io::stdin().lock());
    let mut out = BufWriter::new(io::stdout().lock());
    while let Some(record) = Record::read(&mut stream)? {
        print_record(&record, &mut out)?;
    }
    out.flush()?;
    Ok(Ending::Clean)
}

pub fn print_record(record: &Record, out: &mut impl Write) -> io::Result<()> {
    let mut buffers = filled(record.lengths);
    let result = machine::run(&record.file, &mut buffers);
    write_outcome(out, result, &buffers)?;
    writeln!(out, "sum {}", sum(&buffers))
}

fn filled(lengths: Lengths) -> Buffers {
    let fill = |first: u32, length: usize| (first..).take(length).collect();
    Buffers {
        words: (WORDS_FILL..).take(lengths.words).collect(),
        log: fill(LOG_FILL, lengths.log),
        answers: fill(ANSWERS_FILL, lengths.answers),
    }
}

/// c starts at 1; for each number x of the words, the log and the answers, in
/// order, c becomes (c × 1,000,003 + x) mod 4,294,967,291. A word counts as two
/// numbers: its low 32 bits, then its high 32 bits.
fn sum(buffers: &Buffers) -> u64 {
    let Buffers {
        words,
        log,
        answers,
    } = buffers;
    let add = |c: u64, x: u64| (c * FACTOR + x) % MODULUS;
    let words = words
        .iter()
        .fold(1, |c, word| add(add(c, word & 0xFFFF_FFFF), word >> 32));
    let rows = log.iter().chain(answers);
    rows.fold(words, |c, x| add(c, u64::from(*x)))
}

#[cfg(test)]
mod tests {
    use super::*;

    #[test]
    fn the_sum_of_buffers_worked_out_by_hand() {
        let of = |words: Vec<u64>, log: Vec<u32>, answers: Vec<u32>| {
            sum(&Buffers {
                words,
                log,
                answers,
            })
        };
        assert_eq!(of(vec![], vec![], vec![]), 1);
        assert_eq!(of(vec![], vec![5], vec![]), 1_000_008);
        // 1,000,008 × 1,000,003 + 7 = 1,000,011,000,031, which is 232 times
        // the modulus and 3,578,588,519 over.
        assert_eq!(of(vec![], vec![5], vec![7]), 3_578_588_519);
        // A word is two numbers, the low one first.
        assert_eq!(of(vec![0x7_0000_0005], vec![], vec![]), 3_578_588_519);
        // 1,000,003 × 1,000,003 = 1,000,006,000,009, which is 232 times the
        // modulus and 3,573,588,497 over; and 1 × 2 to the 31st more.
        assert_eq!(of(vec![0], vec![], vec![]), 3_573_588_497);
        assert_eq!(of(vec![1 << 63], vec![], vec![]), 1_426_104_854);
    }

    #[test]
    fn a_refusal_leaves_the_fill_untouched() {
        let lengths = Lengths {
            words: 2,
            log: 1,
            answers: 1,
        };
        let record = Record {
            file: vec![],
            lengths,
        };
        let mut out = Vec::new();
        print_record(&record, &mut out).unwrap();
        let untouched = Buffers {
            words: vec![13_897_545_503_347_703_808, 13_897_545_503_347_703_809],
            log: vec![274_726_912],
            answers: vec![2_768_240_640],
        };
        let expected = format!("refused 1 0\nsum {}\n", sum(&untouched));
        assert_eq!(String::from_utf8(out).unwrap(), expected);
    }

    /// Every bit of every word, log and answer number is seen.
    #[test]
    fn no_bit_is_missing_in_the_sum() {
        let lengths = Lengths {
            words: 3,
            log: 2,
            answers: 2,
        };
        let before = filled(lengths);
        for bit in 0..64 {
            for word in 0..3 {
                let mut after = before.clone();
                after.words[word] ^= 1 << bit;
                assert_ne!(sum(&after), sum(&before));
            }
        }
        for bit in 0..32 {
            for at in 0..2 {
                let (mut log, mut answers) = (before.clone(), before.clone());
                log.log[at] ^= 1 << bit;
                answers.answers[at] ^= 1 << bit;
                assert_ne!(sum(&log), sum(&before));
                assert_ne!(sum(&answers), sum(&before));
            }
        }
    }
}
