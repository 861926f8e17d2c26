//! The `sum` line: everything in the lent buffers must be what the outcome
//! lines tell, and what stood there before everywhere else.

use super::outcome::{FinalWord, Five, Ran, Told};
use super::Violation;
use crate::stream::Lengths;

pub fn check(lent: &Lengths, told: &Told, sum: u64) -> Result<(), Violation> {
    let (words, log, answers) = match told {
        Told::Refused { .. } => (Vec::new(), Vec::new(), Vec::new()),
        Told::Ran(ran) => (word_numbers(ran), numbers(&ran.log), numbers(&ran.answers)),
    };
    let mut expected = 1;
    add_buffer(&mut expected, &words, words_before(lent.words))?;
    add_buffer(&mut expected, &log, (274_726_912..).take(lent.log))?;
    add_buffer(
        &mut expected,
        &answers,
        (2_768_240_640..).take(lent.answers),
    )?;
    if sum == expected {
        Ok(())
    } else {
        Err(format!("the sum of the buffers should be {expected}"))
    }
}

/// A word is two numbers in the sum: its low 32 bits, which are the value, and
/// then its high 32 bits, the flip bits.
fn word_numbers(ran: &Ran) -> Vec<u64> {
    let two_numbers = |word: &FinalWord| [word.value, word.flips];
    ran.words.iter().flat_map(two_numbers).collect()
}

/// The words buffer before the run: its number i is 3,235,774,464 times 2 to
/// the 32nd, and 3,235,774,464 and i more. So few words are lent that the low
/// half never goes over.
fn words_before(length: usize) -> impl Iterator<Item = u64> {
    let low = (3_235_774_464..).take(length);
    low.flat_map(|low| [low, 3_235_774_464])
}

fn numbers(fives: &[Five]) -> Vec<u64> {
    let five_numbers = |five: &Five| {
        let row = five.row as u64;
        [five.position, five.process, row, five.verdict, five.value]
    };
    fives.iter().flat_map(five_numbers).collect()
}

/// Adds a lent buffer to the sum: what was written from the front, then what
/// is left of what was there before the run.
fn add_buffer(
    sum: &mut u64,
    written: &[u64],
    mut before: impl Iterator<Item = u64>,
) -> Result<(), Violation> {
    let mut add = |number: u64| *sum = (*sum * 1_000_003 + number) % 4_294_967_291;
    for number in written {
        if before.next().is_none() {
            return Err("more is told than the lent buffers hold".to_string());
        }
        add(*number);
    }
    before.for_each(add);
    Ok(())
}
