//! Demand 3: the log replays, each operation took effect at most once, in an
//! order that agrees with time, and the flip bits tell the swaps.

use std::collections::HashMap;

use super::given::{Given, GivenRow, ADVANCE, COMPARE, READ};
use super::outcome::{Five, Ran};
use super::spans::Spans;
use super::Violation;

pub const FALSE: u64 = 0;
pub const TRUE: u64 = 1;
pub const FAIL: u64 = 2;
pub const VALUE_READ: u64 = 3;
/// Of an advance: "The answer is the value before, verdict 4 with that value"
/// (change request 6).
pub const VALUE_BEFORE: u64 = 4;

/// What is behind the largest value: "The sum goes round past 4,294,967,295 to
/// 0".
pub const ROUND: u64 = 4_294_967_296;

/// A log row of a successful swap, and so is an advance's: its swap "is a
/// successful swap for others' lost ones".
pub fn is_swap(five: &Five) -> bool {
    matches!(five.verdict, TRUE | VALUE_BEFORE)
}

/// The row of the file that a row of the log or of the answers names.
pub fn named_row<'g>(given: &'g Given, five: &Five) -> Result<&'g GivenRow, Violation> {
    let row = given.rows.get(five.row);
    row.ok_or_else(|| format!("there is no row {}", five.row))
}

/// The `run` line and the number of words are those of the file.
pub fn check_counts(given: &Given, ran: &Ran) -> Result<(), Violation> {
    let expected = [
        given.processes,
        given.words.len() as u64,
        given.rows.len() as u64,
        given.schedule.len() as u64,
    ];
    if ran.counts != expected {
        return Err(format!("the run line should give {expected:?}"));
    }
    let numbers = ran.words.iter().map(|word| word.number);
    if !numbers.eq(0..given.words.len() as u64) {
        return Err("the words are not told one by one, in order".to_string());
    }
    Ok(())
}

/// (a) Replay: carried out in the log's order on plain 32-bit words, every
/// operation gives the answer in the log, and the words end as told.
pub fn check_replay(given: &Given, ran: &Ran) -> Result<(), Violation> {
    let mut values: Vec<u64> = given.words.iter().map(|word| word.value).collect();
    for five in &ran.log {
        let row = named_row(given, five)?;
        let value = values
            .get_mut(row.word)
            .ok_or_else(|| format!("row {} names no word", five.row))?;
        replay(row, five, value)?;
    }
    let told = ran.words.iter().map(|word| word.value);
    if !told.eq(values.iter().copied()) {
        return Err(format!("the log leaves the values {values:?}"));
    }
    Ok(())
}

/// "Demand 3 reads kind 2 as adding at one stroke."
fn replay(row: &GivenRow, five: &Five, value: &mut u64) -> Result<(), Violation> {
    let left = match (row.kind, five.verdict) {
        (READ, VALUE_READ) if five.value == *value => Some(*value),
        (COMPARE, TRUE) if five.value == 0 && row.old == *value => Some(row.new),
        (COMPARE, FALSE) if five.value == 0 && row.old != *value => Some(*value),
        (ADVANCE, VALUE_BEFORE) if five.value == *value => Some((*value + row.new) % ROUND),
        _ => None,
    };
    let Some(left) = left else {
        return Err(format!(
            "row {} meets the value {value} in the log's order",
            five.row
        ));
    };
    *value = left;
    Ok(())
}

/// (e) The sum: for a word on which only advances succeed, "the final value is
/// the start value plus the amounts of the advances in the log, modulo 2^32",
/// whatever their order in the log.
pub fn check_sums(given: &Given, ran: &Ran) -> Result<(), Violation> {
    let swaps: Vec<&Five> = ran.log.iter().filter(|five| is_swap(five)).collect();
    for (number, (start, told)) in given.words.iter().zip(&ran.words).enumerate() {
        let mut sum = Some(start.value);
        for five in &swaps {
            let row = named_row(given, five)?;
            if row.word == number {
                let advances = five.verdict == VALUE_BEFORE;
                sum = sum.filter(|_| advances).map(|sum| sum + row.new);
            }
        }
        // None where a compare has succeeded, too.
        if sum.is_some_and(|sum| sum % ROUND != told.value) {
            return Err(format!(
                "the amounts do not make up the value of word {number}"
            ));
        }
    }
    Ok(())
}

/// (b) Once: each row at most once in the log and at most once in the
/// answers, with its own process; answers and log agree, and a failed
/// operation has no effect. So an advance that is told the value before has
/// added its amount exactly once.
pub fn check_once(given: &Given, ran: &Ran) -> Result<(), Violation> {
    let logged = by_row(given, &ran.log)?;
    let answered = by_row(given, &ran.answers)?;
    for (row, answer) in answered {
        let in_log = logged.get(&row).map(|five| (five.verdict, five.value));
        let agrees = match answer.verdict {
            FAIL => in_log.is_none() && answer.value == 0,
            _ => in_log == Some((answer.verdict, answer.value)),
        };
        if !agrees {
            return Err(format!("the answer of row {row} does not fit the log"));
        }
    }
    Ok(())
}

fn by_row<'r>(given: &Given, fives: &'r [Five]) -> Result<HashMap<usize, &'r Five>, Violation> {
    let mut rows = HashMap::new();
    for five in fives {
        if named_row(given, five)?.process != five.process {
            return Err(format!("row {} is another process's", five.row));
        }
        if rows.insert(five.row, five).is_some() {
            return Err(format!("row {} stands there twice", five.row));
        }
    }
    Ok(rows)
}

/// (c) Order: an operation that ended before another began comes first in the
/// log. It began at its third store.
pub fn check_order(ran: &Ran, spans: &Spans) -> Result<(), Violation> {
    // The earliest end among the operations further back in the log.
    let mut earliest_behind = u64::MAX;
    for five in ran.log.iter().rev() {
        let span = spans.of(five.row)?;
        if earliest_behind < span.began {
            return Err(format!(
                "row {} began at {}, but an operation that ended at {earliest_behind} \
                 comes behind it in the log",
                five.row, span.began
            ));
        }
        earliest_behind = earliest_behind.min(span.ended.unwrap_or(u64::MAX));
    }
    Ok(())
}

/// (d) The flip bits of each word are the start's, with bit p turned once for
/// each successful swap of process p on that word, advances included.
pub fn check_flip_bits(given: &Given, ran: &Ran) -> Result<(), Violation> {
    let mut flips: Vec<u64> = given.words.iter().map(|word| word.flips).collect();
    for five in ran.log.iter().filter(|five| is_swap(five)) {
        let word = named_row(given, five)?.word;
        if let (Some(flips), 0..=15) = (flips.get_mut(word), five.process) {
            *flips ^= 1 << five.process;
        }
    }
    let told = ran.words.iter().map(|word| word.flips);
    if !told.eq(flips.iter().copied()) {
        return Err(format!(
            "the swaps in the log leave the flip bits {flips:?}"
        ));
    }
    Ok(())
}
