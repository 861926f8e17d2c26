//! The positions of the log and of the answers, as far as they can be judged
//! from outside.

use std::collections::HashMap;

use super::demands::{is_swap, named_row, FALSE, VALUE_BEFORE};
use super::given::Given;
use super::outcome::{Five, Ran};
use super::spans::Spans;
use super::Violation;

/// Log positions never decrease and are below S. The position is that of a
/// step of the row's own process (its A1 or A4), or, for a lost swap, that of
/// the swap to which it lost.
pub fn check_log(given: &Given, ran: &Ran) -> Result<(), Violation> {
    let never_decrease = ran.log.is_sorted_by_key(|five| five.position);
    let length = given.schedule.len() as u64;
    if !never_decrease || ran.log.iter().any(|five| five.position >= length) {
        return Err("the log's positions decrease or leave the schedule".to_string());
    }
    for (five, lost_to) in ran.log.iter().zip(lost_swaps(given, ran)) {
        if lost_to.is_none() && !given.is_step_of(five.position, five.process) {
            return Err(format!(
                "the log position of row {} is no step of its process",
                five.row
            ));
        }
    }
    Ok(())
}

/// For each log row that is a lost swap, the swap to which it lost: a false
/// whose position is that of a swap on the same word earlier in the log.
pub fn lost_swaps<'r>(given: &Given, ran: &'r Ran) -> Vec<Option<&'r Five>> {
    let mut swaps: HashMap<usize, &Five> = HashMap::new();
    let lost_to = |five: &'r Five| {
        let row = named_row(given, five).ok()?;
        if is_swap(five) {
            swaps.insert(row.word, five);
        }
        // Positions never decrease, so the latest swap is the one to ask.
        let latest = swaps.get(&row.word).copied();
        latest.filter(|swap| five.verdict == FALSE && swap.position == five.position)
    };
    ran.log.iter().map(lost_to).collect()
}

/// One byte gives at most one answer, in the order of the bytes, and it is a
/// step of the process that is answered.
pub fn check_answers(given: &Given, ran: &Ran) -> Result<(), Violation> {
    let positions = ran.answers.iter().map(|five| five.position);
    if !positions.is_sorted_by(|earlier, later| earlier < later) {
        return Err("the answers' positions do not increase".to_string());
    }
    for five in &ran.answers {
        if !given.is_step_of(five.position, five.process) {
            return Err(format!(
                "the answer position of row {} is no step of its process",
                five.row
            ));
        }
    }
    Ok(())
}

/// An advance enters the log at its swap, which is the last step of a round.
/// One that has crashed goes into no further round.
pub fn check_advances(ran: &Ran, spans: &Spans) -> Result<(), Violation> {
    for five in ran.log.iter().filter(|five| five.verdict == VALUE_BEFORE) {
        if !spans.of(five.row)?.advance.swapped {
            return Err(format!(
                "row {} is at the end of no round at {}",
                five.row, five.position
            ));
        }
    }
    Ok(())
}

/// An operation takes effect between its beginning and its end: behind its
/// third store and before its answer.
pub fn check_between(ran: &Ran, spans: &Spans) -> Result<(), Violation> {
    for five in &ran.log {
        let span = spans.of(five.row)?;
        if five.position <= span.began {
            return Err(format!("row {} took effect before it began", five.row));
        }
        if span.ended.is_some_and(|end| end <= five.position) {
            return Err(format!("row {} took effect after its answer", five.row));
        }
    }
    Ok(())
}
