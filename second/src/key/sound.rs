//! Refusal 21: what of a lent record no run comes to. Every condition of the
//! request is a function of its own.

use crate::machine::{Operation, Row};

use super::record::{Answer, Record, Stage, Status, Work};

/// The numbers of a process's rows, in the order in which it begins them.
pub fn own_rows(rows: &[Row], process: usize) -> impl Iterator<Item = usize> + '_ {
    let numbered = rows.iter().enumerate();
    numbered.filter_map(move |(number, row)| (row.process == process).then_some(number))
}

/// Whether no condition of 21 holds of the record of this process.
pub fn is_sound(record: &Record, process: usize, rows: &[Row]) -> bool {
    let own: Vec<usize> = own_rows(rows, process).collect();
    !(begun_too_many(record, &own)
        || open_row_is_not_the_last_begun(record, &own)
        || open_row_too_early(record)
        || no_open_row_at_a_later_stage(record)
        || announcing_with_no_row_left(record, &own)
        || no_answer(record)
        || stage_or_answer_of_another_kind(record, rows))
}

/// "more rows begun than its process has"
fn begun_too_many(record: &Record, own: &[usize]) -> bool {
    record.begun > own.len()
}

/// "an open row that is not the last it began": one that has begun none has
/// no last one, and then no row can be open.
fn open_row_is_not_the_last_begun(record: &Record, own: &[usize]) -> bool {
    let last_begun = record.begun.checked_sub(1).and_then(|last| own.get(last));
    record.open_row.is_some() && record.open_row != last_begun.copied()
}

/// "an open row while idle or announcing"
fn open_row_too_early(record: &Record) -> bool {
    let early = matches!(record.status, Status::Idle | Status::Announcing(_));
    early && record.open_row.is_some()
}

/// "none at a later stage": from A1 on. One that is down may have a row open
/// or not.
fn no_open_row_at_a_later_stage(record: &Record) -> bool {
    matches!(record.status, Status::AtWork(_)) && record.open_row.is_none()
}

/// "announcing with no row left"
fn announcing_with_no_row_left(record: &Record, own: &[usize]) -> bool {
    matches!(record.status, Status::Announcing(_)) && record.begun >= own.len()
}

/// "no answer at A5, A6 or V5": A5 and A6 need the one to store, which A6
/// returns; V5 needs the stored one.
fn no_answer(record: &Record) -> bool {
    let Status::AtWork(Work {
        stage, to_store, ..
    }) = record.status
    else {
        return false;
    };
    match stage {
        Stage::A5 | Stage::A6 => to_store.is_none(),
        Stage::V5 => record.stored.is_none(),
        _ => false,
    }
}

/// "a stage or answer its row's kind never has". Only an open row has a kind
/// to speak of; a number that names no row is caught further up. An advance has
/// the stages of a compare row.
fn stage_or_answer_of_another_kind(record: &Record, rows: &[Row]) -> bool {
    let Some(row) = record.open_row.and_then(|number| rows.get(number)) else {
        return false;
    };
    let (stage, to_store) = match record.status {
        Status::AtWork(work) => (Some(work.stage), work.to_store),
        Status::Down | Status::Idle | Status::Announcing(_) => (None, None),
    };
    let mut answers = [record.stored, to_store].into_iter().flatten();
    let reads = row.operation == Operation::Read;
    (reads && stage.is_some_and(is_for_swaps_only))
        || answers.any(|answer| !may_answer(row.operation, answer))
}

/// A read goes from A1 to A5. Its checkpoint is 0, since nothing but A3 sets
/// it, so its recovery goes from V2 to V6.
fn is_for_swaps_only(stage: Stage) -> bool {
    use Stage::{A2, A3, A4, V3, V4};
    matches!(stage, A2 | A3 | A4 | V3 | V4)
}

/// A read answers with the value, a compare row with false or true, an advance
/// with the value before.
fn may_answer(operation: Operation, answer: Answer) -> bool {
    match operation {
        Operation::Read => matches!(answer, Answer::Value(_)),
        Operation::CompareAndSwap { .. } => matches!(answer, Answer::False | Answer::True),
        Operation::Advance { .. } => matches!(answer, Answer::Was(_)),
    }
}
