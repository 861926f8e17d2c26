//! Change request 3: one byte of a schedule, carried out over a lent list of
//! process records and the lent buffers; with refusal 16 of change request 7.

mod log_buffer;
mod record;
mod sound;
mod step;

#[cfg(test)]
mod advance_tests;
#[cfg(test)]
mod any_lent_tests;
#[cfg(test)]
mod order_tests;
#[cfg(test)]
mod sound_tests;
#[cfg(test)]
mod step_tests;
#[cfg(test)]
mod test_bench;
#[cfg(test)]
mod whole_schedule_tests;

pub use record::{Answer, Record, Stage, Status, Work};

use crate::machine::{refuse_if, Action, Buffers, Cause, Refusal, RunFile};

use log_buffer::has_no_room;
use sound::is_sound;
use step::Turn;

/// "21, a position over 1,023".
const LAST_POSITION: u32 = 1_023;

/// A key: "The position and the two row counts come with" its byte.
#[derive(Clone, Copy, Debug)]
pub struct Press {
    pub byte: u8,
    pub position: u32,
    pub counts: Counts,
}

/// How many rows the log and the answers have.
#[derive(Clone, Copy, Debug, Default, PartialEq, Eq)]
pub struct Counts {
    pub log: usize,
    pub answers: usize,
}

/// Carries out one key; the two row counts afterwards. On a refusal "nothing
/// is changed".
pub fn key(
    file: &[u8],
    records: &mut [Record],
    buffers: &mut Buffers,
    press: Press,
) -> Result<Counts, Refusal> {
    // "the panel lends the run file too, and 1 to 12 come from it"; 16 does
    // not: "on the panel only for the key byte" (change request 7).
    let file = RunFile::read(file)?;
    check_room(&file, records, buffers, press.counts)?;
    check_state(&file, records, press.position)?;
    let action = Action::decode(press.byte, file.processes);
    let Some(action) = action else {
        return Err(Refusal {
            cause: Cause::KeyByte,
            place: 0,
        });
    };
    refuse_if(is_idle(action, records), Cause::IdleByte)?;
    Ok(act(&file, records, buffers, action, press))
}

/// Refusal 16: "A crash of a process already down, or a wake of one already
/// up", by its record as it stands. "F0 is always allowed, and so is a step of
/// a process that is down."
fn is_idle(action: Action, records: &[Record]) -> bool {
    let is_down = |process: usize| records[process].status == Status::Down;
    match action {
        Action::Crash(process) => is_down(process),
        Action::Wake(process) => !is_down(process),
        Action::Step(_) | Action::CrashOfAll => false,
    }
}

/// "then 13 also for a list shorter than P; 14 and 15 mean no room for one
/// more row": whether or not the key would add one.
fn check_room(
    file: &RunFile,
    records: &[Record],
    buffers: &Buffers,
    counts: Counts,
) -> Result<(), Refusal> {
    let few_words = buffers.words.len() < file.words.len();
    let short_list = records.len() < file.processes;
    refuse_if(few_words || short_list, Cause::WordsBuffer)?;
    refuse_if(has_no_room(&buffers.log, counts.log), Cause::LogBuffer)?;
    refuse_if(
        has_no_room(&buffers.answers, counts.answers),
        Cause::AnswersBuffer,
    )
}

/// "21, a position over 1,023, or one of the first P records with" a fault.
fn check_state(file: &RunFile, records: &[Record], position: u32) -> Result<(), Refusal> {
    let first = records.iter().take(file.processes).enumerate();
    let mut unsound = first.filter(|(process, record)| !is_sound(record, *process, &file.rows));
    refuse_if(
        position > LAST_POSITION || unsound.next().is_some(),
        Cause::PanelState,
    )
}

/// "the process not named left as it was unless the byte is F0"
fn act(
    file: &RunFile,
    records: &mut [Record],
    buffers: &mut Buffers,
    action: Action,
    press: Press,
) -> Counts {
    let mut counts = press.counts;
    match action {
        Action::Step(process) => Turn {
            rows: &file.rows,
            process,
            position: press.position,
            record: &mut records[process],
            buffers,
            counts: &mut counts,
        }
        .step(),
        Action::Crash(process) => crash(&mut records[process]),
        Action::Wake(process) => wake(&mut records[process]),
        // The list may be longer than P; what is beyond is no process.
        Action::CrashOfAll => records.iter_mut().take(file.processes).for_each(crash),
    }
    counts
}

/// "Crash: an awake process goes down."
fn crash(record: &mut Record) {
    record.status = Status::Down;
}

/// "Wake: a process that is down goes to V1 if a row is open, else idle."
fn wake(record: &mut Record) {
    if record.status == Status::Down {
        record.status = match record.open_row {
            Some(_) => Status::AtWork(Work::begins_at(Stage::V1)),
            None => Status::Idle,
        };
    }
}
