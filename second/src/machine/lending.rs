//! The lent buffers: refusals 13 to 15, and writing the outcome.

use super::carry_out::{carry_out, Outcome};
use super::log::Entry;
use super::refusal::{refuse_if, Cause, Refusal};
use super::run_file::RunFile;

/// "Three buffers, lent as 32-bit numbers: the words (at least W numbers),
/// the log and the answers (each at least 5 × S)." By change request 5 "The
/// words buffer becomes 64-bit numbers".
#[derive(Clone, Debug, PartialEq, Eq)]
pub struct Buffers {
    pub words: Vec<u64>,
    pub log: Vec<u32>,
    pub answers: Vec<u32>,
}

/// What a run reports beside the buffers: "The result gives the two row
/// counts"; the counts of the header are wanted for the `run` line.
#[derive(Clone, Copy, Debug, PartialEq, Eq)]
pub struct Ran {
    pub processes: usize,
    pub words: usize,
    pub rows: usize,
    pub schedule: usize,
    pub log_rows: usize,
    pub answer_rows: usize,
}

/// One run over a file. On a refusal "all three buffers stay untouched".
pub fn run(file: &[u8], buffers: &mut Buffers) -> Result<Ran, Refusal> {
    let file = RunFile::read(file)?;
    file.check_idle()?;
    buffers.check(&file)?;
    let outcome = carry_out(&file);
    buffers.write(&outcome);
    Ok(Ran {
        processes: file.processes,
        words: file.words.len(),
        rows: file.rows.len(),
        schedule: file.schedule.len(),
        log_rows: outcome.log.len(),
        answer_rows: outcome.answers.len(),
    })
}

impl Buffers {
    /// Refusals 13 to 15, in that order.
    fn check(&self, file: &RunFile) -> Result<(), Refusal> {
        let row_numbers = 5 * file.schedule.len();
        refuse_if(self.words.len() < file.words.len(), Cause::WordsBuffer)?;
        refuse_if(self.log.len() < row_numbers, Cause::LogBuffer)?;
        refuse_if(self.answers.len() < row_numbers, Cause::AnswersBuffer)
    }

    /// "A run writes the final words into the first W numbers, and writes the
    /// log and answer rows from the front. All numbers beyond stay as they
    /// were." No byte adds more than one row to either, so 5 × S suffices.
    fn write(&mut self, outcome: &Outcome) {
        let words = outcome.words.iter().map(|word| word.number());
        write_from_the_front(&mut self.words, words);
        write_from_the_front(&mut self.log, outcome.log.iter().flat_map(Entry::numbers));
        write_from_the_front(
            &mut self.answers,
            outcome.answers.iter().flat_map(Entry::numbers),
        );
    }
}

fn write_from_the_front<T>(buffer: &mut [T], numbers: impl Iterator<Item = T>) {
    for (slot, number) in buffer.iter_mut().zip(numbers) {
        *slot = number;
    }
}
