//! One step of one process over its lent record and the lent buffers.
//!
//! These are the steps of document 01 with the announcement of change
//! request 1 and the advance of change request 6, written for records and
//! numbers that a panel lends. They are not those of [`crate::machine::run`],
//! which a test holds them against.

use crate::machine::{Buffers, Entry, Operation, Row, Store, Verdict, Word};

use super::log_buffer::{enter, first_swap_after, write};
use super::record::{Answer, Record, Stage, Status, Work};
use super::sound::own_rows;
use super::Counts;

/// A step: of which process, at which position, and all it may touch. The
/// records of the others are not among that.
pub struct Turn<'t> {
    pub rows: &'t [Row],
    pub process: usize,
    pub position: u32,
    pub record: &'t mut Record,
    pub buffers: &'t mut Buffers,
    pub counts: &'t mut Counts,
}

impl Turn<'_> {
    /// "A step of a process that is down ... change[s] nothing".
    pub fn step(&mut self) {
        match self.record.status {
            Status::Down => {}
            Status::Idle => self.clear_the_stored_answer(),
            Status::Announcing(Store::ClearCheckpoint) => self.clear_the_checkpoint(),
            Status::Announcing(Store::OpenRow) => self.open_the_next_row(),
            Status::AtWork(work) => self.work(work),
        }
    }

    fn next_row(&self) -> Option<usize> {
        own_rows(self.rows, self.process).nth(self.record.begun)
    }

    /// "The terminal clears the stored answer, then clears the checkpoint,
    /// then opens the row" (change request 1). "a step of an idle one with no
    /// rows left" changes nothing.
    fn clear_the_stored_answer(&mut self) {
        if self.next_row().is_some() {
            self.record.stored = None;
            self.record.status = Status::Announcing(Store::ClearCheckpoint);
        }
    }

    fn clear_the_checkpoint(&mut self) {
        self.record.checkpoint = false;
        self.record.status = Status::Announcing(Store::OpenRow);
    }

    /// One that is announcing has a row left, or 21 would have refused it.
    fn open_the_next_row(&mut self) {
        if let Some(number) = self.next_row() {
            self.record.open_row = Some(number);
            self.record.begun += 1;
            self.record.status = Status::AtWork(Work::begins_at(Stage::A1));
        }
    }

    /// One at work has a row open that is in the file, by 21 again.
    fn work(&mut self, work: Work) {
        let Some(number) = self.record.open_row else {
            return;
        };
        match work.stage {
            Stage::A1 => self.read_the_word(number, work),
            Stage::A2 => self.keep(number, work),
            Stage::A3 => self.set_the_checkpoint(work),
            Stage::A4 => self.try_to_swap(number, work),
            Stage::A5 => self.store_the_answer(number, work),
            Stage::A6 => self.return_the_answer(number, work.to_store),
            Stage::V1 => self.look_for_an_answer(work),
            Stage::V2 => self.look_at_the_checkpoint(work),
            Stage::V3 => self.look_at_the_flip_bit(number, work),
            Stage::V4 => self.store_what_the_swap_answers(number, work),
            Stage::V5 => self.return_the_answer(number, self.record.stored),
            Stage::V6 => self.return_and_close(number, Verdict::Fail),
        }
    }

    fn go_on(&mut self, work: Work) {
        self.record.status = Status::AtWork(work);
    }

    fn word(&self, row: Row) -> Word {
        Word::from_number(self.buffers.words[row.word])
    }

    /// "A1: read the word. A read row, or a value other than old (answer
    /// false), goes to A5; otherwise A2." An advance is "a compare that always
    /// matches".
    fn read_the_word(&mut self, number: usize, work: Work) {
        let row = self.rows[number];
        let word_read = self.word(row);
        let (stage, to_store) = match row.operation {
            Operation::Read => (Stage::A5, Some(Answer::Value(word_read.value))),
            Operation::CompareAndSwap { old, .. } if word_read.value != old => {
                (Stage::A5, Some(Answer::False))
            }
            Operation::CompareAndSwap { .. } | Operation::Advance { .. } => {
                (Stage::A2, work.to_store)
            }
        };
        self.go_on(Work {
            stage,
            word_read,
            a1: self.position,
            to_store,
            ..work
        });
    }

    /// "A2: keep the opposite of the own flip bit as just read." Of an advance
    /// it "keeps the value read beside the bit"; a compare leaves what is there.
    fn keep(&mut self, number: usize, work: Work) {
        self.record.kept_bit = !work.word_read.flip_bit(self.process);
        if let Operation::Advance { .. } = self.rows[number].operation {
            self.record.kept_value = work.word_read.value;
        }
        let stage = Stage::A3;
        self.go_on(Work { stage, ..work });
    }

    /// "A3: checkpoint 1."
    fn set_the_checkpoint(&mut self, work: Work) {
        self.record.checkpoint = true;
        let stage = Stage::A4;
        self.go_on(Work { stage, ..work });
    }

    /// "A4: if the whole word, bits included, is still as read, put in new
    /// and turn the own flip bit: true. Otherwise false. Then A5." "A swap
    /// that succeeds enters the log at A4 with its position." An advance puts
    /// in the sum, which "goes round past 4,294,967,295 to 0", and its "lost
    /// swap goes back to A1" (change request 6).
    fn try_to_swap(&mut self, number: usize, work: Work) {
        let row = self.rows[number];
        let word = self.word(row);
        let (new, won, lost) = match row.operation {
            // A read row never comes to A4: 21.
            Operation::Read => return,
            Operation::CompareAndSwap { new, .. } => (new, Answer::True, Some(Answer::False)),
            Operation::Advance { amount } => {
                let new = word.value.wrapping_add(amount);
                (new, Answer::Was(word.value), None)
            }
        };
        let to_store = if word == work.word_read {
            self.buffers.words[row.word] = word.swapped(self.process, new).number();
            self.enter_the_log(number, self.position, won);
            Some(won)
        } else {
            lost
        };
        self.go_on(Work {
            stage: match to_store {
                Some(_) => Stage::A5,
                None => Stage::A1,
            },
            a4: self.position,
            to_store,
            ..work
        });
    }

    /// "A5: store the answer." "Any other answer enters [the log] at A5".
    fn store_the_answer(&mut self, number: usize, work: Work) {
        // There is one to store: 21.
        let Some(answer) = work.to_store else {
            return;
        };
        self.record.stored = Some(answer);
        if let Some(position) = self.log_position(number, work, answer) {
            self.enter_the_log(number, position, answer);
        }
        let stage = Stage::A6;
        self.go_on(Work { stage, ..work });
    }

    /// With which position an answer enters the log at A5, if it does: "a
    /// read, or a value that was not old, with the position of its A1; a lost
    /// swap (false although the value read was old) with the position of the
    /// first successful swap on its word after its A1". One "that finds no
    /// such swap in the lent log ... takes its A4's position" (change
    /// request 3).
    fn log_position(&self, number: usize, work: Work, answer: Answer) -> Option<u32> {
        let row = &self.rows[number];
        match (row.operation, answer) {
            (_, Answer::True | Answer::Was(_)) => None,
            (Operation::CompareAndSwap { old, .. }, _) if work.word_read.value == old => {
                let (log, count) = (&self.buffers.log, self.counts.log);
                let swap = first_swap_after(log, count, work.a1, row, self.rows);
                Some(swap.unwrap_or(work.a4))
            }
            _ => Some(work.a1),
        }
    }

    fn enter_the_log(&mut self, number: usize, position: u32, answer: Answer) {
        let entry = self.entry(number, position, answer.verdict());
        enter(&mut self.buffers.log, self.counts.log, entry);
        self.counts.log += 1;
    }

    fn entry(&self, row: usize, position: u32, verdict: Verdict) -> [u32; 5] {
        let process = self.process;
        Entry {
            position,
            process,
            row,
            verdict,
        }
        .numbers()
    }

    /// "A5: store the answer. A6: return it". "V5: return the stored answer,
    /// close the row." There is one at both: 21.
    fn return_the_answer(&mut self, number: usize, answer: Option<Answer>) {
        if let Some(answer) = answer {
            self.return_and_close(number, answer.verdict());
        }
    }

    /// "the row is closed, the process idle". "An answer row is added at A6,
    /// V5 or V6, with that position."
    fn return_and_close(&mut self, number: usize, verdict: Verdict) {
        let entry = self.entry(number, self.position, verdict);
        write(&mut self.buffers.answers, self.counts.answers, entry);
        self.counts.answers += 1;
        self.record.open_row = None;
        self.record.status = Status::Idle;
    }

    /// "V1: an answer stored goes to V5, else V2."
    fn look_for_an_answer(&mut self, work: Work) {
        let is_stored = self.record.stored.is_some();
        self.go_on_if(is_stored, Stage::V5, Stage::V2, work);
    }

    /// "V2: checkpoint 0 goes to V6, else V3."
    fn look_at_the_checkpoint(&mut self, work: Work) {
        self.go_on_if(self.record.checkpoint, Stage::V3, Stage::V6, work);
    }

    /// "V3: read the word; the own flip bit equal to the kept bit goes to V4,
    /// else V6."
    fn look_at_the_flip_bit(&mut self, number: usize, work: Work) {
        let word_read = self.word(self.rows[number]);
        let swapped = word_read.flip_bit(self.process) == self.record.kept_bit;
        let work = Work { word_read, ..work };
        self.go_on_if(swapped, Stage::V4, Stage::V6, work);
    }

    /// "V4: store true, then V5." "V4 adds nothing" to the log. Of an advance
    /// it is the value before: "recovery takes it from what A2 kept".
    fn store_what_the_swap_answers(&mut self, number: usize, work: Work) {
        self.record.stored = Some(match self.rows[number].operation {
            Operation::Advance { .. } => Answer::Was(self.record.kept_value),
            Operation::Read | Operation::CompareAndSwap { .. } => Answer::True,
        });
        let stage = Stage::V5;
        self.go_on(Work { stage, ..work });
    }

    fn go_on_if(&mut self, yes: bool, then: Stage, otherwise: Stage, work: Work) {
        let stage = if yes { then } else { otherwise };
        self.go_on(Work { stage, ..work });
    }
}
