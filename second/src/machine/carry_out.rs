//! Carrying out the schedule of a run file, one byte after the other.

use super::action::Action;
use super::log::{Entry, Log, Verdict};
use super::process::{Attempt, Due, KeptAtA2, Process, Stage, Status};
use super::row::{Operation, Row};
use super::run_file::RunFile;
use super::word::Word;

/// "the final words, the answers, and a log in the order in which operations
/// took effect"
pub struct Outcome {
    pub words: Vec<Word>,
    pub log: Vec<Entry>,
    pub answers: Vec<Entry>,
}

pub fn carry_out(file: &RunFile) -> Outcome {
    let mut machine = Machine::at_first(file);
    // "Positions count from 0."
    for (position, action) in (0..).zip(&file.schedule) {
        machine.act(*action, position);
    }
    Outcome {
        words: machine.words,
        log: machine.log.into_entries(),
        answers: machine.answers,
    }
}

struct Machine<'f> {
    rows: &'f [Row],
    words: Vec<Word>,
    processes: Vec<Process>,
    log: Log,
    answers: Vec<Entry>,
}

/// One step of a process at work: who, for which row, and at which position.
#[derive(Clone, Copy)]
struct Turn {
    process: usize,
    row: usize,
    position: u32,
}

impl Turn {
    /// A row of the log or of the answers for this turn's operation.
    fn entry(self, position: u32, verdict: Verdict) -> Entry {
        Entry {
            position,
            process: self.process,
            row: self.row,
            verdict,
        }
    }
}

impl<'f> Machine<'f> {
    fn at_first(file: &'f RunFile) -> Machine<'f> {
        let process_of_rows = |process| {
            let own = |(number, row): (usize, &Row)| (row.process == process).then_some(number);
            Process::at_first(file.rows.iter().enumerate().filter_map(own).collect())
        };
        Machine {
            rows: &file.rows,
            words: file.words.clone(),
            processes: (0..file.processes).map(process_of_rows).collect(),
            log: Log::default(),
            answers: Vec::new(),
        }
    }

    fn act(&mut self, action: Action, position: u32) {
        match action {
            Action::Step(process) => self.step(process, position),
            Action::Crash(process) => self.processes[process].crash(),
            Action::Wake(process) => self.processes[process].wake(),
            // "Crash of all: every awake process goes down."
            Action::CrashOfAll => self.processes.iter_mut().for_each(Process::crash),
        }
    }

    /// "Steps of an awake process, one per byte". "A step of a process that
    /// is down ... change[s] nothing but the position."
    fn step(&mut self, process: usize, position: u32) {
        match self.processes[process].status {
            Status::Down => {}
            Status::Idle => self.processes[process].start(),
            Status::Announcing(store) => self.processes[process].announce(store),
            Status::AtWork { row, stage } => {
                let turn = Turn {
                    process,
                    row,
                    position,
                };
                let next = self.carry_out_stage(turn, stage);
                self.processes[process].go_on(row, next);
            }
        }
    }

    /// The stage that follows, or none when this one closes the row.
    fn carry_out_stage(&mut self, turn: Turn, stage: Stage) -> Option<Stage> {
        match stage {
            Stage::A1 => Some(self.read_the_word(turn)),
            Stage::A2(attempt) => Some(self.keep(turn, attempt)),
            Stage::A3(attempt) => Some(self.set_the_checkpoint(turn, attempt)),
            Stage::A4(attempt) => Some(self.try_to_swap(turn, attempt)),
            Stage::A5 { answer, due } => Some(self.store_the_answer(turn, answer, due)),
            Stage::A6 { answer } => self.return_and_close(turn, answer),
            Stage::V1 => Some(self.look_for_an_answer(turn)),
            Stage::V2 => Some(self.look_at_the_checkpoint(turn)),
            Stage::V3 => Some(self.look_at_the_flip_bit(turn)),
            Stage::V4 => Some(self.store_the_answer_of_a_swap(turn)),
            Stage::V5 { answer } => self.return_and_close(turn, answer),
            Stage::V6 => self.return_and_close(turn, Verdict::Fail),
        }
    }

    /// "A1: read the word. A read row, or a value other than old (answer
    /// false), goes to A5; otherwise A2." The steps of an advance "are those of
    /// a compare that always matches"; "The sum goes round past 4,294,967,295
    /// to 0" (change request 6).
    fn read_the_word(&self, turn: Turn) -> Stage {
        let row = self.rows[turn.row];
        let seen = self.words[row.word];
        let due = Due::AtA1(turn.position);
        let attempt = |new| {
            Stage::A2(Attempt {
                seen,
                new,
                a1: turn.position,
            })
        };
        match row.operation {
            Operation::Read => Stage::A5 {
                answer: Verdict::ValueRead(seen.value),
                due,
            },
            Operation::CompareAndSwap { old, .. } if seen.value != old => Stage::A5 {
                answer: Verdict::False,
                due,
            },
            Operation::CompareAndSwap { new, .. } => attempt(new),
            Operation::Advance { amount } => attempt(seen.value.wrapping_add(amount)),
        }
    }

    /// "A2: keep the opposite of the own flip bit as just read." That of an
    /// advance "keeps the value read beside the bit, in one store"; that of a
    /// compare leaves the value that was kept before.
    fn keep(&mut self, turn: Turn, attempt: Attempt) -> Stage {
        let kept = &mut self.processes[turn.process].kept.at_a2;
        *kept = KeptAtA2 {
            bit: !attempt.seen.flip_bit(turn.process),
            value: match self.rows[turn.row].operation {
                Operation::Advance { .. } => attempt.seen.value,
                Operation::Read | Operation::CompareAndSwap { .. } => kept.value,
            },
        };
        Stage::A3(attempt)
    }

    /// "A3: checkpoint 1."
    fn set_the_checkpoint(&mut self, turn: Turn, attempt: Attempt) -> Stage {
        self.processes[turn.process].kept.checkpoint = true;
        Stage::A4(attempt)
    }

    /// "A4: if the whole word, bits included, is still as read, put in new
    /// and turn the own flip bit: true. Otherwise false. Then A5." Of an
    /// advance the answer is the value before, and "a lost swap goes back to
    /// A1", with the checkpoint as A3 has left it.
    fn try_to_swap(&mut self, turn: Turn, attempt: Attempt) -> Stage {
        let Row {
            word, operation, ..
        } = self.rows[turn.row];
        let word = &mut self.words[word];
        if *word == attempt.seen {
            *word = word.swapped(turn.process, attempt.new);
            let answer = answer_of_a_swap(operation, attempt.seen.value);
            // "A swap that succeeds enters the log at A4 with its position."
            self.log.add(turn.entry(turn.position, answer));
            let due = Due::Nothing;
            return Stage::A5 { answer, due };
        }
        match operation {
            Operation::Advance { .. } => Stage::A1,
            Operation::Read | Operation::CompareAndSwap { .. } => Stage::A5 {
                answer: Verdict::False,
                due: Due::LostSwap {
                    a1: attempt.a1,
                    a4: turn.position,
                },
            },
        }
    }

    /// "A5: store the answer." "Any other answer enters [the log] at A5".
    fn store_the_answer(&mut self, turn: Turn, answer: Verdict, due: Due) -> Stage {
        self.processes[turn.process].kept.stored = Some(answer);
        if let Some(position) = self.log_position(turn, due) {
            self.log.add(turn.entry(position, answer));
        }
        Stage::A6 { answer }
    }

    /// The position with which the answer enters the log at A5, if it does.
    fn log_position(&self, turn: Turn, due: Due) -> Option<u32> {
        match due {
            Due::Nothing => None,
            Due::AtA1(a1) => Some(a1),
            Due::LostSwap { a1, a4 } => {
                let word = self.rows[turn.row].word;
                let on_word = |row: usize| self.rows[row].word == word;
                // Only a successful swap changes a word, and this one's word
                // changed between A1 and A4, so there is such a swap; A4
                // stands in for it only to make the function total.
                Some(self.log.first_swap_after(a1, on_word).unwrap_or(a4))
            }
        }
    }

    /// "A6: return it; the row is closed, the process idle." "V5: return the
    /// stored answer, close the row. V6: return fail, close the row." "An
    /// answer row is added at A6, V5 or V6, with that position."
    fn return_and_close(&mut self, turn: Turn, verdict: Verdict) -> Option<Stage> {
        self.answers.push(turn.entry(turn.position, verdict));
        None
    }

    /// "V1: an answer stored goes to V5, else V2."
    fn look_for_an_answer(&self, turn: Turn) -> Stage {
        match self.processes[turn.process].kept.stored {
            Some(answer) => Stage::V5 { answer },
            None => Stage::V2,
        }
    }

    /// "V2: checkpoint 0 goes to V6, else V3."
    fn look_at_the_checkpoint(&self, turn: Turn) -> Stage {
        if self.processes[turn.process].kept.checkpoint {
            Stage::V3
        } else {
            Stage::V6
        }
    }

    /// "V3: read the word; the own flip bit equal to the kept bit goes to V4,
    /// else V6."
    fn look_at_the_flip_bit(&self, turn: Turn) -> Stage {
        let word = self.words[self.rows[turn.row].word];
        if word.flip_bit(turn.process) == self.processes[turn.process].kept.at_a2.bit {
            Stage::V4
        } else {
            Stage::V6
        }
    }

    /// "V4: store true, then V5." "V4 adds nothing" to the log. Of an advance
    /// the answer is the value before, and "recovery takes it from what A2
    /// kept".
    fn store_the_answer_of_a_swap(&mut self, turn: Turn) -> Stage {
        let kept = &mut self.processes[turn.process].kept;
        let answer = answer_of_a_swap(self.rows[turn.row].operation, kept.at_a2.value);
        kept.stored = Some(answer);
        Stage::V5 { answer }
    }
}

/// What a swap that has succeeded answers: true, or for an advance the value
/// before.
fn answer_of_a_swap(operation: Operation, before: u32) -> Verdict {
    match operation {
        Operation::Advance { .. } => Verdict::ValueBefore(before),
        Operation::Read | Operation::CompareAndSwap { .. } => Verdict::True,
    }
}
