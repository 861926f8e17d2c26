//! A script: rows and schedule of a valid file as they come to be written,
//! and the moves of which scenes are made.
//!
//! The script keeps a guess of each word's value, so that compare rows find
//! their old value. The guess may go wrong after a crash; that is no harm, it
//! only makes some scenes come out otherwise than meant.

use super::draft::{Draft, DraftRow, Palette};
use super::random::Random;
use super::upright::{Upright, CRASH, CRASH_OF_ALL, WAKE};
use crate::machine::Version;

/// A start takes 3 steps, its three stores; then the row is open.
pub const START_STEPS: usize = 3;
/// A swap takes 9 steps: start, A1 to A6.
pub const SWAP_STEPS: usize = START_STEPS + 6;
/// A read, or a compare that meets another value, takes 6: start, A1, A5, A6.
pub const SHORT_STEPS: usize = START_STEPS + 3;
/// After this many steps an operation has read its word.
pub const STEPS_TO_A1: usize = START_STEPS + 1;
/// After this many steps a swap has set its checkpoint.
pub const STEPS_TO_A3: usize = START_STEPS + 3;
/// After this many steps a swap has done its A4. An advance that has lost then
/// goes back to A1, as if it had done [`START_STEPS`].
pub const STEPS_TO_A4: usize = START_STEPS + 4;

/// How large a file is to be.
#[derive(Clone, Copy)]
pub struct Size {
    pub version: Version,
    pub processes: usize,
    pub words: usize,
    pub schedule: usize,
    /// Rows that no scene needs, added to the processes' own.
    pub spare_rows: usize,
}

pub struct Script<'r> {
    pub random: &'r mut Random,
    palette: Palette,
    start_words: Vec<u64>,
    /// The value that each word has by now, if all went as meant.
    pub values: Vec<u32>,
    /// The rows of each process, in the order in which it is to do them.
    rows: Vec<Vec<DraftRow>>,
    schedule: Vec<u8>,
    up: Upright,
}

/// An operation that a scene has opened.
#[derive(Clone, Copy)]
pub struct Opened {
    /// How many steps it takes when nobody disturbs it.
    pub steps: usize,
    /// What it is to do to its word, if anything.
    pub change: Option<Change>,
}

impl Opened {
    /// An operation that puts in nothing: a read, or a compare that meets
    /// another value.
    pub const SHORT: Opened = Opened {
        steps: SHORT_STEPS,
        change: None,
    };
}

/// What an operation is to do to its word.
#[derive(Clone, Copy)]
pub enum Change {
    Swap { old: u32, new: u32 },
    Advance { amount: u32 },
}

impl Change {
    /// Whether it goes on to a swap when it has read this value.
    pub fn meets(self, value: u32) -> bool {
        match self {
            Change::Swap { old, .. } => old == value,
            Change::Advance { .. } => true,
        }
    }

    /// What its swap leaves of the value that it has read.
    pub fn leaves(self, value: u32) -> u32 {
        match self {
            Change::Swap { new, .. } => new,
            Change::Advance { amount } => value.wrapping_add(amount),
        }
    }

    pub fn is_advance(self) -> bool {
        matches!(self, Change::Advance { .. })
    }
}

impl<'r> Script<'r> {
    /// So many of a hundred changes are to be advances.
    pub fn blank(size: Size, advances: usize, random: &'r mut Random) -> Script<'r> {
        let mut palette = Palette::pick(size.version, random);
        palette.advances = advances;
        let start_words: Vec<u64> = (0..size.words)
            .map(|_| palette.start_word(random))
            .collect();
        Script {
            palette,
            values: start_words.iter().map(|word| *word as u32).collect(),
            start_words,
            rows: vec![Vec::new(); size.processes],
            schedule: Vec::new(),
            up: Upright::at_first(),
            random,
        }
    }

    /// The file, with its schedule cut to length: an operation may be left in
    /// its midst.
    pub fn finish(mut self, size: Size) -> Draft {
        self.schedule.truncate(size.schedule);
        for _ in 0..size.spare_rows {
            let process = self.any_process();
            let row = self.palette.row(process as u8, size.words, self.random);
            self.rows[process].push(row);
        }
        Draft::honest(
            size.version,
            size.processes as u8,
            self.start_words,
            self.rows.concat(),
            self.schedule,
        )
    }

    pub fn length(&self) -> usize {
        self.schedule.len()
    }

    pub fn steps(&mut self, process: usize, count: usize) {
        self.schedule.extend(vec![process as u8; count]);
    }

    /// A byte, unless it is idle: such a one has no place in a valid file. So
    /// one that is to wake is awake behind it, and one that is to crash is down.
    fn push(&mut self, byte: u8) {
        if self.up.takes(byte) {
            self.schedule.push(byte);
        }
    }

    pub fn wake(&mut self, process: usize) {
        self.push(WAKE | process as u8);
    }

    /// A crash of one, or now and then of all with the others woken again.
    pub fn crash(&mut self, process: usize) {
        if self.random.percent(85) {
            self.push(CRASH | process as u8);
            return;
        }
        self.crash_all();
        for other in (0..self.rows.len()).filter(|other| *other != process) {
            self.wake(other);
        }
    }

    pub fn crash_all(&mut self) {
        self.push(CRASH_OF_ALL);
    }

    /// Any byte that is an action, also if it changes nothing, as a step of one
    /// that is down; in place of an idle one a step.
    pub fn any_action(&mut self) {
        let process = self.any_process() as u8;
        let byte = self.random.weighted([
            (60, process),
            (10, CRASH | process),
            (28, WAKE | process),
            (2, CRASH_OF_ALL),
        ]);
        let byte = if self.up.is_idle(byte) { process } else { byte };
        self.push(byte);
    }

    /// A row that changes the word's value as guessed: a swap of it, or an
    /// advance.
    pub fn open_next(&mut self, process: usize, word: usize) -> Change {
        if self.palette.advances_next(self.random) {
            return self.open_next_advance(process, word);
        }
        let old = self.values[word];
        let new = self.palette.value_other_than(old, self.random);
        self.open_swap(process, word, old, new);
        Change::Swap { old, new }
    }

    pub fn open_next_advance(&mut self, process: usize, word: usize) -> Change {
        let amount = self.palette.amount(self.values[word], self.random);
        self.open_advance(process, word, amount);
        Change::Advance { amount }
    }

    /// A row that brings one value to another, by the one kind or by the other.
    pub fn open_from_to(&mut self, process: usize, word: usize, from: u32, to: u32) {
        if self.palette.advances_next(self.random) {
            self.open_advance(process, word, to.wrapping_sub(from).max(1));
        } else {
            self.open_swap(process, word, from, to);
        }
    }

    fn open_swap(&mut self, process: usize, word: usize, old: u32, new: u32) {
        self.rows[process].push(DraftRow::swap(process as u8, word as u8, old, new));
    }

    fn open_advance(&mut self, process: usize, word: usize, amount: u32) {
        self.rows[process].push(DraftRow::advance(process as u8, word as u8, amount));
    }

    /// Mostly a change; else a read, or a compare that meets another value.
    pub fn open_any(&mut self, process: usize, word: usize) -> Opened {
        let choice = self.random.below(10);
        if choice < 6 {
            return Opened {
                steps: SWAP_STEPS,
                change: Some(self.open_next(process, word)),
            };
        }
        if choice < 8 {
            self.rows[process].push(DraftRow::read(process as u8, word as u8));
        } else {
            let old = self
                .palette
                .value_other_than(self.values[word], self.random);
            let new = self.palette.value_other_than(old, self.random);
            self.open_swap(process, word, old, new);
        }
        Opened::SHORT
    }

    /// A change from beginning to end that nobody disturbs.
    pub fn whole_change(&mut self, process: usize, word: usize) {
        let change = self.open_next(process, word);
        self.carry_out(change, word);
        self.steps(process, SWAP_STEPS);
    }

    /// The word's value behind a change that has succeeded.
    pub fn carry_out(&mut self, change: Change, word: usize) {
        self.values[word] = change.leaves(self.values[word]);
    }

    /// The rest of a change of which so many steps are done, behind its A1,
    /// and which is to lose: a compare row ends, an advance goes back to A1 and
    /// is not disturbed again.
    pub fn rest_of_a_loser(&mut self, process: usize, word: usize, change: Change, done: usize) {
        if change.is_advance() {
            self.steps(process, STEPS_TO_A4 - done);
            self.steps(process, SWAP_STEPS - START_STEPS);
            self.carry_out(change, word);
        } else {
            self.steps(process, SWAP_STEPS - done);
        }
    }

    pub fn any_process(&mut self) -> usize {
        self.random.below(self.rows.len())
    }

    pub fn any_word(&mut self) -> usize {
        self.random.below(self.values.len())
    }

    /// Two processes, different ones if there are two.
    pub fn two_processes(&mut self) -> (usize, usize) {
        let first = self.any_process();
        (first, self.other_than(first))
    }

    pub fn other_than(&mut self, process: usize) -> usize {
        let count = self.rows.len();
        let further = 1 + self.random.below(count.saturating_sub(1));
        (process + further) % count
    }

    /// All processes, in any order.
    pub fn all_processes(&mut self) -> Vec<usize> {
        let mut processes: Vec<usize> = (0..self.rows.len()).collect();
        self.random.shuffle(&mut processes);
        processes
    }

    pub fn several_processes(&mut self) -> Vec<usize> {
        let mut processes = self.all_processes();
        processes.truncate(self.random.between(2, 5));
        processes
    }
}
