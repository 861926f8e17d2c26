//! The record of a process, as the panel keeps it from key to key.
//!
//! It has a field for each thing that document 01 names, so that a list can
//! hold whatever a panel may lend, also what no run comes to: that is what
//! refusal 21 is about.

use crate::machine::{Store, Verdict, Word};

#[derive(Clone, Copy, Debug, PartialEq, Eq)]
pub struct Record {
    pub status: Status,
    /// "Kept through a crash: the open row, if any; the stored answer or none;
    /// the checkpoint (0 or 1); the kept bit; how many rows it has begun."
    pub open_row: Option<usize>,
    pub stored: Option<Answer>,
    pub checkpoint: bool,
    pub kept_bit: bool,
    /// "A2 keeps the value read beside the bit, in one store" (change request
    /// 6): that of an advance does.
    pub kept_value: u32,
    pub begun: usize,
}

/// "At any moment a process is down, idle, or in the midst of work". Work
/// begins with the stores of change request 1, which need nothing else.
#[derive(Clone, Copy, Debug, PartialEq, Eq)]
pub enum Status {
    Down,
    Idle,
    Announcing(Store),
    AtWork(Work),
}

/// "in the midst of work with its stage and the word it read, the positions
/// of its A1 and A4, and the answer it is to store"
#[derive(Clone, Copy, Debug, PartialEq, Eq)]
pub struct Work {
    pub stage: Stage,
    pub word_read: Word,
    pub a1: u32,
    pub a4: u32,
    pub to_store: Option<Answer>,
}

#[derive(Clone, Copy, Debug, PartialEq, Eq)]
pub enum Stage {
    A1,
    A2,
    A3,
    A4,
    A5,
    A6,
    V1,
    V2,
    V3,
    V4,
    V5,
    V6,
}

/// An answer that can be stored. V6 returns fail without storing it, so that
/// is none of them.
#[derive(Clone, Copy, Debug, PartialEq, Eq)]
pub enum Answer {
    False,
    True,
    Value(u32),
    /// Of an advance: "The answer is the value before".
    Was(u32),
}

impl Record {
    /// "At first all are idle with nothing stored and both bits 0." So is the
    /// kept value.
    pub const AT_FIRST: Record = Record {
        status: Status::Idle,
        open_row: None,
        stored: None,
        checkpoint: false,
        kept_bit: false,
        kept_value: 0,
        begun: 0,
    };
}

impl Work {
    /// Work that comes to a stage with nothing read and nothing answered yet.
    pub fn begins_at(stage: Stage) -> Work {
        Work {
            stage,
            word_read: Word::from_number(0),
            a1: 0,
            a4: 0,
            to_store: None,
        }
    }
}

impl Answer {
    pub fn verdict(self) -> Verdict {
        match self {
            Answer::False => Verdict::False,
            Answer::True => Verdict::True,
            Answer::Value(value) => Verdict::ValueRead(value),
            Answer::Was(value) => Verdict::ValueBefore(value),
        }
    }
}
