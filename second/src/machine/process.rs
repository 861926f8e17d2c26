//! One process: what a crash takes from it and what it keeps.

use super::log::Verdict;
use super::word::Word;

/// A stage of an operation (A) or of a recovery (V), with just what that
/// stage still needs. "All that is volatile."
#[derive(Clone, Copy, Debug, PartialEq, Eq)]
pub enum Stage {
    A1,
    A2(Attempt),
    A3(Attempt),
    A4(Attempt),
    A5 { answer: Verdict, due: Due },
    A6 { answer: Verdict },
    V1,
    V2,
    V3,
    V4,
    V5 { answer: Verdict },
    V6,
}

/// A swap on its way from A1 to A4: "the word it read" and the position of
/// its A1, beside the value that it is to put in.
#[derive(Clone, Copy, Debug, PartialEq, Eq)]
pub struct Attempt {
    pub seen: Word,
    pub new: u32,
    pub a1: u32,
}

/// What A5 owes the log for the answer that it stores.
#[derive(Clone, Copy, Debug, PartialEq, Eq)]
pub enum Due {
    /// "A swap that succeeds enters the log at A4", so nothing is owed at A5.
    Nothing,
    /// "a read, or a value that was not old, with the position of its A1"
    AtA1(u32),
    /// "a lost swap (false although the value read was old) with the position
    /// of the first successful swap on its word after its A1"
    LostSwap { a1: u32, a4: u32 },
}

/// "At any moment a process is down, idle, or in the midst of work". Work
/// begins with the announcement (change request 1): until its last store no
/// row is open, so there is none to name.
#[derive(Clone, Copy, Debug, PartialEq, Eq)]
pub enum Status {
    Down,
    Idle,
    Announcing(Store),
    AtWork { row: usize, stage: Stage },
}

/// The store of an announcement that is to come next. "The terminal clears
/// the stored answer, then clears the checkpoint, then opens the row"; the
/// first is the step of an idle process.
#[derive(Clone, Copy, Debug, PartialEq, Eq)]
pub enum Store {
    ClearCheckpoint,
    OpenRow,
}

/// "Kept through a crash: the open row, if any; the stored answer or none;
/// the checkpoint (0 or 1); the kept bit; how many rows it has begun."
/// "At first ... nothing stored and both bits 0": the default.
#[derive(Debug, Default)]
pub struct Kept {
    pub open_row: Option<usize>,
    pub stored: Option<Verdict>,
    pub checkpoint: bool,
    pub at_a2: KeptAtA2,
    begun: usize,
}

/// What A2 keeps: the bit, and of an advance "the value read beside the bit, in
/// one store" (change request 6). At first both are 0.
#[derive(Clone, Copy, Debug, Default, PartialEq, Eq)]
pub struct KeptAtA2 {
    pub bit: bool,
    /// The value that the last advance to come to A2 has read; nothing else
    /// changes it.
    pub value: u32,
}

#[derive(Debug)]
pub struct Process {
    /// The numbers of its rows: "A process's rows are carried out in file order."
    rows: Vec<usize>,
    pub kept: Kept,
    pub status: Status,
}

impl Process {
    /// "At first all are idle".
    pub fn at_first(rows: Vec<usize>) -> Process {
        Process {
            rows,
            kept: Kept::default(),
            status: Status::Idle,
        }
    }

    /// "Crash: an awake process goes down." For one that is down already
    /// this changes nothing: a crash of all may meet such a one.
    pub fn crash(&mut self) {
        self.status = Status::Down;
    }

    /// "Wake: a process that is down goes to V1 if a row is open, else idle."
    /// "a wake of one that is awake change[s] nothing".
    pub fn wake(&mut self) {
        if matches!(self.status, Status::Down) {
            self.status = match self.kept.open_row {
                Some(row) => Status::AtWork {
                    row,
                    stage: Stage::V1,
                },
                None => Status::Idle,
            };
        }
    }

    /// Start, for one that is idle: if rows are left, the announcement's first
    /// store, "clears the stored answer". "a step of an idle one with no rows
    /// left" changes nothing.
    pub fn start(&mut self) {
        if self.next_row().is_some() {
            self.kept.stored = None;
            self.status = Status::Announcing(Store::ClearCheckpoint);
        }
    }

    /// The announcement's second store and its third. "A process cut off
    /// before the third has no row open, wakes idle and begins the same row
    /// again", so the row counts as begun with the third only.
    pub fn announce(&mut self, store: Store) {
        match store {
            Store::ClearCheckpoint => {
                self.kept.checkpoint = false;
                self.status = Status::Announcing(Store::OpenRow);
            }
            Store::OpenRow => self.open_next_row(),
        }
    }

    /// Only one with rows left comes here, and it begins none meanwhile.
    fn open_next_row(&mut self) {
        if let Some(row) = self.next_row() {
            self.kept.begun += 1;
            self.kept.open_row = Some(row);
            self.status = Status::AtWork {
                row,
                stage: Stage::A1,
            };
        }
    }

    /// The row that it has to begin next, if any is left.
    fn next_row(&self) -> Option<usize> {
        self.rows.get(self.kept.begun).copied()
    }

    /// After a stage: on to the next, or, if there is none, "the row is
    /// closed, the process idle".
    pub fn go_on(&mut self, row: usize, next: Option<Stage>) {
        match next {
            Some(stage) => self.status = Status::AtWork { row, stage },
            None => {
                self.kept.open_row = None;
                self.status = Status::Idle;
            }
        }
    }
}

#[cfg(test)]
mod tests {
    use super::*;

    const KEPT_AT_A2: KeptAtA2 = KeptAtA2 {
        bit: true,
        value: 77,
    };

    /// Idle, one row left, and all that a swap that succeeded leaves: a stored
    /// true, the checkpoint and what A2 kept.
    fn behind_a_swap() -> Process {
        Process {
            rows: vec![4, 6],
            kept: Kept {
                open_row: None,
                stored: Some(Verdict::True),
                checkpoint: true,
                at_a2: KEPT_AT_A2,
                begun: 1,
            },
            status: Status::Idle,
        }
    }

    fn step(process: &mut Process) {
        match process.status {
            Status::Idle => process.start(),
            Status::Announcing(store) => process.announce(store),
            Status::Down | Status::AtWork { .. } => panic!("no announcement here"),
        }
    }

    /// Stored answer, checkpoint, open row and rows begun.
    fn stores(process: &Process) -> (Option<Verdict>, bool, Option<usize>, usize) {
        let kept = &process.kept;
        (kept.stored, kept.checkpoint, kept.open_row, kept.begun)
    }

    const AFTER_EACH_STORE: [(Option<Verdict>, bool, Option<usize>, usize); 4] = [
        (Some(Verdict::True), true, None, 1),
        (None, true, None, 1),
        (None, false, None, 1),
        (None, false, Some(6), 2),
    ];

    #[test]
    fn an_announcement_is_three_stores_in_their_order() {
        let mut process = behind_a_swap();
        assert_eq!(stores(&process), AFTER_EACH_STORE[0]);
        for after in &AFTER_EACH_STORE[1..] {
            step(&mut process);
            assert_eq!(stores(&process), *after);
            assert_eq!(process.kept.at_a2, KEPT_AT_A2);
        }
        let (row, stage) = (6, Stage::A1);
        assert_eq!(process.status, Status::AtWork { row, stage });
    }

    #[test]
    fn a_crash_keeps_the_stores_made_and_a_wake_finds_the_row_open_or_not() {
        for (made, after) in AFTER_EACH_STORE.iter().enumerate() {
            let mut process = behind_a_swap();
            for _ in 0..made {
                step(&mut process);
            }
            process.crash();
            assert_eq!(process.status, Status::Down);
            process.wake();
            assert_eq!(stores(&process), *after);
            let (row, stage) = (6, Stage::V1);
            let expected = match made {
                3 => Status::AtWork { row, stage },
                _ => Status::Idle,
            };
            assert_eq!(process.status, expected);
        }
    }

    #[test]
    fn one_cut_off_begins_with_the_first_store_again() {
        for made in 1..=2 {
            let mut process = behind_a_swap();
            for _ in 0..made {
                step(&mut process);
            }
            process.crash();
            process.wake();
            step(&mut process);
            let expected = Status::Announcing(Store::ClearCheckpoint);
            assert_eq!(process.status, expected);
            step(&mut process);
            step(&mut process);
            assert_eq!(stores(&process), AFTER_EACH_STORE[3]);
        }
    }

    #[test]
    fn one_with_no_rows_left_clears_nothing() {
        let mut process = behind_a_swap();
        process.kept.begun = 2;
        process.start();
        assert_eq!(process.status, Status::Idle);
        assert_eq!(stores(&process), (Some(Verdict::True), true, None, 2));
    }
}
