//! What the tests of a key lend: a file, a list, buffers and the key itself,
//! of which a test changes what it is about.

use crate::machine::{Buffers, Word};

use super::{key, Answer, Counts, Press, Record, Stage, Status, Work};

/// Two processes, two words, three rows, four schedule bytes: the rows begin
/// at 19, 27 and 35, the schedule at 43, and the file has 47 bytes.
const FILE: [u8; 47] = [
    0x53, 0x57, 0x52, 1, 0, 2, 2, 3, 0, 4, 0, // header
    7, 0, 0, 0, 9, 0, 1, 0, // words
    0, 1, 0, 0, 7, 0, 8, 0, // row 0: p0, word 0, 7>8
    0, 0, 1, 0, 0, 0, 0, 0, // row 1: p0 reads word 1
    1, 1, 1, 0, 9, 0, 7, 0, // row 2: p1, word 1, 9>7
    0, 0x10, 0x21, 0xF0, // schedule: its wake is idle, which is no concern of a key
];

/// The same counts in a file of version 2 with an advance for each process: the
/// rows begin at 27, 39 and 51, and the file has 67 bytes. Word 0 is 1,000 below
/// the end.
const FILE_OF_ADVANCES: [u8; 67] = [
    0x53, 0x57, 0x52, 2, 0, 2, 2, 3, 0, 4, 0, // header
    0x18, 0xFC, 0xFF, 0xFF, 0, 0, 0, 0, // word 0: 4,294,966,296
    9, 0, 0, 0, 1, 0, 0, 0, // word 1: 9, bit 32
    0, 2, 0, 0, 0, 0, 0, 0, 0xB4, 5, 0, 0, // row 0: p0, word 0, by 1,460
    0, 1, 1, 0, 9, 0, 0, 0, 7, 0, 0, 0, // row 1: p0, word 1, 9>7
    1, 2, 1, 0, 0, 0, 0, 0, 0xFF, 0xFF, 0xFF, 0xFF, // row 2: p1, word 1, back by 1
    0, 0x10, 0x21, 0xF0, // schedule
];

/// What word 0 of that file starts from.
pub const NEAR_THE_END: u32 = 4_294_966_296;

#[derive(Clone, Debug, PartialEq, Eq)]
pub struct Bench {
    pub file: Vec<u8>,
    pub records: Vec<Record>,
    pub buffers: Buffers,
    pub byte: u8,
    pub position: u32,
    pub counts: Counts,
}

impl Bench {
    /// All idle, the words of the file, room for two rows, and a step of
    /// process 0 at position 20.
    pub fn new() -> Bench {
        Bench {
            file: FILE.to_vec(),
            records: vec![Record::AT_FIRST; 2],
            buffers: Buffers {
                words: vec![0x0000_0000_0007, 0x0001_0000_0009],
                log: vec![61; 10],
                answers: vec![62; 10],
            },
            byte: 0x00,
            position: 20,
            counts: Counts::default(),
        }
    }

    /// One of the records is this.
    pub fn with(process: usize, record: Record) -> Bench {
        let mut bench = Bench::new();
        bench.records[process] = record;
        bench
    }

    /// The same over the file of advances.
    pub fn of_advances(process: usize, record: Record) -> Bench {
        let mut bench = Bench::with(process, record);
        bench.file = FILE_OF_ADVANCES.to_vec();
        bench.buffers.words = vec![NEAR_THE_END.into(), 0x0001_0000_0009];
        bench
    }

    /// Number and place of the refusal, if there is one; then nothing is
    /// changed.
    pub fn refusal(&self) -> Option<(u32, usize)> {
        let mut bench = self.clone();
        let refusal = bench.press().err()?;
        assert_eq!(bench, *self, "a refusal has changed something");
        Some(refusal)
    }

    /// What there is after the key, with the new counts.
    pub fn after(&self) -> Bench {
        let mut bench = self.clone();
        bench.counts = bench.press().expect("a key that is carried out");
        bench
    }

    fn press(&mut self) -> Result<Counts, (u32, usize)> {
        let press = Press {
            byte: self.byte,
            position: self.position,
            counts: self.counts,
        };
        key(&self.file, &mut self.records, &mut self.buffers, press)
            .map_err(|refusal| (refusal.number(), refusal.place))
    }
}

/// Process 0 with its swap open, in whatever it is doing.
pub fn swapping(status: Status) -> Record {
    Record {
        status,
        open_row: Some(0),
        begun: 1,
        ..Record::AT_FIRST
    }
}

/// Process 0 with its advance open, in whatever it is doing, over the file of
/// advances. A value of an advance before is kept.
pub fn advancing(status: Status) -> Record {
    Record {
        kept_value: 77,
        ..swapping(status)
    }
}

/// Process 0 with its read open, in whatever it is doing.
pub fn reading(status: Status) -> Record {
    Record {
        status,
        open_row: Some(1),
        begun: 2,
        ..Record::AT_FIRST
    }
}

/// At a stage, and nothing more.
pub fn at(stage: Stage) -> Status {
    Status::AtWork(Work::begins_at(stage))
}

/// At A5 with an answer to store.
pub fn at_a5(word_read: u64, a1: u32, a4: u32, answer: Answer) -> Status {
    with_answer(Stage::A5, word_read, a1, a4, answer)
}

/// At A6 with an answer that it has stored.
pub fn at_a6(answer: Answer) -> Status {
    with_answer(Stage::A6, 7, 3, 6, answer)
}

fn with_answer(stage: Stage, word_read: u64, a1: u32, a4: u32, answer: Answer) -> Status {
    Status::AtWork(Work {
        stage,
        word_read: Word::from_number(word_read),
        a1,
        a4,
        to_store: Some(answer),
    })
}
