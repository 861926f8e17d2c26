//! "Stepping through a whole accepted schedule, from the file's words and all
//! idle, ends exactly as the run does", over many generated files. The run
//! keeps its log in a tree and its processes in another form, so the two have
//! no step in common.

use crate::generate::{records as generated, Flavour};
use crate::keys::schedule;
use crate::machine::{run, Buffers, Ran, RunFile, Version};
use crate::stream::{Lengths, Record as StreamRecord};

use super::test_bench::swapping;
use super::{key, Counts, Press, Record, Status};

/// Numbers in the buffers that neither run nor key may touch.
const FILL: u32 = 0xC0DE_0000;

/// Records lent beyond P.
const BEYOND: usize = 2;

fn filled(record: &StreamRecord) -> Buffers {
    let lengths = record.lengths;
    Buffers {
        words: vec![u64::from(FILL); lengths.words],
        log: vec![FILL; lengths.log],
        answers: vec![FILL; lengths.answers],
    }
}

/// What the panel keeps, from the file's words and all idle.
struct Bench<'r> {
    file: &'r [u8],
    processes: usize,
    records: Vec<Record>,
    buffers: Buffers,
    counts: Counts,
}

impl Bench<'_> {
    fn at_first(record: &StreamRecord) -> Bench<'_> {
        let read = RunFile::read(&record.file).expect("an accepted file");
        let mut records = vec![Record::AT_FIRST; read.processes];
        records.resize(read.processes + BEYOND, swapping(Status::Idle));
        let mut buffers = filled(record);
        for (slot, word) in buffers.words.iter_mut().zip(&read.words) {
            *slot = word.number();
        }
        Bench {
            file: &record.file,
            processes: read.processes,
            records,
            buffers,
            counts: Counts::default(),
        }
    }

    /// The counts go from key to key.
    fn press(&mut self, position: u32, byte: u8) {
        let before = self.records.clone();
        let press = Press {
            byte,
            position,
            counts: self.counts,
        };
        let pressed = key(self.file, &mut self.records, &mut self.buffers, press);
        self.counts = pressed.expect("a key that is carried out");
        self.assert_others_left(byte, &before);
    }

    /// "the process not named left as it was unless the byte is F0"
    fn assert_others_left(&self, byte: u8, before: &[Record]) {
        let named = usize::from(byte & 0x0F);
        let pairs = before.iter().zip(&self.records).enumerate();
        for (process, (was, is)) in pairs {
            let may_change = if byte == 0xF0 {
                process < self.processes
            } else {
                process == named
            };
            assert!(may_change || was == is);
        }
    }

    fn assert_is(&self, ran: Ran, buffers: &Buffers) {
        assert_eq!(self.buffers, *buffers);
        let counts = Counts {
            log: ran.log_rows,
            answers: ran.answer_rows,
        };
        assert_eq!(self.counts, counts);
    }
}

/// Steps through the file's schedule, if the run accepts it; how many rows the
/// log then has.
fn hold(record: &StreamRecord) -> Option<usize> {
    let mut buffers = filled(record);
    let ran = run(&record.file, &mut buffers).ok()?;
    let mut bench = Bench::at_first(record);
    let bytes = schedule(&record.file).expect("an accepted file");
    for (position, byte) in (0..).zip(bytes) {
        bench.press(position, *byte);
    }
    bench.assert_is(ran, &buffers);
    Some(ran.log_rows)
}

/// How many files were held, and how many log rows all of them had.
fn hold_all(seed: u64, count: u64, flavour: Flavour) -> (usize, usize) {
    let held: Vec<usize> = generated(seed, count, flavour)
        .filter_map(|record| hold(&record))
        .collect();
    (held.len(), held.iter().sum())
}

#[test]
fn files_of_every_size_end_as_their_runs_do() {
    let (files, rows) = hold_all(31, 1_500, Flavour::Any);
    assert!(files > 500 && rows > 5_000, "{files} files, {rows} rows");
    let (files, rows) = hold_all(32, 2_000, Flavour::Short);
    assert!(files > 700 && rows > 1_000, "{files} files, {rows} rows");
}

#[test]
fn files_with_the_longest_schedule_end_as_their_runs_do() {
    for version in [Version::One, Version::Two] {
        for flavour in [Flavour::FewLost(version), Flavour::ManyLost(version)] {
            let (files, rows) = hold_all(33, 20, flavour);
            assert!(files == 20 && rows > 1_000, "{files} files, {rows} rows");
        }
        assert_eq!(hold_all(33, 10, Flavour::Quiet(version)), (10, 0));
    }
    for flavour in [Flavour::Advances, Flavour::Mixed] {
        let (files, rows) = hold_all(33, 20, flavour);
        assert!(files == 20 && rows > 1_000, "{files} files, {rows} rows");
    }
}

/// Who is down by the records: what 16 tells from the bytes alone is what they
/// come to. Every schedule of the files is stepped through, idle bytes and all:
/// the first key that is refused by 16 is the byte at which the run is refused.
#[test]
fn a_run_is_refused_by_16_at_the_first_key_that_is() {
    let mut refused = 0;
    for record in generated(35, 4_000, Flavour::Short) {
        let Ok(bytes) = schedule(&record.file) else {
            continue;
        };
        let roomy = StreamRecord {
            lengths: Lengths {
                words: 16,
                log: 5_120,
                answers: 5_120,
            },
            ..record.clone()
        };
        let mut bench = Bench::at_first(&roomy);
        let first = (0..).zip(bytes).find_map(|(position, byte)| {
            let press = Press {
                byte: *byte,
                position,
                counts: bench.counts,
            };
            let pressed = key(bench.file, &mut bench.records, &mut bench.buffers, press);
            bench.counts = *pressed.as_ref().unwrap_or(&bench.counts);
            let refusal = pressed.err()?;
            Some((refusal.number(), position as usize))
        });
        let begins = record.file.len() - bytes.len();
        let first = first.map(|(number, position)| (number, begins + position));
        let refusal = run(&record.file, &mut filled(&record)).err();
        let refusal = refusal.map(|refusal| (refusal.number(), refusal.place));
        // Short buffers are refused by later checks.
        assert_eq!(first, refusal.filter(|(number, _)| *number == 16));
        refused += usize::from(first.is_some());
    }
    assert!(refused > 50, "{refused} refused by 16");
}

/// Not only at the end: after every byte the buffers are those of a run that
/// ends there.
#[test]
fn every_beginning_of_a_schedule_ends_as_its_run_does() {
    for mut record in generated(34, 400, Flavour::Short) {
        if run(&record.file, &mut filled(&record)).is_err() {
            continue;
        }
        let whole = record.clone();
        let bytes = schedule(&whole.file).expect("an accepted file");
        let mut bench = Bench::at_first(&whole);
        for (done, byte) in (0u16..).zip(bytes) {
            bench.press(done.into(), *byte);
            let cut_off = bytes.len() - usize::from(done) - 1;
            record.file = whole.file[..whole.file.len() - cut_off].to_vec();
            record.file[9..11].copy_from_slice(&(done + 1).to_le_bytes());
            let mut buffers = filled(&record);
            let ran = run(&record.file, &mut buffers).expect("an accepted file");
            bench.assert_is(ran, &buffers);
        }
    }
}
