//! Whatever is lent, a key is refused and changes nothing, or it changes one
//! record, one word, and adds one row at most.

use crate::generate::random::Random;
use crate::machine::{Store, Word};
use crate::pieces::pieces;

use super::test_bench::Bench;
use super::{Answer, Record, Stage, Status, Work};

use Stage::{A1, A2, A3, A4, A5, A6, V1, V2, V3, V4, V5, V6};

fn any_answer(random: &mut Random) -> Option<Answer> {
    let value = Some(Answer::Value(random.one_of([7, 9])));
    let (no, yes) = (Some(Answer::False), Some(Answer::True));
    let was = Some(Answer::Was(random.one_of([7, 9])));
    random.weighted([(3, None), (1, value), (2, no), (1, yes), (2, was)])
}

fn any_number(random: &mut Random) -> u32 {
    let small = random.below(30) as u32;
    random.one_of([small, small, u32::MAX])
}

fn any_status(random: &mut Random) -> Status {
    let any_stage = random.one_of([A1, A2, A3, A4, A5, A6, V1, V2, V3, V4, V5, V6]);
    let work = Work {
        // Those that write the log come more often.
        stage: random.one_of([any_stage, any_stage, A4, A5]),
        word_read: Word::from_number(random.one_of([7, 9, 0x0001_0000_0007, 0x0001_0000_0009])),
        a1: any_number(random),
        a4: any_number(random),
        to_store: any_answer(random),
    };
    random.weighted([
        (1, Status::Down),
        (1, Status::Idle),
        (1, Status::Announcing(Store::ClearCheckpoint)),
        (1, Status::Announcing(Store::OpenRow)),
        (8, Status::AtWork(work)),
    ])
}

/// Open row and rows begun often go together, for process 0 or for process 1.
fn any_record(random: &mut Random) -> Record {
    let (row, begun) = random.one_of([(0, 1), (1, 2), (2, 1)]);
    Record {
        status: any_status(random),
        open_row: random.weighted([(6, Some(row)), (2, None), (1, Some(usize::MAX))]),
        stored: any_answer(random),
        checkpoint: random.percent(50),
        kept_bit: random.percent(50),
        kept_value: any_number(random),
        begun: random.weighted([(6, begun), (1, 0), (1, 3), (1, usize::MAX)]),
    }
}

/// One record of the list is anything, and so is one beyond P: two would
/// hardly ever be sound together. Half of the files have advances.
fn any_bench(random: &mut Random) -> Bench {
    let process = random.below(2);
    let record = any_record(random);
    let mut bench = if random.percent(50) {
        Bench::with(process, record)
    } else {
        Bench::of_advances(process, record)
    };
    // So that it is often the word that was read.
    bench.buffers.words[0] = 7;
    bench.records.push(any_record(random));
    let step = process as u8;
    bench.byte = random.one_of([step, step, step, 0x01, 0x10, 0x11, 0x21, 0xF0, 0x30]);
    bench.position = random.one_of([0, 5, 20, 1_023, 1_024]);
    // There is room for five rows.
    bench.counts.log = random.below(6);
    bench.counts.answers = random.below(6);
    bench.buffers.log = (0..27).map(|_| any_number(random)).collect();
    bench.buffers.answers = (0..27).map(|_| any_number(random)).collect();
    bench
}

fn rows(buffer: &[u32], count: usize) -> Vec<[u32; 5]> {
    pieces(buffer).take(count).collect()
}

/// The rows that were there are there in their order, one more at most, and
/// numbers beyond are as they were.
fn assert_one_row_more_at_most(before: &[u32], count: usize, after: &[u32], new_count: usize) {
    let (old, mut new) = (rows(before, count), rows(after, new_count));
    assert!(new_count == count || new_count == count + 1);
    let place = (0..count).find(|place| old[*place] != new[*place]);
    if new_count > count {
        new.remove(place.unwrap_or(count));
    }
    assert_eq!(old, new);
    assert_eq!(before[5 * new_count..], after[5 * new_count..]);
}

#[test]
fn one_record_one_word_and_one_row_at_most() {
    let mut random = Random::seeded(51);
    let (mut refused, mut logged, mut went_back) = (0, 0, 0);
    for _ in 0..60_000 {
        let bench = any_bench(&mut random);
        // That a refusal changes nothing is asserted there.
        if bench.refusal().is_some() {
            refused += 1;
            continue;
        }
        let after = bench.after();
        let (then, now) = (&bench.buffers, &after.buffers);
        assert_one_row_more_at_most(&then.log, bench.counts.log, &now.log, after.counts.log);
        let (old, new) = (bench.counts.answers, after.counts.answers);
        assert_one_row_more_at_most(&then.answers, old, &now.answers, new);
        let words = then.words.iter().zip(&now.words);
        assert!(words.filter(|(was, is)| was != is).count() <= 1);
        let records = bench.records.iter().zip(&after.records);
        let changed = records.filter(|(was, is)| was != is).count();
        assert!(changed <= 1 || bench.byte == 0xF0);
        assert_eq!(bench.records[2], after.records[2]);
        logged += after.counts.log - bench.counts.log;
        let at = |bench: &Bench, stage| {
            let at_stage = |record: &&Record| match record.status {
                Status::AtWork(work) => work.stage == stage,
                _ => false,
            };
            bench.records[..2].iter().filter(at_stage).count()
        };
        if at(&bench, A4) > at(&after, A4) && at(&after, A1) > at(&bench, A1) {
            went_back += 1;
            assert_eq!((then, bench.counts), (now, after.counts));
        }
    }
    assert!(refused > 10_000 && refused < 59_000, "{refused} refused");
    assert!(logged > 100, "{logged} logged");
    assert!(went_back > 20, "{went_back} went back to A1");
}
