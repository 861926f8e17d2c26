//! Change request 6: an advance, one key at a time, over lent records and
//! numbers; each outcome is worked out by hand.

use crate::machine::{Store, Word};

use super::test_bench::{advancing, at, reading, swapping, Bench, NEAR_THE_END};
use super::{Answer, Record, Stage, Status, Work};

use Stage::{A1, A2, A3, A4, A5, A6, V1, V2, V3, V4, V5, V6};

const STAGES: [Stage; 12] = [A1, A2, A3, A4, A5, A6, V1, V2, V3, V4, V5, V6];

/// At a stage of an attempt that read this at position 3.
fn attempt(stage: Stage, word_read: u64) -> Status {
    Status::AtWork(Work {
        word_read: Word::from_number(word_read),
        a1: 3,
        ..Work::begins_at(stage)
    })
}

/// At A5 or A6 with an answer.
fn answering(stage: Stage, answer: Answer) -> Status {
    Status::AtWork(Work {
        to_store: Some(answer),
        a4: 6,
        ..Work::begins_at(stage)
    })
}

/// A step of process 0 at position 20 turns its record into the other and
/// changes nothing else.
fn assert_step(before: Record, after: Record) {
    let bench = Bench::of_advances(0, before);
    let mut expected = bench.clone();
    expected.records[0] = after;
    assert_eq!(bench.after(), expected);
}

/// "The steps are those of a compare that always matches": whatever the value,
/// also 0, which stands in the row as old.
#[test]
fn a1_goes_to_a2_from_whatever_the_value_is() {
    for word in [0, 7, u64::from(NEAR_THE_END), 0x0003_FFFF_FFFF, u64::MAX] {
        let mut bench = Bench::of_advances(0, advancing(at(A1)));
        bench.buffers.words[0] = word;
        let mut expected = bench.clone();
        expected.records[0] = advancing(Status::AtWork(Work {
            word_read: Word::from_number(word),
            a1: 20,
            ..Work::begins_at(A2)
        }));
        assert_eq!(bench.after(), expected);
    }
}

/// "A2 keeps the value read beside the bit, in one store": as read at A1,
/// whatever the word is by now.
#[test]
fn a2_keeps_the_value_read_and_the_bit() {
    for (word_read, kept_bit, kept_value) in [
        (0x0000_0000_0007, true, 7),
        (0x0001_0000_0000, false, 0),
        (0x0002_FFFF_FFFF, true, u32::MAX),
        (u64::MAX, false, u32::MAX),
    ] {
        let after = Record {
            kept_bit,
            kept_value,
            ..advancing(attempt(A3, word_read))
        };
        assert_step(advancing(attempt(A2, word_read)), after);
    }
}

/// A compare row keeps the bit alone.
#[test]
fn a2_of_a_compare_leaves_the_kept_value() {
    let comparing = |status| Record {
        open_row: Some(1),
        begun: 2,
        ..advancing(status)
    };
    let after = Record {
        kept_bit: true,
        ..comparing(attempt(A3, 9))
    };
    assert_step(comparing(attempt(A2, 9)), after);
}

/// Nothing else touches what is kept: not the three stores, no other stage, no
/// crash and no wake.
#[test]
fn only_a2_changes_what_is_kept() {
    let kept = |record: Record| (record.kept_bit, record.kept_value);
    let idle = Record {
        status: Status::Idle,
        open_row: None,
        begun: 0,
        kept_bit: true,
        ..advancing(Status::Idle)
    };
    let mut records = vec![idle];
    for store in [Store::ClearCheckpoint, Store::OpenRow] {
        let status = Status::Announcing(store);
        records.push(Record { status, ..idle });
    }
    for stage in STAGES.into_iter().filter(|stage| *stage != A2) {
        let mut record = advancing(answering(stage, Answer::Was(5)));
        record.stored = Some(Answer::Was(5));
        records.push(record);
    }
    for record in records {
        // None of them is down.
        for byte in [0x00, 0x10, 0xF0] {
            let mut bench = Bench::of_advances(0, record);
            bench.byte = byte;
            assert_eq!(kept(bench.after().records[0]), kept(record));
        }
        let status = Status::Down;
        let mut bench = Bench::of_advances(0, Record { status, ..record });
        bench.byte = 0x20;
        assert_eq!(kept(bench.after().records[0]), kept(record));
    }
}

/// The word is as read: the sum, which goes round, and the own flip bit; a row
/// of the log with verdict 4 and the value before.
#[test]
fn a4_puts_in_the_sum() {
    let bench = Bench::of_advances(0, advancing(attempt(A4, NEAR_THE_END.into())));
    let mut expected = bench.clone();
    expected.records[0] = advancing(Status::AtWork(Work {
        word_read: Word::from_number(NEAR_THE_END.into()),
        a1: 3,
        a4: 20,
        stage: A5,
        to_store: Some(Answer::Was(NEAR_THE_END)),
    }));
    expected.buffers.words[0] = 0x0001_0000_0000 + 460;
    expected.buffers.log[..5].copy_from_slice(&[20, 0, 0, 4, NEAR_THE_END]);
    expected.counts.log = 1;
    assert_eq!(bench.after(), expected);

    // Value before, and what 1,460 more leaves.
    for (before, after) in [
        (0u32, 1_460u32),
        (u32::MAX - 1_460, u32::MAX),
        (u32::MAX - 1_459, 0),
        (u32::MAX, 1_459),
        (1 << 31, (1 << 31) + 1_460),
    ] {
        let high = 0x8001_FFFE << 32;
        let word = high | u64::from(before);
        let mut bench = Bench::of_advances(0, advancing(attempt(A4, word)));
        bench.buffers.words[0] = word;
        let words = bench.after().buffers.words;
        assert_eq!(words[0], (high | 1 << 32) | u64::from(after));
    }
}

/// By 4,294,967,295, which is back by 1; its own bit is bit 33.
#[test]
fn the_other_process_goes_back_by_one() {
    let record = Record {
        open_row: Some(2),
        ..advancing(attempt(A4, 0x0001_0000_0009))
    };
    let mut bench = Bench::of_advances(1, record);
    bench.byte = 0x01;
    let after = bench.after();
    assert_eq!(after.buffers.words[1], 0x0003_0000_0008);
    assert_eq!(after.buffers.log[..5], [20, 1, 2, 4, 9]);
}

/// "a lost swap goes back to A1": the checkpoint stays as A3 left it, what is
/// kept stays, and nothing is logged, stored or answered.
#[test]
fn a4_that_is_lost_goes_back_to_a1() {
    let read = u64::from(NEAR_THE_END);
    let others = [read + 1, read | 1 << 32, read | 1 << 33, read | 1 << 63];
    for word in others {
        let checkpoint = true;
        let at_a4 = Record {
            checkpoint,
            ..advancing(attempt(A4, read))
        };
        let mut bench = Bench::of_advances(0, at_a4);
        bench.buffers.words[0] = word;
        let after = bench.after();
        let Status::AtWork(work) = after.records[0].status else {
            panic!("not at work");
        };
        assert_eq!((work.stage, work.to_store), (A1, None));
        let mut expected = bench.clone();
        expected.records[0] = Record {
            status: Status::AtWork(work),
            ..at_a4
        };
        assert_eq!(after, expected);

        // The next round reads anew, and keeps anew.
        let mut bench = after;
        bench.position = 21;
        let bench = bench.after().after();
        assert_eq!(bench.records[0].kept_value, word as u32);
        assert_eq!(bench.records[0].kept_bit, word & 1 << 32 == 0);
        let after = bench.after().after();
        let sum = Word::from_number(word).swapped(0, (word as u32).wrapping_add(1_460));
        assert_eq!(after.buffers.words[0], sum.number());
        assert_eq!(after.buffers.log[..5], [21, 0, 0, 4, word as u32]);
    }
}

/// It stands in the log since A4.
#[test]
fn a5_stores_the_value_before_and_logs_nothing() {
    let was = Answer::Was(9);
    let after = Record {
        stored: Some(was),
        ..advancing(answering(A6, was))
    };
    assert_step(advancing(answering(A5, was)), after);
}

#[test]
fn the_value_before_is_returned_with_verdict_4() {
    let stored = Record {
        stored: Some(Answer::Was(u32::MAX)),
        ..advancing(at(V5))
    };
    let cases = [
        (advancing(answering(A6, Answer::Was(0))), [20, 0, 0, 4, 0]),
        (stored, [20, 0, 0, 4, u32::MAX]),
        (advancing(at(V6)), [20, 0, 0, 2, 0]),
    ];
    for (before, row) in cases {
        let bench = Bench::of_advances(0, before);
        let mut expected = bench.clone();
        expected.records[0] = Record {
            status: Status::Idle,
            open_row: None,
            ..before
        };
        expected.buffers.answers[..5].copy_from_slice(&row);
        expected.counts.answers = 1;
        assert_eq!(bench.after(), expected);
    }
}

/// "recovery takes it from what A2 kept", not from the word.
#[test]
fn v4_stores_the_kept_value() {
    for (kept_value, word) in [(77, 7), (0, u64::MAX), (u32::MAX, 0)] {
        let with = |status, stored| Record {
            kept_value,
            stored,
            ..advancing(status)
        };
        let mut bench = Bench::of_advances(0, with(attempt(V4, word), None));
        bench.buffers.words[0] = word;
        let mut expected = bench.clone();
        let was = Some(Answer::Was(kept_value));
        expected.records[0] = with(attempt(V5, word), was);
        assert_eq!(bench.after(), expected);
    }
}

/// By the bits, as of a compare row: the kept value has no say.
#[test]
fn v3_goes_by_the_bit() {
    for (word, flip_bit) in [(77, false), (0x0001_0000_0007, true)] {
        for kept_bit in [false, true] {
            let with = |stage| Record {
                checkpoint: true,
                kept_bit,
                ..advancing(attempt(stage, word))
            };
            let mut bench = Bench::of_advances(0, with(V3));
            bench.buffers.words[0] = word;
            let mut expected = bench.clone();
            expected.records[0] = with(if flip_bit == kept_bit { V4 } else { V6 });
            assert_eq!(bench.after(), expected);
        }
    }
}

/// The compare row of process 0 has lost, with its A1 at 3 and its A4 at 6; the
/// log has one row.
#[test]
fn a_lost_compare_finds_the_advance_it_lost_to() {
    let lost = Record {
        status: Status::AtWork(Work {
            stage: A5,
            word_read: Word::from_number(0x0001_0000_0009),
            a1: 3,
            a4: 6,
            to_store: Some(Answer::False),
        }),
        open_row: Some(1),
        begun: 2,
        ..Record::AT_FIRST
    };
    for (row, position) in [
        ([5, 1, 2, 4, 9], 5),
        ([5, 1, 2, 4, 0], 5),
        ([3, 1, 2, 4, 9], 6), // not larger than its A1's
        ([5, 1, 0, 4, 9], 6), // on word 0
        ([5, 1, 3, 4, 9], 6), // the file has rows 0 to 2
        ([5, 1, 2, 3, 9], 6), // a value read
        ([5, 1, 2, 5, 9], 6), // no verdict at all
    ] {
        let mut bench = Bench::of_advances(0, lost);
        bench.buffers.log = [row, [61; 5]].concat();
        bench.counts.log = 1;
        let after = bench.after();
        assert_eq!(after.buffers.log, [row, [position, 0, 1, 0, 0]].concat());
    }
}

/// Refused by 21 whatever the key, and by nothing else: these keys are never
/// idle.
fn is_refused(bench: &Bench) -> bool {
    let refusals = [0x00, 0x01, 0xF0].map(|byte| {
        let mut bench = bench.clone();
        bench.byte = byte;
        bench.refusal()
    });
    assert!(refusals.iter().all(|refusal| *refusal == refusals[0]));
    assert!(matches!(refusals[0], None | Some((21, 0))));
    refusals[0].is_some()
}

/// "kind 2 has every stage, and no answer but its own": it has every stage that
/// a compare row has, the same where an answer is needed.
#[test]
fn an_advance_has_every_stage() {
    for stage in STAGES {
        let mut record = advancing(at(stage));
        let needs_one = matches!(stage, A5 | A6 | V5);
        assert_eq!(is_refused(&Bench::of_advances(0, record)), needs_one);
        record.status = answering(stage, Answer::Was(5));
        record.stored = Some(Answer::Was(5));
        assert!(!is_refused(&Bench::of_advances(0, record)));
        record.open_row = None;
        assert!(is_refused(&Bench::of_advances(0, record)));
    }
}

#[test]
fn an_answer_that_the_rows_kind_never_has() {
    let comparing = |status| Record {
        open_row: Some(1),
        begun: 2,
        ..swapping(status)
    };
    for answer in [
        Answer::False,
        Answer::True,
        Answer::Value(9),
        Answer::Was(9),
    ] {
        let of_advance = matches!(answer, Answer::Was(_));
        let of_compare = matches!(answer, Answer::False | Answer::True);
        let of_read = matches!(answer, Answer::Value(_));
        for status in [Status::Down, at(A1), at(A4), at(V1), at(V4), at(V5)] {
            let stored = |record| Record {
                stored: Some(answer),
                ..record
            };
            let of = |record| is_refused(&Bench::of_advances(0, stored(record)));
            assert_eq!(of(advancing(status)), !of_advance);
            assert_eq!(of(comparing(status)), !of_compare);
        }
        for stage in [A5, A6] {
            let status = answering(stage, answer);
            let of = |record| is_refused(&Bench::of_advances(0, record));
            assert_eq!(of(advancing(status)), !of_advance);
            assert_eq!(of(comparing(status)), !of_compare);
            let read = Bench::with(0, reading(status));
            assert_eq!(is_refused(&read), !of_read);
        }
        let closed = Record {
            stored: Some(answer),
            open_row: None,
            ..advancing(Status::Idle)
        };
        assert!(!is_refused(&Bench::of_advances(0, closed)));
    }
}
