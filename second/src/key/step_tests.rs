//! One key at a time over lent records and numbers, each outcome worked out by
//! hand from the steps of document 01 and change requests 1 and 3.

use crate::machine::{Store, Word};

use super::test_bench::{at, at_a5, at_a6, reading, swapping, Bench};
use super::{Answer, Counts, Record, Stage, Status, Work};

use Stage::{A1, A2, A3, A4, A5, A6, V1, V2, V3, V4, V5, V6};

/// Process 1 with its swap of word 1 open.
fn other_swapping(status: Status) -> Record {
    Record {
        open_row: Some(2),
        ..swapping(status)
    }
}

/// At a stage of an attempt that read this at position 3.
fn attempt(stage: Stage, word_read: u64) -> Status {
    Status::AtWork(Work {
        word_read: Word::from_number(word_read),
        a1: 3,
        ..Work::begins_at(stage)
    })
}

/// A step of process 0 at position 20 turns its record into the other and
/// changes nothing else.
fn assert_step(before: Record, after: Record) {
    let bench = Bench::with(0, before);
    let mut expected = bench.clone();
    expected.records[0] = after;
    assert_eq!(bench.after(), expected);
}

#[test]
fn an_announcement_is_three_stores() {
    let left_over = Record {
        stored: Some(Answer::True),
        checkpoint: true,
        kept_bit: true,
        ..Record::AT_FIRST
    };
    let after_one = Record {
        status: Status::Announcing(Store::ClearCheckpoint),
        stored: None,
        ..left_over
    };
    let after_two = Record {
        status: Status::Announcing(Store::OpenRow),
        checkpoint: false,
        ..after_one
    };
    let after_three = Record {
        status: at(A1),
        open_row: Some(0),
        begun: 1,
        ..after_two
    };
    assert_step(left_over, after_one);
    assert_step(after_one, after_two);
    assert_step(after_two, after_three);
}

/// Process 0 has begun its swap; the next one is its read.
#[test]
fn the_next_row_is_the_one_behind_those_begun() {
    let announcing = Record {
        status: Status::Announcing(Store::OpenRow),
        begun: 1,
        ..Record::AT_FIRST
    };
    assert_step(announcing, reading(at(A1)));
}

#[test]
fn what_a_step_does_not_change() {
    let done = Record {
        begun: 2,
        stored: Some(Answer::Value(9)),
        checkpoint: true,
        ..Record::AT_FIRST
    };
    assert_step(done, done);
    for down in [swapping(Status::Down), reading(Status::Down)] {
        assert_step(down, down);
    }
}

#[test]
fn a1_reads_the_word() {
    let read = |stage, word_read, to_store| {
        Status::AtWork(Work {
            stage,
            word_read: Word::from_number(word_read),
            a1: 20,
            a4: 0,
            to_store,
        })
    };
    assert_step(swapping(at(A1)), swapping(read(A2, 7, None)));
    let value = Some(Answer::Value(9));
    assert_step(reading(at(A1)), reading(read(A5, 0x0001_0000_0009, value)));
    // A value other than old: 6 with flip bits.
    let mut bench = Bench::with(0, swapping(at(A1)));
    bench.buffers.words[0] = 0x0003_0000_0006;
    let expected = swapping(read(A5, 0x0003_0000_0006, Some(Answer::False)));
    assert_eq!(bench.after().records[0], expected);
    // One that is old in its low 16 bits only.
    bench.buffers.words[0] = 0x0001_0007;
    let expected = swapping(read(A5, 0x0001_0007, Some(Answer::False)));
    assert_eq!(bench.after().records[0], expected);
    // A read takes the low 32 bits.
    let mut bench = Bench::with(0, reading(at(A1)));
    bench.buffers.words[1] = u64::MAX;
    let value = Some(Answer::Value(u32::MAX));
    let expected = reading(read(A5, u64::MAX, value));
    assert_eq!(bench.after().records[0], expected);
}

/// "keep the opposite of the own flip bit as just read": bit 32 of the word
/// read for process 0, bit 33 for process 1, whatever the word is by now.
#[test]
fn a2_keeps_the_opposite_bit() {
    for (word_read, of_0, of_1) in [
        (0x0000_0000_0007, true, true),
        (0x0001_0000_0007, false, true),
        (0x0002_0000_0007, true, false),
        (0xFFFF_0000_0007, false, false),
        (0xFFFE_0000_0007, true, false),
    ] {
        for (process, kept_bit) in [(0, of_0), (1, of_1)] {
            let record = [swapping, other_swapping][process];
            let mut bench = Bench::with(process, record(attempt(A2, word_read)));
            bench.byte = process as u8;
            let mut expected = bench.clone();
            expected.records[process] = Record {
                kept_bit,
                ..record(attempt(A3, word_read))
            };
            assert_eq!(bench.after(), expected);
        }
    }
}

#[test]
fn a3_sets_the_checkpoint() {
    let checkpoint = true;
    let after = Record {
        checkpoint,
        ..swapping(attempt(A4, 7))
    };
    assert_step(swapping(attempt(A3, 7)), after);
}

/// The word is as read: new and the own flip bit, a row of the log, true.
#[test]
fn a4_swaps() {
    let bench = Bench::with(0, swapping(attempt(A4, 7)));
    let mut expected = bench.clone();
    expected.records[0] = swapping(at_a5(7, 3, 20, Answer::True));
    expected.buffers.words[0] = 0x0001_0000_0008;
    expected.buffers.log[..5].copy_from_slice(&[20, 0, 0, 1, 0]);
    expected.counts.log = 1;
    assert_eq!(bench.after(), expected);

    // Process 1: its flip bit is bit 33, that of process 0 stays.
    let mut bench = Bench::with(1, other_swapping(attempt(A4, 0x0001_0000_0009)));
    bench.byte = 0x01;
    let after = bench.after();
    assert_eq!(after.buffers.words, [7, 0x0003_0000_0007]);
    assert_eq!(after.buffers.log[..5], [20, 1, 2, 1, 0]);

    // Bits of no process are carried along.
    let word = 0x8001_FFFC << 32 | 7;
    let mut bench = Bench::with(0, swapping(attempt(A4, word)));
    bench.buffers.words[0] = word;
    let words = bench.after().buffers.words;
    assert_eq!(words[0], 0x8001_FFFD << 32 | 8);
}

/// "if the whole word, bits included, is still as read".
#[test]
fn a4_is_lost() {
    let high = [1 << 48 | 7, 1 << 63 | 7, 0x0001_0007, 0x8000_0007];
    for word in [0x0002_0000_0007, 0x0000_0000_0008, 0x0001_0000_0007]
        .into_iter()
        .chain(high)
    {
        let mut bench = Bench::with(0, swapping(attempt(A4, 7)));
        bench.buffers.words[0] = word;
        let mut expected = bench.clone();
        expected.records[0] = swapping(at_a5(7, 3, 20, Answer::False));
        assert_eq!(bench.after(), expected);
    }
}

/// The record behind A5: the same work at A6, and the answer stored.
fn behind_a5(record: Record) -> Record {
    let Status::AtWork(work) = record.status else {
        panic!("not at work");
    };
    Record {
        status: Status::AtWork(Work { stage: A6, ..work }),
        stored: work.to_store,
        ..record
    }
}

#[test]
fn a5_stores_true_and_logs_nothing() {
    let before = swapping(at_a5(7, 3, 6, Answer::True));
    assert_step(before, behind_a5(before));
}

/// "a read, or a value that was not old, with the position of its A1"
#[test]
fn a5_logs_at_the_position_of_a1() {
    let value_read = reading(at_a5(0x0001_0000_0009, 3, 6, Answer::Value(9)));
    let not_old = swapping(at_a5(0x0003_0000_0006, 3, 6, Answer::False));
    for (before, row) in [(value_read, [3, 0, 1, 3, 9]), (not_old, [3, 0, 0, 0, 0])] {
        let bench = Bench::with(0, before);
        let mut expected = bench.clone();
        expected.records[0] = behind_a5(before);
        expected.buffers.log[..5].copy_from_slice(&row);
        expected.counts.log = 1;
        assert_eq!(bench.after(), expected);
    }
}

/// Process 0 has lost its swap, with its A1 at 3 and its A4 at 6, and stores
/// that over this log, the last row of which is beyond the count.
fn lost_over(rows: &[[u32; 5]]) -> Bench {
    let mut bench = Bench::with(0, swapping(at_a5(7, 3, 6, Answer::False)));
    bench.buffers.log = rows.concat();
    bench.counts.log = rows.len() - 1;
    bench
}

const BEYOND: [u32; 5] = [4, 1, 0, 1, 0];

/// "A lost swap that finds no such swap in the lent log (a row number not in
/// the file names none) takes its A4's position."
#[test]
fn a_lost_swap_that_finds_no_swap() {
    let no_such_swap = [
        [3, 1, 0, 1, 0],        // not larger than its A1's
        [0, 1, 0, 1, 0],        // smaller
        [9, 1, 1, 1, 0],        // on word 1
        [9, 1, 2, 1, 0],        // on word 1
        [9, 1, 3, 1, 0],        // the file has rows 0 to 2
        [9, 1, u32::MAX, 1, 0], // nor this
        [9, 1, 0, 0, 0],        // false
        [9, 1, 0, 3, 0],        // a value read
        [9, 1, 0, 2, 0],        // no verdict of a log
        [9, 1, 0, 257, 0],      // no verdict at all
    ];
    let new = [6, 0, 0, 0, 0];
    for row in no_such_swap {
        let after = lost_over(&[row, BEYOND]).after();
        let expected = if row[0] <= 6 { [row, new] } else { [new, row] };
        assert_eq!(after.buffers.log, expected.concat());
        assert_eq!(after.counts, Counts { log: 2, answers: 0 });
    }
    // An empty log, too.
    assert_eq!(lost_over(&[BEYOND]).after().buffers.log, new);
}

/// "the front-most log row of a successful swap", in a log that is in no
/// order; process and value of a row do not matter.
#[test]
fn a_lost_swap_takes_the_front_most_swap() {
    let rows = [
        [3, 1, 0, 1, 0],
        [8, 1, 2, 1, 0],
        [7, 1, 99, 1, 0],
        [12, 77, 0, 1, 88],
        [5, 1, 0, 1, 0],
        [13, 1, 0, 1, 0],
        BEYOND,
    ];
    let after = lost_over(&rows).after();
    // Position 12; the last row of equal or smaller position is that of 5.
    let new = [12, 0, 0, 0, 0];
    let expected = [rows[0], rows[1], rows[2], rows[3], rows[4], new, rows[5]];
    assert_eq!(after.buffers.log, expected.concat());
}

/// "directly behind the last row of equal or smaller position, or to the front
/// if there is none; rows from that place to the end move up by one row": in a
/// log that is in no order, with more room than one row.
#[test]
fn the_place_of_a_new_log_row() {
    let positions = [4, 9, 2, 9];
    let old = positions.map(|position| [position, 5, 6, 7, 8]);
    for (a1, place) in [(1, 0), (2, 3), (3, 3), (4, 3), (8, 3), (9, 4), (10, 4)] {
        let mut bench = Bench::with(0, reading(at_a5(9, a1, 0, Answer::Value(9))));
        let beyond: Vec<u32> = (100..113).collect();
        bench.buffers.log = [&old.concat()[..], &beyond[..]].concat();
        bench.counts.log = 4;
        let after = bench.after();
        let mut rows = old.to_vec();
        rows.insert(place, [a1, 0, 1, 3, 9]);
        // The new row takes the place of five numbers behind the last row.
        let expected = [&rows.concat()[..], &beyond[5..]].concat();
        assert_eq!(after.buffers.log, expected);
        assert_eq!(after.counts.log, 5);
    }
}

/// A6 returns the answer that it had to store, V5 the stored one, V6 fail; the
/// row is closed.
#[test]
fn an_answer_is_returned_behind_the_others() {
    let stored = |answer, record| Record {
        stored: Some(answer),
        checkpoint: true,
        kept_bit: true,
        ..record
    };
    let cases = [
        (
            stored(Answer::True, swapping(at_a6(Answer::False))),
            [20, 0, 0, 0, 0],
        ),
        (swapping(at_a6(Answer::True)), [20, 0, 0, 1, 0]),
        (reading(at_a6(Answer::Value(9))), [20, 0, 1, 3, 9]),
        (stored(Answer::False, swapping(at(V5))), [20, 0, 0, 0, 0]),
        (stored(Answer::True, swapping(at(V5))), [20, 0, 0, 1, 0]),
        (stored(Answer::Value(9), reading(at(V5))), [20, 0, 1, 3, 9]),
        (swapping(at(V6)), [20, 0, 0, 2, 0]),
        (reading(at(V6)), [20, 0, 1, 2, 0]),
    ];
    for (before, row) in cases {
        let mut bench = Bench::with(0, before);
        bench.buffers.answers = (100..116).collect();
        bench.counts.answers = 1;
        let mut expected = bench.clone();
        expected.records[0] = Record {
            status: Status::Idle,
            open_row: None,
            ..before
        };
        expected.buffers.answers[5..10].copy_from_slice(&row);
        expected.counts.answers = 2;
        assert_eq!(bench.after(), expected);
    }
}

#[test]
fn a_recovery_goes_by_what_is_kept() {
    let stored = Some(Answer::False);
    let with_answer = |status| Record {
        stored,
        ..swapping(status)
    };
    assert_step(with_answer(at(V1)), with_answer(at(V5)));
    assert_step(swapping(at(V1)), swapping(at(V2)));
    assert_step(swapping(at(V2)), swapping(at(V6)));
    let checkpoint = true;
    let past_a3 = |status| Record {
        checkpoint,
        ..swapping(status)
    };
    assert_step(past_a3(at(V2)), past_a3(at(V3)));
    let true_stored = Record {
        stored: Some(Answer::True),
        ..past_a3(at(V5))
    };
    assert_step(past_a3(at(V4)), true_stored);
}

/// "the own flip bit equal to the kept bit goes to V4, else V6"
#[test]
fn v3_looks_at_the_own_flip_bit() {
    for (word, of_0, of_1) in [
        (0x0000_0000_0005, false, false),
        (0x0001_0000_0005, true, false),
        (0x0002_0000_0005, false, true),
        (0xFFFD_0000_0005, true, false),
    ] {
        for kept_bit in [false, true] {
            for (process, flip_bit) in [(0, of_0), (1, of_1)] {
                let record = [swapping, other_swapping][process];
                let with = |stage| Record {
                    kept_bit,
                    ..record(attempt(stage, word))
                };
                let mut bench = Bench::with(process, with(V3));
                bench.byte = process as u8;
                bench.buffers.words[process] = word;
                let stage = if flip_bit == kept_bit { V4 } else { V6 };
                let mut expected = bench.clone();
                expected.records[process] = with(stage);
                assert_eq!(bench.after(), expected);
            }
        }
    }
}

/// Records in all states that are not down, whatever is kept in them.
fn awake() -> Vec<Record> {
    let kept = |record| Record {
        checkpoint: true,
        kept_bit: true,
        ..record
    };
    vec![
        kept(Record::AT_FIRST),
        kept(Record {
            status: Status::Announcing(Store::OpenRow),
            begun: 1,
            stored: Some(Answer::False),
            ..Record::AT_FIRST
        }),
        kept(swapping(attempt(A4, 7))),
        kept(swapping(at_a5(7, 3, 6, Answer::False))),
        kept(reading(at(V1))),
    ]
}

fn down(record: Record) -> Record {
    let status = Status::Down;
    Record { status, ..record }
}

#[test]
fn a_crash_takes_the_status_and_nothing_else() {
    for before in awake() {
        let mut bench = Bench::with(0, before);
        bench.byte = 0x10;
        let mut expected = bench.clone();
        expected.records[0] = down(before);
        assert_eq!(bench.after(), expected);
        // One that is down already is not to be crashed: change request 7.
        assert_eq!(expected.refusal(), Some((16, 0)));
    }
}

#[test]
fn a_wake_goes_to_v1_or_idle() {
    for before in awake() {
        let mut bench = Bench::with(0, before);
        bench.byte = 0x20;
        assert_eq!(bench.refusal(), Some((16, 0)), "awake already");
        bench.records[0] = down(before);
        let mut expected = bench.clone();
        expected.records[0].status = match before.open_row {
            Some(_) => at(V1),
            None => Status::Idle,
        };
        assert_eq!(bench.after(), expected);
    }
}

/// "the process not named left as it was unless the byte is F0"; "Crash of
/// all: every awake process goes down." The list has records beyond P, also
/// some that are of no process at all: no key touches them.
#[test]
fn records_not_named_and_records_beyond_p() {
    let of_no_process = Record {
        begun: 99,
        ..swapping(at(A5))
    };
    for other in [other_swapping(at(A1)), other_swapping(Status::Down)] {
        for named in awake() {
            let mut bench = Bench::new();
            bench.records = vec![named, other, Record::AT_FIRST, of_no_process];
            // A wake of the one and a crash or a wake of the other are idle.
            for byte in [0x00, 0x10] {
                bench.byte = byte;
                assert_eq!(bench.after().records[1..], bench.records[1..]);
            }
            let turn = if other.status == Status::Down {
                0x21
            } else {
                0x11
            };
            for byte in [0x01, turn] {
                bench.byte = byte;
                let after = bench.after();
                assert_eq!(after.records[0], bench.records[0]);
                assert_eq!(after.records[2..], bench.records[2..]);
            }
            bench.byte = 0xF0;
            let mut expected = bench.clone();
            expected.records[..2].copy_from_slice(&[down(named), down(other)]);
            assert_eq!(bench.after(), expected);
        }
    }
}
