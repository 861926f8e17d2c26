//! Each condition of refusal 21, alone: "a position over 1,023, or one of the
//! first P records with more rows begun than its process has, an open row
//! that is not the last it began, an open row while idle or announcing, none
//! at a later stage, announcing with no row left, no answer at A5, A6 or V5,
//! or a stage or answer its row's kind never has". Beside each stands what is
//! just not refused.

use crate::machine::Store;

use super::test_bench::{at, at_a5, at_a6, reading, swapping, Bench};
use super::{Answer, Record, Stage, Status};

use Stage::{A1, A2, A3, A4, A5, A6, V1, V2, V3, V4, V5, V6};

const STORES: [Store; 2] = [Store::ClearCheckpoint, Store::OpenRow];
const VALUE: Answer = Answer::Value(9);

/// Refused by 21, whatever process a key names, and whatever it does to it;
/// only no action at all would be 22.
fn assert_refused(process: usize, record: Record) {
    for byte in [0x00, 0x01, 0x10, 0x11, 0x20, 0x21, 0xF0, 0x30] {
        let mut bench = Bench::with(process, record);
        bench.byte = byte;
        assert_eq!(bench.refusal(), Some((21, 0)), "{record:?}");
    }
}

/// By 21, and by nothing else but 16 where the key is idle.
fn assert_accepted(process: usize, record: Record) {
    for byte in [0x00, 0x01, 0x10, 0x11, 0x20, 0x21, 0xF0] {
        let mut bench = Bench::with(process, record);
        bench.byte = byte;
        let is_down = bench.records[usize::from(byte & 1)].status == Status::Down;
        let idle = match byte >> 4 {
            1 => is_down,
            2 => !is_down,
            _ => false,
        };
        let refusal = idle.then_some((16, 0));
        assert_eq!(bench.refusal(), refusal, "{record:?}");
    }
}

fn stored(answer: Answer, record: Record) -> Record {
    Record {
        stored: Some(answer),
        ..record
    }
}

/// With what a swap has at this stage, answers and all.
fn swapping_at(stage: Stage) -> Record {
    match stage {
        A5 => swapping(at_a5(7, 3, 6, Answer::False)),
        A6 => swapping(at_a6(Answer::False)),
        V5 => stored(Answer::False, swapping(at(V5))),
        _ => swapping(at(stage)),
    }
}

#[test]
fn a_position_over_1023() {
    for (position, refusal) in [
        (1_023, None),
        (1_024, Some((21, 0))),
        (u32::MAX, Some((21, 0))),
    ] {
        let mut bench = Bench::new();
        bench.position = position;
        assert_eq!(bench.refusal(), refusal);
    }
}

/// Process 0 has two rows, process 1 has one.
#[test]
fn more_rows_begun_than_its_process_has() {
    for status in [Status::Idle, Status::Down] {
        let with = |begun| Record {
            status,
            begun,
            ..Record::AT_FIRST
        };
        for begun in 0..=2 {
            assert_accepted(0, with(begun));
        }
        assert_accepted(1, with(1));
        assert_refused(0, with(3));
        assert_refused(0, with(usize::MAX));
        assert_refused(1, with(2));
    }
}

#[test]
fn an_open_row_that_is_not_the_last_it_began() {
    for status in [Status::Down, at(V1), at(A1)] {
        let with = |open_row, begun| Record {
            status,
            open_row: Some(open_row),
            begun,
            ..Record::AT_FIRST
        };
        assert_accepted(0, with(0, 1));
        assert_accepted(0, with(1, 2));
        assert_accepted(1, with(2, 1));
        // The row before, the next one, one when none is begun.
        assert_refused(0, with(0, 2));
        assert_refused(0, with(1, 1));
        assert_refused(0, with(0, 0));
        // Another process's row, and one that no file has.
        assert_refused(0, with(2, 1));
        assert_refused(0, with(2, 2));
        assert_refused(1, with(0, 1));
        assert_refused(0, with(3, 2));
        assert_refused(1, with(usize::MAX, 1));
    }
}

#[test]
fn an_open_row_while_idle() {
    assert_refused(0, swapping(Status::Idle));
    assert_refused(0, reading(Status::Idle));
    let closed = Record {
        open_row: None,
        ..swapping(Status::Idle)
    };
    assert_accepted(0, closed);
}

#[test]
fn an_open_row_while_announcing() {
    // One row is begun and one is left, so that nothing else is wrong.
    for store in STORES {
        let open = swapping(Status::Announcing(store));
        assert_refused(0, open);
        let open_row = None;
        assert_accepted(0, Record { open_row, ..open });
    }
}

#[test]
fn no_open_row_at_a_later_stage() {
    for stage in [A1, A2, A3, A4, A5, A6, V1, V2, V3, V4, V5, V6] {
        let open = swapping_at(stage);
        assert_accepted(0, open);
        let open_row = None;
        assert_refused(0, Record { open_row, ..open });
    }
}

/// One that is down may have a row open or not.
#[test]
fn down_with_a_row_and_without() {
    let down = swapping(Status::Down);
    assert_accepted(0, down);
    let open_row = None;
    assert_accepted(0, Record { open_row, ..down });
}

#[test]
fn announcing_with_no_row_left() {
    for store in STORES {
        let with = |begun| Record {
            status: Status::Announcing(store),
            begun,
            ..Record::AT_FIRST
        };
        assert_accepted(0, with(0));
        assert_accepted(0, with(1));
        assert_refused(0, with(2));
        assert_accepted(1, with(0));
        assert_refused(1, with(1));
    }
}

#[test]
fn no_answer_at_a5_a6_or_v5() {
    assert_refused(0, swapping(at(A5)));
    assert_refused(0, reading(at(A5)));
    // What is stored is not what is to be stored.
    assert_refused(0, stored(Answer::True, swapping(at(A5))));
    assert_accepted(0, swapping(at_a5(7, 3, 6, Answer::True)));
    assert_accepted(0, reading(at_a5(9, 3, 0, VALUE)));
    // A6 returns the answer that A5 was to store.
    assert_refused(0, swapping(at(A6)));
    assert_refused(0, stored(VALUE, reading(at(A6))));
    assert_accepted(0, swapping(at_a6(Answer::True)));
    assert_accepted(0, reading(at_a6(VALUE)));
    assert_refused(0, swapping(at(V5)));
    assert_refused(0, reading(at(V5)));
    assert_accepted(0, stored(Answer::True, swapping(at(V5))));
    assert_accepted(0, stored(VALUE, reading(at(V5))));
}

#[test]
fn a_stage_that_a_read_never_has() {
    for stage in [A2, A3, A4, V3, V4] {
        assert_refused(0, reading(at(stage)));
        assert_accepted(0, swapping(at(stage)));
    }
    for stage in [A1, V1, V2, V6] {
        assert_accepted(0, reading(at(stage)));
    }
}

#[test]
fn a_stored_answer_that_the_rows_kind_never_has() {
    for status in [Status::Down, at(A1), at(V1), at(V5)] {
        for answer in [Answer::False, Answer::True] {
            assert_accepted(0, stored(answer, swapping(status)));
            assert_refused(0, stored(answer, reading(status)));
        }
        assert_accepted(0, stored(VALUE, reading(status)));
        assert_refused(0, stored(VALUE, swapping(status)));
    }
}

#[test]
fn an_answer_to_store_that_the_rows_kind_never_has() {
    for answer in [Answer::False, Answer::True] {
        assert_refused(0, reading(at_a5(9, 3, 0, answer)));
        assert_refused(0, reading(at_a6(answer)));
    }
    assert_refused(0, swapping(at_a5(7, 3, 6, VALUE)));
    assert_refused(0, swapping(at_a6(VALUE)));
}

/// With no row open there is no kind that an answer could be held against: it
/// is left from a row before.
#[test]
fn any_answer_is_left_when_no_row_is_open() {
    let store = Status::Announcing(Store::OpenRow);
    for status in [Status::Down, Status::Idle, store] {
        for answer in [Answer::False, Answer::True, VALUE] {
            let closed = Record {
                status,
                begun: 1,
                ..Record::AT_FIRST
            };
            assert_accepted(0, stored(answer, closed));
        }
    }
}

/// "one of the first P records": those beyond may hold anything.
#[test]
fn a_record_beyond_p_is_not_looked_at() {
    let begun = usize::MAX;
    let unsound = Record {
        begun,
        ..swapping(at(A5))
    };
    for (at, refusal) in [(0, Some((21, 0))), (1, Some((21, 0))), (2, None), (3, None)] {
        let mut bench = Bench::new();
        bench.records = vec![Record::AT_FIRST; 4];
        bench.records[at] = unsound;
        assert_eq!(bench.refusal(), refusal);
    }
}

/// Checkpoint and kept bit may be anything, and so may what A1 to A4 have
/// left in the record.
#[test]
fn bits_words_and_positions_are_no_condition() {
    for (checkpoint, kept_bit) in [(false, true), (true, false), (true, true)] {
        for record in [Record::AT_FIRST, swapping_at(V2), reading(at(V2))] {
            let record = Record {
                checkpoint,
                kept_bit,
                ..record
            };
            assert_accepted(0, record);
        }
    }
    assert_accepted(
        0,
        swapping(at_a5(u64::MAX, u32::MAX, u32::MAX, Answer::True)),
    );
}
