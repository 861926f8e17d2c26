//! The refusals of a key in their order: "1 to 12 come from [the file]; then
//! 13 also for a list shorter than P; 14 and 15 mean no room for one more row;
//! 21 ...; 22, a key byte that is no action. Places of 13 on are 0, and
//! nothing is changed." By change request 7 there is 16 "only for the key byte,
//! after 22, place 0". That nothing is changed is asserted by the bench.

use crate::machine::Store;

use super::test_bench::{at, swapping, Bench};
use super::{Record, Stage, Status};

/// From the last check to the first: each fault is added in front.
#[test]
fn checks_go_in_their_order() {
    let mut bench = Bench::new();
    assert_eq!(bench.refusal(), None);
    bench.byte = 0x21;
    assert_eq!(bench.refusal(), Some((16, 0)));
    // No action at all, though its low bits name one that is up.
    bench.byte = 0x31;
    assert_eq!(bench.refusal(), Some((22, 0)));
    bench.records[1].begun = 2;
    assert_eq!(bench.refusal(), Some((21, 0)));
    bench.position = 1_024;
    assert_eq!(bench.refusal(), Some((21, 0)));
    bench.counts.answers = 2;
    assert_eq!(bench.refusal(), Some((15, 0)));
    bench.counts.log = 2;
    assert_eq!(bench.refusal(), Some((14, 0)));
    bench.records.truncate(1);
    assert_eq!(bench.refusal(), Some((13, 0)));
    bench.buffers.words.truncate(1);
    assert_eq!(bench.refusal(), Some((13, 0)));
    add_file_faults(&mut bench);
}

/// Bytes changed, by place; the refusal, and its place.
type FileFault = (&'static [(usize, u8)], u32, usize);

/// The same, from 12 down to 1, with the places of document 01 and of change
/// request 2. Rows begin at 19, 27 and 35, the schedule at 43.
fn add_file_faults(bench: &mut Bench) {
    let faults: [FileFault; 12] = [
        (&[(46, 0xF1)], 12, 46),
        (&[(23, 8)], 11, 19),
        (&[(27, 1), (35, 0)], 10, 35),
        (&[(41, 0), (36, 0)], 9, 39),
        (&[(34, 1)], 9, 33),
        (&[(9, 5)], 8, 0),
        (&[(10, 5)], 7, 0),
        (&[(8, 3)], 6, 0),
        (&[(6, 0)], 5, 0),
        (&[(5, 17)], 4, 0),
        (&[(3, 9)], 3, 0),
        (&[(2, 0)], 2, 0),
    ];
    for (changes, number, place) in faults {
        for (at, byte) in changes {
            bench.file[*at] = *byte;
        }
        assert_eq!(bench.refusal(), Some((number, place)));
    }
    bench.file.truncate(10);
    assert_eq!(bench.refusal(), Some((1, 0)));
}

/// Each alone: nothing else is wrong.
#[test]
fn words_under_w_or_a_list_shorter_than_p() {
    for words in [0, 1] {
        let mut bench = Bench::new();
        bench.buffers.words.truncate(words);
        assert_eq!(bench.refusal(), Some((13, 0)));
    }
    for records in [0, 1] {
        let mut bench = Bench::new();
        bench.records.truncate(records);
        assert_eq!(bench.refusal(), Some((13, 0)));
    }
    let mut longer = Bench::new();
    longer.buffers.words.push(5);
    longer.records.push(Record::AT_FIRST);
    assert_eq!(longer.refusal(), None);
}

/// Also for a key that would add no row, as this step of an idle process.
#[test]
fn no_room_for_one_more_row() {
    // Numbers lent, rows there, whether one more fits.
    let rooms = [
        (0, 0, false),
        (4, 0, false),
        (5, 0, true),
        (9, 1, false),
        (10, 1, true),
        (10, 2, false),
        (14, 2, false),
        (15, 2, true),
        (15, usize::MAX, false),
        (15, usize::MAX / 5, false),
    ];
    for (lent, rows, fits) in rooms {
        let mut bench = Bench::new();
        bench.buffers.log = vec![0; lent];
        bench.counts.log = rows;
        assert_eq!(bench.refusal(), (!fits).then_some((14, 0)));
        let mut bench = Bench::new();
        bench.buffers.answers = vec![0; lent];
        bench.counts.answers = rows;
        assert_eq!(bench.refusal(), (!fits).then_some((15, 0)));
    }
}

/// "A byte is refused if its action is none, if its process is P or more for
/// 0, 1 and 2, or if its low bits are not 0 for 15."
#[test]
fn a_key_byte_that_is_no_action() {
    for byte in 0..=u8::MAX {
        let mut bench = Bench::with(0, swapping(Status::Down));
        bench.byte = byte;
        let refusal = match byte {
            // Process 0 is down, process 1 is up.
            0x00 | 0x01 | 0x11 | 0x20 | 0xF0 => None,
            0x10 | 0x21 => Some((16, 0)),
            _ => Some((22, 0)),
        };
        assert_eq!(bench.refusal(), refusal, "{byte:02x}");
    }
}

/// By the record as it stands, whatever it is doing; the file's own schedule,
/// in which process 1 is woken while it is up, has no say.
#[test]
fn an_idle_key() {
    let statuses = [
        Status::Down,
        Status::Idle,
        Status::Announcing(Store::ClearCheckpoint),
        Status::Announcing(Store::OpenRow),
        at(Stage::A1),
        at(Stage::A4),
        at(Stage::V1),
        at(Stage::V6),
    ];
    for status in statuses {
        let open_row = matches!(status, Status::Down | Status::AtWork(_)).then_some(0);
        let record = Record {
            status,
            open_row,
            begun: 1,
            ..Record::AT_FIRST
        };
        let is_down = status == Status::Down;
        for (byte, idle) in [
            (0x00, false),
            (0x10, is_down),
            (0x20, !is_down),
            (0xF0, false),
        ] {
            let mut bench = Bench::with(0, record);
            bench.byte = byte;
            assert_eq!(bench.refusal(), idle.then_some((16, 0)), "{byte:02x}");
        }
    }
    // All are down.
    let mut bench = Bench::new();
    for record in &mut bench.records {
        record.status = Status::Down;
    }
    bench.byte = 0xF0;
    assert_eq!(bench.after(), bench);
}
