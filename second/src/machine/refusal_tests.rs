//! Each refusal with its place, the order of the checks, and the buffers.

use super::{run, Buffers, Ran};

/// Two processes, two words, three rows, four schedule bytes: the rows begin
/// at 19, 27 and 35, the schedule at 43, and the file has 47 bytes.
const FILE: [u8; 47] = [
    0x53, 0x57, 0x52, 1, 0, 2, 2, 3, 0, 4, 0, // header
    7, 0, 0, 0, 9, 0, 1, 0, // words
    0, 1, 0, 0, 7, 0, 8, 0, // p0, word 0, 7>8
    0, 0, 1, 0, 0, 0, 0, 0, // p0 reads word 1
    1, 1, 1, 0, 9, 0, 7, 0, // p1, word 1, 9>7
    0, 0x10, 0x20, 0xF0, // schedule
];

fn lent(words: usize, log: usize, answers: usize) -> Buffers {
    Buffers {
        words: vec![11; words],
        log: vec![12; log],
        answers: vec![13; answers],
    }
}

/// Number and place of the refusal of a file, with buffers that are long
/// enough; and the buffers are untouched.
fn refused(file: &[u8]) -> Option<(u32, usize)> {
    refused_with(file, lent(16, 5120, 5120))
}

fn refused_with(file: &[u8], mut buffers: Buffers) -> Option<(u32, usize)> {
    let refusal = run(file, &mut buffers).err()?;
    assert!(buffers.words.iter().all(|number| *number == 11));
    assert!(buffers.log.iter().all(|number| *number == 12));
    assert!(buffers.answers.iter().all(|number| *number == 13));
    Some((refusal.number(), refusal.place))
}

/// The file with some bytes changed.
fn with(changes: &[(usize, u8)]) -> Vec<u8> {
    let mut file = FILE.to_vec();
    for (at, byte) in changes {
        file[*at] = *byte;
    }
    file
}

#[test]
fn the_file_itself_is_not_refused() {
    assert_eq!(refused(&FILE), None);
}

#[test]
fn refusals_of_the_header() {
    for length in 0..11 {
        assert_eq!(refused(&FILE[..length]), Some((1, 0)));
    }
    for at in 0..3 {
        assert_eq!(refused(&with(&[(at, b's')])), Some((2, 0)));
    }
    for (low, high) in [(0, 0), (3, 0), (0, 1), (1, 1), (2, 1), (0, 2), (255, 255)] {
        assert_eq!(refused(&with(&[(3, low), (4, high)])), Some((3, 0)));
    }
    // A file of version 2 would be longer.
    assert_eq!(refused(&with(&[(3, 2)])), Some((8, 0)));
    for count in [0, 17, 255] {
        assert_eq!(refused(&with(&[(5, count)])), Some((4, 0)));
        assert_eq!(refused(&with(&[(6, count)])), Some((5, 0)));
    }
    for (low, high, number) in [(1, 2, 6), (0, 2, 8), (0, 3, 6)] {
        assert_eq!(refused(&with(&[(7, low), (8, high)])), Some((number, 0)));
    }
    for (low, high, number) in [(1, 4, 7), (0, 4, 8), (0, 5, 7)] {
        assert_eq!(refused(&with(&[(9, low), (10, high)])), Some((number, 0)));
    }
}

#[test]
fn refusal_8_for_every_other_length() {
    for length in 11..47 {
        assert_eq!(refused(&FILE[..length]), Some((8, 0)));
    }
    let mut longer = FILE.to_vec();
    longer.push(0);
    assert_eq!(refused(&longer), Some((8, 0)));
}

/// Each field faulty by itself; the place is the field's first byte.
#[test]
fn refusal_9_for_every_field_of_a_row() {
    let faults: [(&[(usize, u8)], usize); 19] = [
        (&[(35, 2)], 35),
        (&[(35, 255)], 35),
        (&[(19, 2)], 19),
        (&[(36, 2)], 36),
        (&[(36, 255)], 36),
        (&[(37, 2)], 37),
        (&[(37, 255)], 37),
        (&[(38, 1)], 38),
        (&[(38, 255)], 38),
        // A read, of which old or new has its low byte, its high byte or both.
        (&[(31, 1)], 31),
        (&[(32, 1)], 31),
        (&[(31, 255), (32, 255)], 31),
        (&[(33, 1)], 33),
        (&[(34, 1)], 33),
        (&[(33, 255), (34, 255)], 33),
        // A compare row made a read: its old and new are faulty from then on.
        (&[(36, 0)], 39),
        (&[(36, 0), (41, 0)], 39),
        (&[(36, 0), (39, 0)], 41),
        (&[(20, 0)], 23),
    ];
    for (fault, place) in faults {
        assert_eq!(refused(&with(fault)), Some((9, place)));
    }
}

/// The bytes of a read of word 1 by process 0 with these fields faulty, by
/// number in file order.
fn faulty_row(fields: &[usize]) -> [u8; 8] {
    let mut row = [0, 0, 1, 0, 0, 0, 0, 0];
    for field in fields {
        let (at, byte) = FAULTS[*field];
        row[at] = byte;
    }
    row
}

/// A fault for each field of a row, by offset.
const FAULTS: [(usize, u8); 6] = [(0, 2), (1, 2), (2, 2), (3, 1), (4, 9), (6, 9)];

#[test]
fn the_first_faulty_field_of_a_row_is_told() {
    let mut file = FILE.to_vec();
    for (first, (offset, _)) in FAULTS.iter().enumerate() {
        let place = 27 + offset;
        for second in first..6 {
            file[27..35].copy_from_slice(&faulty_row(&[first, second]));
            assert_eq!(refused(&file), Some((9, place)));
        }
        let all_from_there: Vec<usize> = (first..6).collect();
        file[27..35].copy_from_slice(&faulty_row(&all_from_there));
        assert_eq!(refused(&file), Some((9, place)));
    }
}

/// Also if the later row is faulty in an earlier field.
#[test]
fn the_first_faulty_row_is_told() {
    let mut file = FILE.to_vec();
    for (begins, later) in [(19, 27), (27, 35), (19, 35)] {
        for (field, (offset, _)) in FAULTS.iter().enumerate() {
            for other in 0..6 {
                file.copy_from_slice(&FILE);
                file[begins..begins + 8].copy_from_slice(&faulty_row(&[field]));
                file[later..later + 8].copy_from_slice(&faulty_row(&[other]));
                assert_eq!(refused(&file), Some((9, begins + offset)));
            }
        }
    }
}

#[test]
fn refusals_10_to_12_with_their_places() {
    assert_eq!(refused(&with(&[(19, 1)])), Some((10, 27)));
    assert_eq!(refused(&with(&[(27, 1), (35, 0)])), Some((10, 35)));
    assert_eq!(refused(&with(&[(23, 8)])), Some((11, 19)));
    assert_eq!(refused(&with(&[(39, 7)])), Some((11, 35)));
    for byte in [0x02, 0x12, 0x22, 0x30, 0xE0, 0xF1, 0xFF] {
        assert_eq!(refused(&with(&[(44, byte)])), Some((12, 44)));
        assert_eq!(refused(&with(&[(46, byte)])), Some((12, 46)));
    }
}

/// The file with this schedule.
fn with_schedule(schedule: &[u8]) -> Vec<u8> {
    let mut file = FILE[..43].to_vec();
    file[9] = schedule.len() as u8;
    file.extend(schedule);
    file
}

/// "A crash of a process already down, or a wake of one already up", at the
/// "place of the first such byte" (change request 7). The schedule begins at 43.
#[test]
fn refusal_16_for_idle_crashes_and_wakes() {
    for (schedule, at) in [
        (&[0x20][..], 0),
        (&[0x21], 0),
        (&[0x10, 0x10], 1),
        (&[0x10, 0x00, 0x10], 2),
        (&[0x10, 0x21], 1),
        (&[0xF0, 0x11], 1),
        (&[0xF0, 0x20, 0x20], 2),
        (&[0xF0, 0x20, 0x10, 0x20, 0x11], 4),
        (&[0x10, 0x20, 0x21, 0x20], 2),
    ] {
        assert_eq!(refused(&with_schedule(schedule)), Some((16, 43 + at)));
        // With or without what stands behind it.
        let longer = [schedule, &[0x00, 0x10, 0xF0, 0xF0]].concat();
        assert_eq!(refused(&with_schedule(&longer)), Some((16, 43 + at)));
        // Every check before it goes over the whole file first.
        let longer = [schedule, &[0x30]].concat();
        let place = 43 + schedule.len();
        assert_eq!(refused(&with_schedule(&longer)), Some((12, place)));
        assert_eq!(refused(&with_schedule(&schedule[..at])), None);
    }
}

/// "F0 is always allowed, and so is a step of a process that is down."
#[test]
fn what_is_not_refused_by_16() {
    for schedule in [
        &[0xF0, 0xF0, 0xF0][..],
        &[0x10, 0xF0, 0x20, 0x21],
        &[0x10, 0x11, 0xF0, 0xF0, 0x21],
        &[0x10, 0x00, 0x00, 0x01, 0x20],
        &[0x10, 0x20, 0x10, 0x20],
        &[0x11, 0x10, 0x20, 0x21],
        // A step of one that is idle with no rows left, too.
        &[1; 20],
    ] {
        assert_eq!(refused(&with_schedule(schedule)), None);
    }
}

/// Processes that are not there: their bytes are no action, so 12 goes before.
#[test]
fn a_process_that_is_not_there_is_refused_by_12() {
    for byte in [0x12, 0x22, 0x1F, 0x2F] {
        assert_eq!(refused(&with_schedule(&[0x20, byte])), Some((12, 44)));
        assert_eq!(refused(&with_schedule(&[byte, byte])), Some((12, 43)));
    }
}

/// "Each check goes over the whole file before the next begins, and the first
/// offender is reported."
#[test]
fn checks_go_in_the_order_of_the_table() {
    // From the last check to the first: each fault is added in front.
    let mut file = FILE.to_vec();
    let mut expect = |changes: &[(usize, u8)], number: u32, place: usize| {
        for (at, byte) in changes {
            file[*at] = *byte;
        }
        assert_eq!(refused_with(&file, lent(0, 0, 0)), Some((number, place)));
    };
    expect(&[], 13, 0);
    expect(&[(46, 0x21)], 16, 46);
    expect(&[(45, 0x10)], 16, 45);
    expect(&[(45, 0x30)], 12, 45);
    expect(&[(43, 0xF1)], 12, 43);
    expect(&[(23, 8)], 11, 19);
    expect(&[(27, 1), (35, 0)], 10, 35);
    expect(&[(41, 0), (36, 0)], 9, 39);
    expect(&[(38, 1)], 9, 38);
    expect(&[(34, 1)], 9, 33);
    expect(&[(9, 5)], 8, 0);
    expect(&[(10, 5)], 7, 0);
    expect(&[(8, 3)], 6, 0);
    expect(&[(6, 0)], 5, 0);
    expect(&[(5, 17)], 4, 0);
    expect(&[(3, 9)], 3, 0);
    expect(&[(2, 0)], 2, 0);
}

#[test]
fn refusals_of_the_buffers() {
    assert_eq!(refused_with(&FILE, lent(2, 20, 20)), None);
    assert_eq!(refused_with(&FILE, lent(1, 20, 20)), Some((13, 0)));
    assert_eq!(refused_with(&FILE, lent(1, 19, 19)), Some((13, 0)));
    assert_eq!(refused_with(&FILE, lent(2, 19, 20)), Some((14, 0)));
    assert_eq!(refused_with(&FILE, lent(2, 19, 0)), Some((14, 0)));
    assert_eq!(refused_with(&FILE, lent(2, 20, 19)), Some((15, 0)));
}

#[test]
fn the_longest_file_has_5195_bytes_and_is_not_refused() {
    let mut file = b"SWR\x01\x00\x10\x10\x00\x02\x00\x04".to_vec();
    file.extend([0; 16 * 4]);
    for _ in 0..512 {
        file.extend([15, 0, 15, 0, 0, 0, 0, 0]);
    }
    file.extend([0x0F; 1024]);
    assert_eq!(file.len(), 5195);
    let ran = run(&file, &mut lent(16, 5120, 5120));
    // A read takes six steps, so 1,024 steps answer 170 of the rows; the four
    // steps left over do not come to an A5.
    let expected = Ran {
        processes: 16,
        words: 16,
        rows: 512,
        schedule: 1024,
        log_rows: 170,
        answer_rows: 170,
    };
    assert_eq!(ran, Ok(expected));
}

/// "All numbers beyond stay as they were."
#[test]
fn a_run_writes_from_the_front_and_nothing_beyond() {
    let mut file = with(&[(9, 6)]);
    file.truncate(43);
    file.extend([1; 6]);
    let mut buffers = lent(4, 35, 35);
    assert!(run(&file, &mut buffers).is_ok());
    assert_eq!(buffers.words, [7, 0x0001_0000_0009, 11, 11]);
    assert_eq!(buffers.log, [12; 35]);
    assert_eq!(buffers.answers, [13; 35]);

    file[19..27].copy_from_slice(&[0, 0, 1, 0, 0, 0, 0, 0]);
    file[43..].copy_from_slice(&[0; 6]);
    assert!(run(&file, &mut buffers).is_ok());
    assert_eq!(buffers.log[..6], [3, 0, 0, 3, 9, 12]);
    assert_eq!(buffers.answers[..6], [5, 0, 0, 3, 9, 13]);
}
