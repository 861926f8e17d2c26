//! Every short schedule behind a whole swap or a whole advance, run by the
//! machine and held against the checker: whatever is cut off between any two
//! steps, nothing of the first row may show in the second.

use crate::checker;
use crate::stream::{Lengths, Record};
use crate::sweep::print_record;

/// Every schedule of so many of these bytes.
fn every_schedule(bytes: &[u8], length: usize) -> Vec<Vec<u8>> {
    let mut schedules = vec![Vec::new()];
    for _ in 0..length {
        let longer = |schedule: &Vec<u8>| {
            let schedule = schedule.clone();
            bytes
                .iter()
                .map(move |byte| [&schedule[..], &[*byte]].concat())
        };
        schedules = schedules.iter().flat_map(longer).collect();
    }
    schedules
}

/// A crash of process 0 if it is up, and its wake if it is down.
const TURN: u8 = 0x10;

/// Every schedule of so many of these bytes that has no idle byte: [`TURN`]
/// stands for whichever is not idle.
fn every_lawful(bytes: &[u8], length: usize) -> Vec<Vec<u8>> {
    let mut schedules = every_schedule(bytes, length);
    for schedule in &mut schedules {
        let turns = schedule.iter_mut().filter(|byte| **byte == TURN);
        turns.skip(1).step_by(2).for_each(|byte| *byte = 0x20);
    }
    schedules
}

/// What process 0 is to do in its second row: kind and four bytes of old and
/// new.
const SWAP_8_FOR_9: [u8; 5] = [1, 8, 0, 9, 0];
const READ: [u8; 5] = [0, 0, 0, 0, 0];

/// One word at 7. Process 0 swaps 7 for 8 before the schedule and has a second
/// row; process 1 is to swap 8 for 7.
fn record([kind, values @ ..]: [u8; 5], schedule: &[u8]) -> Record {
    let mut file = b"SWR\x01\x00\x02\x01\x03\x00".to_vec();
    file.extend([9 + schedule.len() as u8, 0, 7, 0, 0, 0]);
    file.extend([0, 1, 0, 0, 7, 0, 8, 0]);
    file.extend([0, kind, 0, 0]);
    file.extend(values);
    file.extend([1, 1, 0, 0, 8, 0, 7, 0]);
    file.extend([0; 9]);
    file.extend(schedule);
    Record {
        file,
        lengths: Lengths {
            words: 1,
            log: 5 * (9 + schedule.len()),
            answers: 5 * (9 + schedule.len()),
        },
    }
}

/// Four bytes of old and four of new, and the kind.
type WideRow = (u8, u32, u32);

/// One word 1,000 below the end, in a file of version 2. Process 0 advances it
/// by 1,460 to 460 before the schedule and advances it by 536 then; process 1
/// has this row.
fn advance_record((kind, old, new): WideRow, schedule: &[u8]) -> Record {
    let mut file = b"SWR\x02\x00\x02\x01\x03\x00".to_vec();
    file.extend([9 + schedule.len() as u8, 0]);
    file.extend([0x18, 0xFC, 0xFF, 0xFF, 0, 0, 0, 0]);
    for (process, kind, old, new) in [(0, 2, 0, 1_460), (0, 2, 0, 536u32), (1, kind, old, new)] {
        file.extend([process, kind, 0, 0]);
        file.extend(old.to_le_bytes());
        file.extend(new.to_le_bytes());
    }
    file.extend([0; 9]);
    file.extend(schedule);
    Record {
        file,
        lengths: Lengths {
            words: 1,
            log: 5 * (9 + schedule.len()),
            answers: 5 * (9 + schedule.len()),
        },
    }
}

/// Of schedules with no idle byte: all are run.
fn hold(second_row: [u8; 5], schedules: &[Vec<u8>]) {
    let refused = hold_records(schedules, |schedule| record(second_row, schedule));
    assert_eq!(refused, 0);
}

fn hold_advances(other_row: WideRow, schedules: &[Vec<u8>]) {
    let refused = hold_records(schedules, |schedule| advance_record(other_row, schedule));
    assert_eq!(refused, 0);
}

/// How many are refused by 16; none is by another number.
fn hold_records(schedules: &[Vec<u8>], record: impl Fn(&[u8]) -> Record) -> usize {
    let (mut stream, mut outcomes, mut said) = (Vec::new(), Vec::new(), Vec::new());
    for schedule in schedules {
        let record = record(schedule);
        record.write(&mut stream).unwrap();
        print_record(&record, &mut outcomes).unwrap();
    }
    checker::check(&mut &stream[..], &mut &outcomes[..], &mut said).unwrap();
    let said = String::from_utf8(said).unwrap();
    let expected = format!("{} records checked, no violation\n", schedules.len());
    assert!(said.starts_with(&expected), "{said}");
    let outcomes = String::from_utf8(outcomes).unwrap();
    let refused = |by: &str| outcomes.lines().filter(|line| line.starts_with(by)).count();
    assert_eq!(refused("refused "), refused("refused 16 "));
    refused("refused 16 ")
}

#[test]
fn thirteen_bytes_of_one_process() {
    let schedules = every_lawful(&[0x00, TURN], 13);
    hold(SWAP_8_FOR_9, &schedules);
    hold(READ, &schedules);
}

#[test]
fn eight_bytes_with_another_at_its_swap() {
    // Process 1 is about to do its A4, or is just behind it, when process 0
    // has read the word for its second row.
    for steps in [6, 7] {
        let schedules = every_lawful(&[0x00, TURN, 0x01], 8);
        let behind: Vec<Vec<u8>> = schedules
            .iter()
            .map(|schedule| [&vec![0x01; steps][..], &[0; 4], schedule].concat())
            .collect();
        hold(SWAP_8_FOR_9, &behind);
    }
}

/// Also those that 16 refuses: the checker tells from the bytes alone which. Of
/// the crash and the wake of a process always one is idle.
#[test]
fn every_schedule_with_idle_bytes_among_them() {
    let schedules = every_schedule(&[0x00, 0x10, 0x20], 7);
    let refused = hold_records(&schedules, |schedule| record(SWAP_8_FOR_9, schedule));
    assert_eq!(refused, 3usize.pow(7) - 2usize.pow(7));
    let schedules = every_schedule(&[0x00, 0x10, 0x20, 0x11, 0x21, 0xF0], 5);
    let refused = hold_records(&schedules, |schedule| record(SWAP_8_FOR_9, schedule));
    assert_eq!(refused, 6usize.pow(5) - 4usize.pow(5));
    let refused = hold_records(&schedules, |schedule| advance_record(BACK_BY_500, schedule));
    assert_eq!(refused, 6usize.pow(5) - 4usize.pow(5));
}

/// Process 1's row: an advance that goes round, and a swap of the 460.
const BACK_BY_500: WideRow = (2, 0, 4_294_966_796);
const SWAP_460_FOR_7: WideRow = (1, 460, 7);

#[test]
fn thirteen_bytes_of_one_that_advances() {
    hold_advances(BACK_BY_500, &every_lawful(&[0x00, TURN], 13));
}

#[test]
fn eight_bytes_of_an_advance_with_another_at_its_swap() {
    for other_row in [BACK_BY_500, SWAP_460_FOR_7] {
        for steps in [6, 7] {
            let schedules = every_lawful(&[0x00, TURN, 0x01], 8);
            let behind: Vec<Vec<u8>> = schedules
                .iter()
                .map(|schedule| [&vec![0x01; steps][..], &[0; 4], schedule].concat())
                .collect();
            hold_advances(other_row, &behind);
        }
    }
}

/// Process 0 is about to lose its first round; so the crashes fall into its
/// second one.
#[test]
fn nine_bytes_behind_a_lost_round() {
    let schedules = every_lawful(&[0x00, TURN, 0x01], 9);
    let behind: Vec<Vec<u8>> = schedules
        .iter()
        .map(|schedule| [&[1; 6][..], &[0; 6], &[1, 0], schedule].concat())
        .collect();
    hold_advances(BACK_BY_500, &behind);
    hold_advances(SWAP_460_FOR_7, &behind);
}
