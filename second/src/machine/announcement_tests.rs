//! Change request 1: an operation begins with three stores, and its process
//! "can be cut off between any two". Positions are counted by hand.

use super::{run, Buffers};

/// A row of the log or of the answers.
type Five = [u32; 5];

/// Final word, log and answers of a run over one word that starts at 7. Rows
/// are process, old and new of compare rows.
fn outcome(rows: &[(u8, u16, u16)], schedule: &[u8]) -> (u64, Vec<Five>, Vec<Five>) {
    let processes = rows.iter().map(|row| row.0 + 1).max().unwrap_or(1);
    let mut file = b"SWR\x01\x00".to_vec();
    file.extend([processes, 1, rows.len() as u8, 0]);
    file.extend([schedule.len() as u8, 0]);
    file.extend([7, 0, 0, 0]);
    for (process, old, new) in rows {
        file.extend([*process, 1, 0, 0]);
        file.extend(old.to_le_bytes());
        file.extend(new.to_le_bytes());
    }
    file.extend(schedule);
    let mut buffers = Buffers {
        words: vec![0],
        log: vec![0; 5 * schedule.len()],
        answers: vec![0; 5 * schedule.len()],
    };
    let ran = run(&file, &mut buffers).expect("a valid file");
    let fives = |numbers: &[u32], count: usize| {
        let pieces = crate::pieces::pieces(numbers).take(count);
        pieces.collect::<Vec<Five>>()
    };
    (
        buffers.words[0],
        fives(&buffers.log, ran.log_rows),
        fives(&buffers.answers, ran.answer_rows),
    )
}

/// So many times each byte.
fn times(parts: &[(usize, u8)]) -> Vec<u8> {
    let bytes = parts.iter().flat_map(|(count, byte)| vec![*byte; *count]);
    bytes.collect()
}

/// Process 0 swaps 7 for 8 and is to swap 8 for 9.
const TWO_SWAPS: &[(u8, u16, u16)] = &[(0, 7, 8), (0, 8, 9)];
/// What the first swap leaves behind: 8 and the flip bit of process 0, its
/// row of the log and its answer. Its process has true stored, checkpoint 1
/// and kept bit 1, which is also the flip bit: whatever a recovery of the
/// second row saw of this would make it say true.
const SWAPPED_ONCE: u64 = 0x0001_0000_0008;
const FIRST_LOGGED: Five = [6, 0, 0, 1, 0];
const FIRST_ANSWERED: Five = [8, 0, 0, 1, 0];

#[test]
fn the_first_three_steps_open_the_row_and_six_more_end_it() {
    for steps in 0..9 {
        let (_, _, answers) = outcome(TWO_SWAPS, &vec![0; steps]);
        assert_eq!(answers, [] as [Five; 0]);
    }
    let (word, log, answers) = outcome(TWO_SWAPS, &[0; 9]);
    assert_eq!(word, SWAPPED_ONCE);
    assert_eq!((log, answers), (vec![FIRST_LOGGED], vec![FIRST_ANSWERED]));
}

/// The second row, cut off after each number of stores, begun again and
/// crashed after each number of steps: its recovery sees nothing of the first.
#[test]
fn a_row_begun_again_sees_nothing_of_the_row_before() {
    // Steps done in the row begun again; steps of the recovery; verdict.
    let recoveries = [
        (3, 3, 2), // opened: V1, V2 and V6
        (4, 3, 2), // A1
        (5, 3, 2), // A2: the kept bit is there, but no checkpoint
        (6, 4, 2), // A3: V1, V2, V3 and V6
        (7, 5, 1), // A4: V1 to V5
        (8, 2, 1), // A5: V1 and V5
    ];
    for stores in 1..=2 {
        for (done, recovery, verdict) in recoveries {
            let schedule = times(&[
                (9, 0x00),
                (stores, 0x00),
                (1, 0x10),
                (1, 0x20),
                (done, 0x00),
                (1, 0x10),
                (1, 0x20),
                (recovery, 0x00),
            ]);
            let begun_again = 9 + stores as u32 + 2;
            let end = schedule.len() as u32 - 1;
            let swapped = verdict == 1;
            let (word, log, answers) = outcome(TWO_SWAPS, &schedule);
            assert_eq!(word, if swapped { 9 } else { SWAPPED_ONCE });
            let mut expected_log = vec![FIRST_LOGGED];
            if swapped {
                expected_log.push([begun_again + 6, 0, 1, 1, 0]);
            }
            assert_eq!(log, expected_log);
            assert_eq!(answers, [FIRST_ANSWERED, [end, 0, 1, verdict, 0]]);
            // One step less and it has not ended.
            let (_, _, before) = outcome(TWO_SWAPS, &schedule[..schedule.len() - 1]);
            assert_eq!(before, [FIRST_ANSWERED]);
        }
    }
}

#[test]
fn a_row_begun_again_runs_as_if_begun_for_the_first_time() {
    for stores in 1..=2 {
        let schedule = times(&[(9, 0), (stores, 0), (1, 0x10), (1, 0x20), (9, 0)]);
        let begun_again = 9 + stores as u32 + 2;
        let (word, log, answers) = outcome(TWO_SWAPS, &schedule);
        assert_eq!(word, 9);
        assert_eq!(log, [FIRST_LOGGED, [begun_again + 6, 0, 1, 1, 0]]);
        assert_eq!(answers, [FIRST_ANSWERED, [begun_again + 8, 0, 1, 1, 0]]);
    }
}

/// Stores made before a crash do not count: two and one make no three. And a
/// row cut off any number of times is still the next one.
#[test]
fn cut_off_again_and_again() {
    let cut_off = [2, 1, 1, 2, 2, 2, 1].map(|stores| [(stores, 0x00), (1, 0x10), (1, 0x20)]);
    let mut parts = cut_off.concat();
    parts.push((9, 0x00));
    // Eleven stores, seven crashes and seven wakes come first: 25 bytes.
    let (word, log, answers) = outcome(TWO_SWAPS, &times(&parts));
    assert_eq!(word, SWAPPED_ONCE);
    assert_eq!(log, [[31, 0, 0, 1, 0]]);
    assert_eq!(answers, [[33, 0, 0, 1, 0]]);
}

/// "Crash of all: every awake process goes down", each where it stands: one
/// after its first store, one after its second, one after its third.
#[test]
fn a_crash_of_all_between_the_stores() {
    let rows = [(0, 7, 8), (1, 8, 9), (2, 7, 5), (2, 9, 4)];
    let schedule = times(&[
        (1, 0x00),
        (2, 0x01),
        (3, 0x02),
        (1, 0xF0), // 6
        (1, 0x20),
        (1, 0x21),
        (1, 0x22),
        (9, 0x00), // 10-18: A4 at 16
        (9, 0x01), // 19-27: A4 at 25
        (3, 0x02), // 28-30: V1, V2 and V6, for its row was open
        (9, 0x02), // 31-39: A4 at 37
    ]);
    let (word, log, answers) = outcome(&rows, &schedule);
    assert_eq!(word, 0x0007_0000_0004);
    assert_eq!(log, [[16, 0, 0, 1, 0], [25, 1, 1, 1, 0], [37, 2, 3, 1, 0]]);
    let expected = [
        [18, 0, 0, 1, 0],
        [27, 1, 1, 1, 0],
        [30, 2, 2, 2, 0],
        [39, 2, 3, 1, 0],
    ];
    assert_eq!(answers, expected);
}

/// While one is between its stores, another one's swap is no concern of it:
/// it has not read the word yet.
#[test]
fn another_swaps_between_the_stores() {
    for stores in 1..=3 {
        let rows = [(0, 8, 9), (1, 7, 8)];
        let schedule = times(&[(stores, 0x00), (9, 0x01), (9 - stores, 0x00)]);
        let (word, log, answers) = outcome(&rows, &schedule);
        assert_eq!(word, 0x0003_0000_0009);
        let first = stores as u32;
        assert_eq!(log, [[first + 6, 1, 1, 1, 0], [15, 0, 0, 1, 0]]);
        assert_eq!(answers, [[first + 8, 1, 1, 1, 0], [17, 0, 0, 1, 0]]);
    }
}
