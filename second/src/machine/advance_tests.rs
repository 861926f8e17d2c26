//! Change request 6: advances in whole runs, with their refusals. Positions are
//! counted by hand.

use super::{run, Buffers};

/// A row of the log or of the answers.
type Five = [u32; 5];

/// A row of a file: process, kind, word, old and new.
type FileRow = (u8, u8, u8, u32, u32);

/// 1,000 below the end.
const MARK: u32 = 4_294_966_296;

fn advance(process: u8, amount: u32) -> FileRow {
    (process, 2, 0, 0, amount)
}

fn file(words: &[u64], rows: &[FileRow], schedule: &[u8]) -> Vec<u8> {
    let processes = rows.iter().map(|row| row.0 + 1).max().unwrap_or(1);
    let mut file = b"SWR\x02\x00".to_vec();
    file.extend([processes, words.len() as u8, rows.len() as u8, 0]);
    file.extend((schedule.len() as u16).to_le_bytes());
    for word in words {
        file.extend(word.to_le_bytes());
    }
    for (process, kind, word, old, new) in rows {
        file.extend([*process, *kind, *word, 0]);
        file.extend(old.to_le_bytes());
        file.extend(new.to_le_bytes());
    }
    file.extend(schedule);
    file
}

/// Final words, log and answers.
fn outcome(words: &[u64], rows: &[FileRow], schedule: &[u8]) -> (Vec<u64>, Vec<Five>, Vec<Five>) {
    let mut buffers = Buffers {
        words: vec![0; words.len()],
        log: vec![0; 5 * schedule.len()],
        answers: vec![0; 5 * schedule.len()],
    };
    let ran = run(&file(words, rows, schedule), &mut buffers).expect("a valid file");
    let fives = |numbers: &[u32], count: usize| {
        let pieces = crate::pieces::pieces(numbers).take(count);
        pieces.collect::<Vec<Five>>()
    };
    let log = fives(&buffers.log, ran.log_rows);
    let answers = fives(&buffers.answers, ran.answer_rows);
    (buffers.words, log, answers)
}

/// The same over one word that starts at [`MARK`].
fn from_the_mark(rows: &[FileRow], schedule: &[u8]) -> (u64, Vec<Five>, Vec<Five>) {
    let (words, log, answers) = outcome(&[MARK.into()], rows, schedule);
    (words[0], log, answers)
}

/// So many times each byte.
fn times(parts: &[(usize, u8)]) -> Vec<u8> {
    let bytes = parts.iter().flat_map(|(count, byte)| vec![*byte; *count]);
    bytes.collect()
}

const NONE: [Five; 0] = [];

#[test]
fn an_advance_takes_nine_steps_and_answers_the_value_before() {
    for steps in 0..9 {
        let (word, log, answers) = from_the_mark(&[advance(0, 1_460)], &vec![0; steps]);
        assert_eq!(answers, NONE);
        assert_eq!(
            word,
            if steps < 7 {
                MARK.into()
            } else {
                1 << 32 | 460
            }
        );
        assert_eq!(log.len(), usize::from(steps >= 7));
    }
    let (word, log, answers) = from_the_mark(&[advance(0, 1_460)], &[0; 9]);
    assert_eq!(word, 1 << 32 | 460);
    assert_eq!(log, [[6, 0, 0, 4, MARK]]);
    assert_eq!(answers, [[8, 0, 0, 4, MARK]]);
}

/// "The sum goes round past 4,294,967,295 to 0"; the bits beside the value are
/// those of the start, but for the own one.
#[test]
fn the_sum_goes_round() {
    for (before, amount, after) in [
        (0, 1, 1),
        (0, u32::MAX, u32::MAX),
        (1, u32::MAX, 0),
        (u32::MAX, 1, 0),
        (u32::MAX, u32::MAX, u32::MAX - 1),
        (1 << 31, 1 << 31, 0),
        (0x7FFF_FFFF, 1, 1 << 31),
        (0xFFFF, 1, 0x1_0000),
        (7, 1_460, 1_467),
    ] {
        for high in [0u64, 0xFFFF_FFFE, 0xFFFF_FFFF, 0x8000_0000] {
            let start = high << 32 | u64::from(before);
            let (words, log, _) = outcome(&[start], &[advance(0, amount)], &[0; 9]);
            assert_eq!(words, [(high ^ 1) << 32 | u64::from(after)]);
            assert_eq!(log, [[6, 0, 0, 4, before]]);
        }
    }
}

/// Process 1 wins so many times between process 0's A1 and A4.
#[test]
fn an_advance_goes_back_as_often_as_it_loses() {
    for lost in 0..20u32 {
        let mut rows = vec![advance(0, 1_460)];
        rows.extend(vec![advance(1, 100); lost as usize]);
        let mut schedule = vec![0; 3];
        for _ in 0..lost {
            schedule.extend(times(&[(1, 0), (9, 1), (3, 0)]));
        }
        schedule.extend([0; 6]);
        let (word, log, answers) = from_the_mark(&rows, &schedule);
        let before = MARK.wrapping_add(100 * lost);
        let flips = 1 | u64::from(lost % 2) << 1;
        assert_eq!(word, flips << 32 | u64::from(before.wrapping_add(1_460)));
        let swapped = 3 + 13 * lost + 3;
        assert_eq!(log.last(), Some(&[swapped, 0, 0, 4, before]));
        assert_eq!(answers.last(), Some(&[swapped + 2, 0, 0, 4, before]));
        assert_eq!((log.len(), answers.len()), (rows.len(), rows.len()));
    }
}

/// Cut off after each number of steps, with no round lost and with one, and
/// with the mark moved on meanwhile: told the value before if it swapped, from
/// what A2 kept or from what A5 stored, and fail if not.
#[test]
fn cut_off_at_every_step() {
    // Steps done of the last round; steps of the recovery without a lost round
    // and with one; whether it swapped.
    let recoveries = [
        (0, 3, 4, false), // opened: no checkpoint; or gone back: one of the round before
        (1, 3, 4, false), // A1
        (2, 3, 4, false), // A2
        (3, 4, 4, false), // A3
        (4, 5, 5, true),  // A4: V1 to V5
        (5, 2, 2, true),  // A5: V1 and V5
    ];
    for lost in [false, true] {
        for (done, without, with, swapped) in recoveries {
            let recovery = if lost { with } else { without };
            let mut schedule = vec![0; 3];
            if lost {
                schedule.extend(times(&[(1, 0), (9, 1), (3, 0)]));
            }
            let swap = schedule.len() as u32 + 3;
            schedule.extend(times(&[
                (done, 0),
                (1, 0x10),
                (9, 2),
                (1, 0x20),
                (recovery, 0),
            ]));
            let rows = [
                advance(0, 1_460),
                (1, 1, 0, MARK, 5_000),
                advance(2, u32::MAX),
            ];
            let (word, log, answers) = from_the_mark(&rows, &schedule);
            let before = if lost { 5_000 } else { MARK };
            let end = schedule.len() as u32 - 1;
            let told = match swapped {
                true => [end, 0, 0, 4, before],
                false => [end, 0, 0, 2, 0],
            };
            assert_eq!(answers.last(), Some(&told), "{lost} {done}");
            let own: Vec<&Five> = log.iter().filter(|row| row[1] == 0).collect();
            let in_log = [swap, 0, 0, 4, before];
            assert_eq!(own, if swapped { vec![&in_log] } else { vec![] });
            let amount = if swapped { 1_460 } else { 0 };
            let sum = before.wrapping_add(amount).wrapping_sub(1);
            assert_eq!(word as u32, sum);
            // One step less and it has not ended.
            let shorter = &schedule[..schedule.len() - 1];
            let (_, _, before_that) = from_the_mark(&rows, shorter);
            assert_eq!(before_that.len() + 1, answers.len());
        }
    }
}

/// The value that an advance has kept is no concern of the next rows: not of a
/// compare row's recovery, nor of an advance that is cut off before its A2.
#[test]
fn what_is_kept_of_an_advance_before() {
    let rows = [
        advance(0, 1_460),
        (0, 1, 0, 460, 7),
        advance(0, 8),
        advance(0, 9),
    ];
    let schedule = times(&[
        (9, 0), // 0-8
        (7, 0), // 9-15: the compare row's A4 at 15
        (1, 0x10),
        (1, 0x20),
        (5, 0), // 18-22: V1 to V5
        (4, 0), // 23-26: A1 of row 2 at 26
        (1, 0x10),
        (1, 0x20),
        (3, 0), // 29-31: V1, V2 and V6
        (7, 0), // 32-38: A4 of row 3 at 38
        (1, 0xF0),
        (1, 0x20),
        (5, 0), // 41-45
    ]);
    let (word, log, answers) = from_the_mark(&rows, &schedule);
    assert_eq!(word, 1 << 32 | 16);
    let expected = [[6, 0, 0, 4, MARK], [15, 0, 1, 1, 0], [38, 0, 3, 4, 7]];
    assert_eq!(log, expected);
    let expected = [
        [8, 0, 0, 4, MARK],
        [22, 0, 1, 1, 0],
        [31, 0, 2, 2, 0],
        [45, 0, 3, 4, 7],
    ];
    assert_eq!(answers, expected);
}

/// "It enters the log at the swap, which is a successful swap for others' lost
/// ones": process 0's compare reads at 3 and loses to the advance at 10, though
/// another swap comes at 17.
#[test]
fn a_compare_that_loses_to_an_advance() {
    let rows = [(0, 1, 0, MARK, 1), advance(1, 1_460), (2, 1, 0, 460, 9)];
    let schedule = times(&[(4, 0), (7, 1), (7, 2), (5, 0)]);
    let (word, log, answers) = from_the_mark(&rows, &schedule);
    assert_eq!(word, 6 << 32 | 9);
    let expected = [[10, 1, 1, 4, MARK], [10, 0, 0, 0, 0], [17, 2, 2, 1, 0]];
    assert_eq!(log, expected);
    assert_eq!(answers, [[22, 0, 0, 0, 0]]);
}

/// There and back by one process: the whole word is as read again, and the
/// advance takes it for that. By two processes their bits tell.
#[test]
fn the_value_comes_back_between_a1_and_a4() {
    let back = 0u32.wrapping_sub(77);
    let rows = [advance(0, 1_460), advance(1, 77), advance(1, back)];
    let schedule = times(&[(4, 0), (18, 1), (5, 0)]);
    let (word, log, answers) = from_the_mark(&rows, &schedule);
    assert_eq!(word, 1 << 32 | 460);
    assert_eq!(log[2], [24, 0, 0, 4, MARK]);
    assert_eq!(answers[2], [26, 0, 0, 4, MARK]);

    let rows = [advance(0, 1_460), advance(1, 77), advance(2, back)];
    let schedule = times(&[(4, 0), (9, 1), (9, 2), (3, 0), (6, 0)]);
    let (word, log, answers) = from_the_mark(&rows, &schedule);
    assert_eq!(word, 7 << 32 | 460);
    assert_eq!(log[2], [28, 0, 0, 4, MARK]);
    assert_eq!(answers[2], [30, 0, 0, 4, MARK]);
}

/// Number and place of the refusal of a file.
fn refused(file: &[u8]) -> Option<(u32, usize)> {
    let mut buffers = Buffers {
        words: vec![0; 16],
        log: vec![0; 5_120],
        answers: vec![0; 5_120],
    };
    let refusal = run(file, &mut buffers).err()?;
    Some((refusal.number(), refusal.place))
}

/// One word and three rows, which begin at 19, 31 and 43; the schedule begins
/// at 55.
fn three_rows() -> Vec<u8> {
    let rows = [advance(0, 1_460), (0, 0, 0, 0, 0), advance(1, u32::MAX)];
    file(&[MARK.into()], &rows, &[0, 1])
}

#[test]
fn refusal_9_for_an_old_and_for_kinds_from_3() {
    assert_eq!(refused(&three_rows()), None);
    for row in [19, 43] {
        for at in row + 4..row + 8 {
            for byte in [1, 0x80, 255] {
                let mut file = three_rows();
                file[at] = byte;
                assert_eq!(refused(&file), Some((9, row + 4)));
            }
        }
    }
    for kind in 3..=255 {
        let mut file = three_rows();
        file[44] = kind;
        // Its old is not looked at then.
        file[47] = 1;
        assert_eq!(refused(&file), Some((9, 44)));
    }
    // A field before it, and a field behind it.
    let mut file = three_rows();
    (file[46], file[47]) = (1, 1);
    assert_eq!(refused(&file), Some((9, 46)));
    // A row behind it, and one before it: the read's new.
    file[46] = 0;
    assert_eq!(refused(&file), Some((9, 47)));
    file[39] = 1;
    assert_eq!(refused(&file), Some((9, 39)));
}

/// One word and two rows, which begin at 15 and 23.
#[test]
fn refusal_9_for_kind_2_in_version_1() {
    let mut file = b"SWR\x01\x00\x01\x01\x02\x00\x00\x00".to_vec();
    file.extend([7, 0, 0, 0]);
    file.extend([0, 1, 0, 0, 7, 0, 8, 0]);
    file.extend([0, 2, 0, 0, 0, 0, 8, 0]);
    assert_eq!(refused(&file), Some((9, 24)));
    file[16] = 2;
    assert_eq!(refused(&file), Some((9, 16)));
    (file[16], file[24]) = (1, 1);
    assert_eq!(refused(&file), None);
}

/// "11 covers amount 0", at the row's first byte; it goes over all rows before
/// 12, behind 9 and 10, and a compare row and an advance are alike to it.
#[test]
fn refusal_11_for_amount_0() {
    let mut file = three_rows();
    file[27..31].fill(0);
    assert_eq!(refused(&file), Some((11, 19)));
    file[55] = 0x30;
    assert_eq!(refused(&file), Some((11, 19)));
    file[31] = 1;
    file[43] = 0;
    assert_eq!(refused(&file), Some((10, 43)));
    file[22] = 1;
    assert_eq!(refused(&file), Some((9, 22)));
    // Each bit of the amount counts.
    for bit in 0..32 {
        let mut file = three_rows();
        file[51..55].copy_from_slice(&(1u32 << bit).to_le_bytes());
        assert_eq!(refused(&file), None);
    }
    let rows = [(0, 1, 0, 5, 5), advance(0, 0)];
    assert_eq!(refused(&file_of(&rows)), Some((11, 19)));
    let rows = [(0, 1, 0, 5, 6), advance(0, 0), (0, 1, 0, 5, 5)];
    assert_eq!(refused(&file_of(&rows)), Some((11, 31)));
    // A read has neither, and is none.
    let rows = [(0, 0, 0, 0, 0)];
    assert_eq!(refused(&file_of(&rows)), None);
}

fn file_of(rows: &[FileRow]) -> Vec<u8> {
    file(&[MARK.into()], rows, &[])
}
