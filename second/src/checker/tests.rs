//! The checker must accept true outcomes and object to false ones. The
//! outcomes here are typed, not computed.

use super::*;
use crate::stream::Lengths;

/// Case f of document 01, with the two more bytes at each start.
const F: &[u8] = &[
    0x53, 0x57, 0x52, 1, 0, 2, 1, 2, 0, 16, 0, 7, 0, 0, 0, 0, 1, 0, 0, 7, 0, 8, 0, 1, 1, 0, 0, 7,
    0, 9, 0, 0, 0, 0, 0, 1, 1, 1, 1, 1, 1, 1, 0, 0, 0, 0, 0,
];
const F_OUTCOME: &str = "run 2 1 2 16
word 0 9 2
log 10 1 1 1 0
log 10 0 0 0 0
answer 15 0 0 0 0
";

/// The same as a file of version 2, with 4,000,000,000 more in every value and
/// bits 47, 48 and 63 in the word.
const F_2: &[u8] = &[
    0x53, 0x57, 0x52, 2, 0, 2, 1, 2, 0, 16, 0, // header
    0x07, 0x28, 0x6B, 0xEE, 0, 0x80, 0x01, 0x80, // word
    0, 1, 0, 0, 0x07, 0x28, 0x6B, 0xEE, 0x08, 0x28, 0x6B, 0xEE, // p0
    1, 1, 0, 0, 0x07, 0x28, 0x6B, 0xEE, 0x09, 0x28, 0x6B, 0xEE, // p1
    0, 0, 0, 0, 1, 1, 1, 1, 1, 1, 1, 0, 0, 0, 0, 0,
];
const F_2_OUTCOME: &str = "run 2 1 2 16
word 0 4000000009 2147581954
log 10 1 1 1 0
log 10 0 0 0 0
answer 15 0 0 0 0
";

/// A file of two processes and one word at 7, with a read of it for each of
/// these processes.
fn reads(processes: &[u8], schedule: &[u8]) -> Vec<u8> {
    let mut file = vec![0x53, 0x57, 0x52, 1, 0, 2, 1];
    file.extend([processes.len() as u8, 0, schedule.len() as u8, 0]);
    file.extend([7, 0, 0, 0]);
    for process in processes {
        file.extend([*process, 0, 0, 0, 0, 0, 0, 0]);
    }
    file.extend(schedule);
    file
}

/// Process 0 reads the word twice, six steps each.
fn two_reads() -> Vec<u8> {
    reads(&[0, 0], &[0; 12])
}

const TWO_READS_OUTCOME: &str = "run 2 1 2 12
word 0 7 0
log 3 0 0 3 7
log 9 0 1 3 7
answer 5 0 0 3 7
answer 11 0 1 3 7
";

/// Checks an outcome with the `sum` line that its other lines call for, so
/// that the objection comes from the demands and not from the sum.
fn check_with_sum(file: &[u8], lines: &str) -> Result<(), Violation> {
    let record = Record {
        file: file.to_vec(),
        lengths: Lengths {
            words: 2,
            log: 100,
            answers: 100,
        },
    };
    let check = |sum: &str| {
        let text = format!("{lines}sum {sum}\n");
        check_record(&record, text.as_bytes(), &mut Tally::default())
    };
    let first = check("0");
    match first
        .as_ref()
        .map_err(|violation| violation.split_once("should be "))
    {
        Err(Some((_, sum))) => check(sum),
        _ => first,
    }
}

fn objection(file: &[u8], lines: &str) -> String {
    check_with_sum(file, lines).expect_err("a false outcome was accepted")
}

#[test]
fn true_outcomes_are_accepted() {
    assert_eq!(check_with_sum(F, F_OUTCOME), Ok(()));
    assert_eq!(check_with_sum(F_2, F_2_OUTCOME), Ok(()));
    assert_eq!(check_with_sum(&two_reads(), TWO_READS_OUTCOME), Ok(()));
    assert_eq!(check_with_sum(b"", "refused 1 0\n"), Ok(()));
}

#[test]
fn a_wrong_sum_is_objected_to() {
    let record = Record {
        file: Vec::new(),
        lengths: Lengths {
            words: 0,
            log: 0,
            answers: 0,
        },
    };
    let check = |text: &str| check_record(&record, text.as_bytes(), &mut Tally::default());
    assert_eq!(check("refused 1 0\nsum 1\n"), Ok(()));
    assert!(check("refused 1 0\nsum 2\n").is_err());
}

/// c is 1, then 1,000,003 + 9, and 1,000,012 × 1,000,003 + 2 is 232 times the
/// modulus and 3,582,588,526 over; what is behind the word is not lent.
#[test]
fn a_word_is_two_numbers_in_the_sum() {
    let mut file = F.to_vec();
    file[9] = 0;
    file.truncate(31);
    file[11..15].copy_from_slice(&[9, 0, 2, 0]);
    let record = Record {
        file,
        lengths: Lengths {
            words: 1,
            log: 0,
            answers: 0,
        },
    };
    let check = |sum: &str| {
        let text = format!("run 2 1 2 0\nword 0 9 2\nsum {sum}\n");
        check_record(&record, text.as_bytes(), &mut Tally::default())
    };
    assert_eq!(check("3582588526"), Ok(()));
    assert!(check("3582588527").is_err());
}

/// Each half of the words buffer's fill: 3,235,774,464 and i more, then
/// 3,235,774,464.
#[test]
fn the_words_before_the_run_in_the_sum() {
    let record = Record {
        file: Vec::new(),
        lengths: Lengths {
            words: 2,
            log: 0,
            answers: 0,
        },
    };
    let halves = [3_235_774_464, 3_235_774_464, 3_235_774_465, 3_235_774_464];
    let sum = halves
        .iter()
        .fold(1u64, |c, x| (c * 1_000_003 + x) % 4_294_967_291);
    let text = format!("refused 1 0\nsum {sum}\n");
    let told = check_record(&record, text.as_bytes(), &mut Tally::default());
    assert_eq!(told, Ok(()));
}

#[test]
fn false_stories_about_case_f_of_version_2_are_objected_to() {
    let falsified = |from: &str, to: &str| {
        assert!(F_2_OUTCOME.contains(from));
        objection(F_2, &F_2_OUTCOME.replace(from, to))
    };
    // The value cut to 16 bits, or the next one.
    falsified("4000000009", "10249");
    falsified("4000000009", "4000000008");
    // Flip bits: from 48 up lost, bit 47 lost, not turned, turned at 16 up.
    falsified("2147581954", "32770");
    falsified("2147581954", "2147549186");
    falsified("2147581954", "2147581952");
    falsified("2147581954", "2147713024");
    falsified("log 10 0 0 0 0", "log 10 0 0 3 4000000009");
}

/// 3 means "a version that is neither 1 nor 2".
#[test]
fn refusal_3_and_the_later_ones_fit_the_version() {
    for file in [F, F_2] {
        assert_eq!(
            objection(file, "refused 3 0\n")[..19],
            *"there is a version "
        );
        let mut other = file.to_vec();
        other[4] = 1;
        assert_eq!(check_with_sum(&other, "refused 3 0\n"), Ok(()));
        let text = objection(&other, "refused 8 0\n");
        assert_eq!(text, "the file is of no version");
        objection(&other, F_OUTCOME);
    }
}

#[test]
fn false_stories_about_case_f_are_objected_to() {
    let falsified = |from: &str, to: &str| {
        assert!(F_OUTCOME.contains(from));
        objection(F, &F_OUTCOME.replace(from, to))
    };
    // Replay: the order in the log, the values, the words.
    falsified(
        "log 10 1 1 1 0\nlog 10 0 0 0 0\n",
        "log 10 0 0 0 0\nlog 10 1 1 1 0\n",
    );
    falsified("word 0 9 2", "word 0 8 2");
    falsified("log 10 0 0 0 0", "log 10 0 0 3 9");
    falsified("log 10 0 0 0 0", "log 10 0 0 2 0");
    falsified("log 10 0 0 0 0", "log 10 0 0 0 1");
    falsified("log 10 0 0 0 0", "log 10 0 2 0 0");
    // Once: twice in the log, another process, an answer that does not fit.
    falsified("log 10 0 0 0 0\n", "log 10 0 0 0 0\nlog 10 0 0 0 0\n");
    falsified("answer 15 0 0 0 0", "answer 15 1 0 0 0");
    falsified("answer 15 0 0 0 0", "answer 15 0 0 1 0");
    falsified("answer 15 0 0 0 0", "answer 15 0 0 2 0");
    falsified("log 10 0 0 0 0\n", "");
    // Flip bits.
    falsified("word 0 9 2", "word 0 9 0");
    falsified("word 0 9 2", "word 0 9 3");
    // Positions: not its own step, before the effect, beyond the schedule.
    falsified("log 10 1 1 1 0\nlog 10 0", "log 11 1 1 1 0\nlog 11 0");
    falsified("log 10 0 0 0 0", "log 9 0 0 0 0");
    falsified("log 10 0 0 0 0", "log 16 0 0 0 0");
    falsified("log 10 0 0 0 0", "log 15 0 0 0 0");
    falsified("answer 15 0 0 0 0", "answer 10 0 0 0 0");
    falsified("answer 15 0 0 0 0", "answer 16 0 0 0 0");
    // The run line, lines out of place.
    falsified("run 2 1 2 16", "run 2 1 2 15");
    falsified("word 0 9 2\n", "");
    falsified("word 0 9 2\n", "word 0 9 2\nword 1 0 0\n");
    falsified("log 10 1 1 1 0", "log 10 1 1 1");
    falsified("log 10 1 1 1 0", "log 10 1 1 1 00");
    falsified("answer 15 0 0 0 0\n", "answer 15 0 0 0 0\nlog 15 0 0 0 0\n");
}

#[test]
fn an_order_against_time_is_objected_to() {
    let falsified = |from: &str, to: &str| {
        assert!(TWO_READS_OUTCOME.contains(from));
        objection(&two_reads(), &TWO_READS_OUTCOME.replace(from, to))
    };
    let swapped = falsified(
        "log 3 0 0 3 7\nlog 9 0 1 3 7\n",
        "log 3 0 1 3 7\nlog 9 0 0 3 7\n",
    );
    assert!(swapped.contains("comes behind it in the log"));
    falsified("answer 5 0 0 3 7\n", "");
    falsified("log 9 0 1 3 7", "log 5 0 1 3 7");
    falsified(
        "answer 5 0 0 3 7\nanswer 11 0 1 3 7\n",
        "answer 5 0 1 3 7\nanswer 11 0 0 3 7\n",
    );
}

/// "began" is the third store: 2 for the first read, 8 for the second.
#[test]
fn no_operation_takes_effect_before_its_third_store() {
    let falsified = |from: &str, to: &str| {
        assert!(TWO_READS_OUTCOME.contains(from));
        objection(&two_reads(), &TWO_READS_OUTCOME.replace(from, to))
    };
    for position in 0..=2 {
        let text = falsified("log 3 0 0 3 7", &format!("log {position} 0 0 3 7"));
        assert_eq!(text, "row 0 took effect before it began");
    }
    for position in 6..=8 {
        let text = falsified("log 9 0 1 3 7", &format!("log {position} 0 1 3 7"));
        assert_eq!(text, "row 1 took effect before it began");
    }
}

/// Process 0 is cut off after each number of stores and begins the same row
/// again. What it would be without the crash is a false story.
#[test]
fn one_cut_off_has_not_begun() {
    for stores in 1..=2 {
        let mut schedule = vec![0; stores];
        schedule.extend([0x10, 0x20, 0, 0, 0, 0, 0, 0]);
        let file = reads(&[0], &schedule);
        let story = |log: usize, answer: usize| {
            let length = stores + 8;
            format!("run 2 1 1 {length}\nword 0 7 0\nlog {log} 0 0 3 7\nanswer {answer} 0 0 3 7\n")
        };
        let begun_again = stores + 2;
        let truth = story(begun_again + 3, begun_again + 5);
        assert_eq!(check_with_sum(&file, &truth), Ok(()));
        // As if the stores made before the crash counted.
        let text = objection(&file, &story(begun_again + 2, begun_again + 5));
        assert_eq!(text, "row 0 took effect before it began");
        // As if it had failed by a recovery of three steps.
        let untouched = |length: usize| format!("run 2 1 1 {length}\nword 0 7 0\n");
        let failed = format!("answer {} 0 0 2 0\n", begun_again + 2);
        let text = objection(&file, &(untouched(stores + 8) + &failed));
        assert!(text.ends_with("not open"));
        // As if it had skipped the row.
        schedule.extend([0; 3]);
        let file = reads(&[0], &schedule);
        let text = objection(&file, &untouched(stores + 11));
        assert!(text.contains("should have ended by"));
    }
}

/// An operation ends before another one's third store, though behind its
/// first: it comes first in the log.
#[test]
fn the_third_store_decides_the_order() {
    for stores in 1..=3 {
        let mut schedule = vec![0; stores];
        schedule.extend([1; 6]);
        schedule.extend(vec![0; 6 - stores]);
        let file = reads(&[0, 1], &schedule);
        let (log, end) = (stores + 3, stores + 5);
        let story = |log_rows: &str| {
            format!("run 2 1 2 12\nword 0 7 0\n{log_rows}answer {end} 1 1 3 7\nanswer 11 0 0 3 7\n")
        };
        let truth = story(&format!("log {log} 1 1 3 7\nlog 9 0 0 3 7\n"));
        assert_eq!(check_with_sum(&file, &truth), Ok(()));
        let text = objection(
            &file,
            &story(&format!("log 0 0 0 3 7\nlog {log} 1 1 3 7\n")),
        );
        let expected = if stores < 3 {
            "comes behind it in the log"
        } else {
            "took effect before it began"
        };
        assert!(text.contains(expected));
    }
}

/// "within" 9 "of its own steps from the start, or within 5 after a wake"
#[test]
fn an_operation_that_does_not_end_in_time_is_objected_to() {
    let told = |length: usize| format!("run 2 1 1 {length}\nword 0 7 0\n");
    for (steps, holds) in [(8, true), (9, false)] {
        let file = reads(&[0], &vec![0; steps]);
        assert_eq!(check_with_sum(&file, &told(steps)).is_ok(), holds);
    }
    for (steps, holds) in [(4, true), (5, false)] {
        let mut schedule = vec![0, 0, 0, 0, 0, 0x10, 0x20];
        schedule.extend(vec![0; steps]);
        let file = reads(&[0], &schedule);
        assert_eq!(check_with_sum(&file, &told(7 + steps)).is_ok(), holds);
    }
    // Steps of one that is down, or that has no rows left, are none.
    let file = reads(&[0], &[0, 0, 0, 0, 0x10, 0, 0, 0, 0, 0, 0, 0]);
    assert_eq!(check_with_sum(&file, &told(12)), Ok(()));
    let file = reads(&[0], &[1; 12]);
    assert_eq!(check_with_sum(&file, &told(12)), Ok(()));
}

#[test]
fn a_file_that_cannot_be_read_cannot_have_run() {
    objection(&F[..46], F_OUTCOME);
    objection(b"", F_OUTCOME);
}

#[test]
fn a_refusal_has_a_number_of_the_table_and_a_place_in_the_file() {
    objection(F, "refused 0 0\n");
    objection(F, "refused 17 0\n");
    objection(F, "refused 9 48\n");
}

/// Bytes of a schedule that are changed; the position of the first idle byte,
/// and of which sort it is.
type IdleCase = (&'static [(usize, u8)], usize, &'static str);

/// The schedule of case f begins at 31, in version 2 at 43. Process 0 takes its
/// steps at 0 to 3 and 11 to 15.
#[test]
fn refusal_16_has_the_place_of_the_first_idle_byte() {
    let down = "for a crash of one that is down";
    let up = "for a wake of one that is up";
    let cases: [IdleCase; 7] = [
        (&[(0, 0x20)], 0, up),
        (&[(15, 0x21)], 15, up),
        (&[(2, 0x10), (5, 0x10), (7, 0x10)], 5, down),
        (&[(2, 0xF0), (5, 0x11)], 5, down),
        (&[(2, 0xF0), (3, 0xF0), (5, 0x20), (9, 0x20)], 9, up),
        (&[(2, 0x10), (5, 0x20), (9, 0x20), (12, 0x10)], 9, up),
        (&[(2, 0x10), (5, 0x21), (9, 0x10)], 5, up),
    ];
    for (file, begins, version) in [(F, 31, 1), (F_2, 43, 2)] {
        for (changes, at, sort) in cases {
            let mut file = file.to_vec();
            for (position, byte) in changes {
                file[begins + position] = *byte;
            }
            for place in 0..file.len() {
                let told = check_with_sum(&file, &format!("refused 16 {place}\n"));
                assert_eq!(told.is_ok(), place == begins + at);
            }
            // Later checks do not come to it, and it does not run.
            for number in 13..=15 {
                let text = objection(&file, &format!("refused {number} 0\n"));
                assert_eq!(text, format!("the byte at {at} of the schedule is idle"));
            }
            objection(&file, [F_OUTCOME, F_2_OUTCOME][version - 1]);
            let name = format!("version {version} refused 16 {sort}");
            let fault = idle::idle_at(&file, begins + at).unwrap();
            let mut tally = Tally::default();
            let layout = Layout::of(&file);
            tally.refused(16, Some(fault.to_string()), layout).unwrap();
            for kind in tally.kinds() {
                assert_eq!(kind.count, u64::from(kind.name == name), "{}", kind.name);
            }
        }
        let text = objection(file, &format!("refused 16 {begins}\n"));
        assert_eq!(text, "no byte of the schedule is idle");
        // All but these are allowed: a crash of all, and a step of one down.
        let mut file = file.to_vec();
        for (position, byte) in [(2, 0xF0), (3, 0xF0), (4, 0x20), (5, 0x10), (6, 0)] {
            file[begins + position] = byte;
        }
        for place in 0..file.len() {
            objection(&file, &format!("refused 16 {place}\n"));
        }
    }
}

/// The rows of case f begin at 15 and 23; the second is made faulty.
#[test]
fn refusal_9_has_the_place_of_the_first_faulty_field() {
    let with = |changes: &[(usize, u8)]| {
        let mut file = F.to_vec();
        for (at, byte) in changes {
            file[*at] = *byte;
        }
        file
    };
    let places: [(&[(usize, u8)], usize); 10] = [
        (&[(23, 2)], 23),
        (&[(24, 2)], 24),
        (&[(25, 1)], 25),
        (&[(26, 1)], 26),
        (&[(24, 0)], 27),
        (&[(24, 0), (27, 0), (28, 1)], 27),
        (&[(24, 0), (27, 0)], 29),
        (&[(24, 0), (27, 0), (29, 0), (30, 1)], 29),
        (&[(24, 2), (25, 1), (26, 1)], 24),
        (&[(16, 0), (19, 0), (23, 2)], 21),
    ];
    for (changes, truth) in places {
        let file = with(changes);
        for place in 0..F.len() {
            let told = check_with_sum(&file, &format!("refused 9 {place}\n"));
            assert_eq!(told.is_ok(), place == truth);
        }
    }
    let text = objection(F, "refused 9 15\n");
    assert_eq!(text, "no field of a row is faulty");
}

/// The rows of case f of version 2 begin at 19 and 31; the second is made
/// faulty, its old and new in each byte.
#[test]
fn refusal_9_has_its_place_in_version_2_too() {
    let mut places = vec![(31, 2, 31), (32, 3, 32), (33, 1, 33), (34, 1, 34)];
    places.extend((35..39).map(|at| (at, 1, 35)));
    places.extend((39..43).map(|at| (at, 1, 39)));
    for (changed, byte, truth) in places {
        let mut file = F_2.to_vec();
        if changed >= 35 {
            file[32..43].fill(0);
        }
        file[changed] = byte;
        for place in 0..F_2.len() {
            let told = check_with_sum(&file, &format!("refused 9 {place}\n"));
            assert_eq!(told.is_ok(), place == truth);
        }
    }
}

#[test]
fn refusal_9_is_counted_by_field_and_version() {
    for (file, place, name) in [
        (F, 26, "version 1 refused 9 zero byte"),
        (F_2, 34, "version 2 refused 9 zero byte"),
    ] {
        let mut tally = Tally::default();
        let mut file = file.to_vec();
        file[place] = 1;
        let record = Record {
            file,
            lengths: Lengths {
                words: 0,
                log: 0,
                answers: 0,
            },
        };
        let text = format!("refused 9 {place}\nsum 1\n");
        let told = check_record(&record, text.as_bytes(), &mut tally);
        assert_eq!(told, Ok(()));
        for kind in tally.kinds() {
            assert_eq!(kind.count, u64::from(kind.name == name));
        }
    }
}

/// Two processes and one word at 4,294,966,296, which is 1,000 below the end.
/// Row 0: process 0 by 1,460; row 1: process 1 by 536; row 2: process 1, a swap
/// of 460 for 7.
fn advances(schedule: &[u8]) -> Vec<u8> {
    let mut file = vec![0x53, 0x57, 0x52, 2, 0, 2, 1, 3, 0];
    file.extend([schedule.len() as u8, 0]);
    file.extend([0x18, 0xFC, 0xFF, 0xFF, 0, 0, 0, 0]);
    file.extend([0, 2, 0, 0, 0, 0, 0, 0, 0xB4, 5, 0, 0]);
    file.extend([1, 2, 0, 0, 0, 0, 0, 0, 0x18, 2, 0, 0]);
    file.extend([1, 1, 0, 0, 0xCC, 1, 0, 0, 7, 0, 0, 0]);
    file.extend(schedule);
    file
}

fn times(parts: &[(usize, u8)]) -> Vec<u8> {
    let bytes = parts.iter().flat_map(|(count, byte)| vec![*byte; *count]);
    bytes.collect()
}

/// Process 0 reads at 3, process 1 swaps at 10; process 0 loses its round at 13
/// and swaps at 17.
fn one_lost_round() -> Vec<u8> {
    advances(&times(&[(4, 0), (7, 1), (9, 0), (2, 1)]))
}

const ONE_LOST_ROUND: &str = "run 2 1 3 22
word 0 996 3
log 10 1 1 4 4294966296
log 17 0 0 4 4294966832
answer 19 0 0 4 4294966832
answer 21 1 1 4 4294966296
";

#[test]
fn true_outcomes_of_advances_are_accepted() {
    assert_eq!(check_with_sum(&one_lost_round(), ONE_LOST_ROUND), Ok(()));
    let alone = advances(&[0; 9]);
    let told = "run 2 1 3 9\nword 0 460 1\nlog 6 0 0 4 4294966296\nanswer 8 0 0 4 4294966296\n";
    assert_eq!(check_with_sum(&alone, told), Ok(()));
}

#[test]
fn false_stories_about_advances_are_objected_to() {
    let falsified = |from: &str, to: &str| {
        assert!(ONE_LOST_ROUND.contains(from));
        objection(&one_lost_round(), &ONE_LOST_ROUND.replace(from, to))
    };
    // The sum not gone round, stopped at the end, or the amount put in.
    falsified("word 0 996 3", "word 0 4294967295 3");
    falsified("word 0 996 3", "word 0 1460 3");
    falsified("word 0 996 3", "word 0 995 3");
    // The value before: that of the round that was lost, or the one behind.
    falsified(
        "4 4294966832\nanswer 19 0 0 4 4294966832",
        "4 4294966296\nanswer 19 0 0 4 4294966296",
    );
    falsified("answer 19 0 0 4 4294966832", "answer 19 0 0 4 996");
    falsified("answer 19 0 0 4 4294966832", "answer 19 0 0 4 4294966296");
    // Another verdict, or told what did not happen.
    falsified("log 17 0 0 4 4294966832", "log 17 0 0 1 0");
    falsified("log 17 0 0 4 4294966832", "log 17 0 0 3 4294966832");
    falsified("answer 19 0 0 4 4294966832", "answer 19 0 0 1 0");
    falsified("answer 19 0 0 4 4294966832", "answer 19 0 0 0 0");
    falsified("answer 19 0 0 4 4294966832", "answer 19 0 0 2 0");
    // A bit not turned.
    falsified("word 0 996 3", "word 0 996 2");
    // Swapped though it had lost, or at a step that ends no round.
    let text = falsified("log 17 0 0", "log 13 0 0");
    assert!(text.contains("should have ended by"), "{text}");
    for position in [14, 15, 16, 18] {
        let to = format!("log {position} 0 0");
        let text = falsified("log 17 0 0", &to);
        assert!(text.contains("though nobody else has since 14"), "{text}");
    }
    // A lost round answered with false.
    let told = "run 2 1 3 22\nword 0 4294966832 2\nlog 10 1 1 4 4294966296\n\
                log 10 0 0 0 0\nanswer 15 0 0 0 0\nanswer 21 1 1 4 4294966296\n";
    objection(&one_lost_round(), told);
}

/// "each time it goes back to A1 a successful swap of another process on its
/// word stands in the log between its A1 and its A4"
#[test]
fn a_round_lost_to_nobody_is_objected_to() {
    let told = |length: usize| format!("run 2 1 3 {length}\nword 0 4294966296 0\n");
    for (steps, holds) in [(6, true), (7, false), (8, false), (30, false)] {
        let file = advances(&vec![0; steps]);
        let check = check_with_sum(&file, &told(steps));
        assert_eq!(check.is_ok(), holds, "{steps} steps");
    }
    // The other one swaps before the round's A1, or behind its A4.
    let before = times(&[(7, 1), (3, 0), (4, 0)]);
    let swapped = "run 2 1 3 14\nword 0 4294966832 2\nlog 6 1 1 4 4294966296\n";
    let text = objection(&advances(&before), swapped);
    assert_eq!(
        text,
        "row 0 does not swap at 13, though nobody else has since 10"
    );
    let behind = times(&[(6, 1), (7, 0), (1, 1)]);
    let swapped = "run 2 1 3 14\nword 0 4294966832 2\nlog 13 1 1 4 4294966296\n";
    let text = objection(&advances(&behind), swapped);
    assert_eq!(
        text,
        "row 0 does not swap at 12, though nobody else has since 9"
    );
    // Between the two it may.
    let between = times(&[(6, 1), (4, 0), (1, 1), (3, 0)]);
    let swapped = "run 2 1 3 14\nword 0 4294966832 2\nlog 10 1 1 4 4294966296\n";
    assert_eq!(check_with_sum(&advances(&between), swapped), Ok(()));
}

/// "For an advance no limit is claimed": here it loses four rounds. Behind its
/// swap two steps are left, and behind a wake five.
#[test]
fn the_limits_of_an_advance() {
    let told =
        |length: usize| format!("run 2 1 3 {length}\nword 0 460 1\nlog 6 0 0 4 4294966296\n");
    for (steps, holds) in [(7, true), (8, true), (9, false)] {
        let file = advances(&vec![0; steps]);
        assert_eq!(check_with_sum(&file, &told(steps)).is_ok(), holds);
    }
    for (steps, holds) in [(4, true), (5, false)] {
        let schedule = times(&[(7, 0), (1, 0x10), (1, 0x20), (steps, 0)]);
        let check = check_with_sum(&advances(&schedule), &told(9 + steps));
        assert_eq!(check.is_ok(), holds);
    }
    // In recovery it does not go on to swap.
    let schedule = times(&[(6, 0), (1, 0x10), (1, 0x20), (4, 0)]);
    let swapped = "run 2 1 3 12\nword 0 460 1\nlog 11 0 0 4 4294966296\n";
    let text = objection(&advances(&schedule), swapped);
    assert_eq!(text, "row 0 is at the end of no round at 11");
}

/// The amounts in the log, in whatever order, make up the value.
#[test]
fn the_sum_of_the_advances() {
    let given = Given::read(&one_lost_round()).unwrap();
    let outcome = |value: &str| {
        let text = ONE_LOST_ROUND.replace("word 0 996", &format!("word 0 {value}")) + "sum 0\n";
        match Outcome::read(text.as_bytes()).unwrap().told {
            Told::Ran(ran) => ran,
            Told::Refused { .. } => panic!("it has run"),
        }
    };
    assert_eq!(demands::check_sums(&given, &outcome("996")), Ok(()));
    for value in ["995", "4294966296", "4294967295", "0"] {
        let told = demands::check_sums(&given, &outcome(value));
        assert_eq!(
            told.unwrap_err(),
            "the amounts do not make up the value of word 0"
        );
    }
    // With a swap on the word, too, it is not the sum.
    let mut ran = outcome("995");
    ran.log[0].verdict = demands::TRUE;
    assert_eq!(demands::check_sums(&given, &ran), Ok(()));
}

/// Process 0 swaps 7 for 8 in vain: process 1 advances meanwhile.
#[test]
fn a_compare_that_lost_to_an_advance() {
    let mut file = F_2.to_vec();
    file[31..43].copy_from_slice(&[1, 2, 0, 0, 0, 0, 0, 0, 2, 0, 0, 0]);
    let told = F_2_OUTCOME.replace("log 10 1 1 1 0", "log 10 1 1 4 4000000007");
    assert_eq!(check_with_sum(&file, &told), Ok(()));
    // In front of the advance it would meet its old.
    let rows = ["log 10 1 1 4 4000000007\n", "log 10 0 0 0 0\n"];
    let turned = told.replace(&rows.concat(), &[rows[1], rows[0]].concat());
    assert!(turned != told && objection(&file, &turned).contains("meets the value"));
    let mut tally = Tally::default();
    count_kinds(&mut tally, &file, &told);
    assert_eq!(met(&tally, "compares that lost to an advance"), 1);
}

fn count_kinds(tally: &mut Tally, file: &[u8], told: &str) {
    let text = told.to_string() + "sum 0\n";
    let Ok(Outcome {
        told: Told::Ran(ran),
        ..
    }) = Outcome::read(text.as_bytes())
    else {
        panic!("it has run");
    };
    let given = Given::read(file).unwrap();
    let spans = check_run(&given, &ran).unwrap();
    tally.ran(&given, &ran, &spans);
}

fn met(tally: &Tally, name: &str) -> u64 {
    let kinds = tally.kinds();
    let kind = kinds.iter().find(|kind| kind.name == name);
    kind.expect("a kind").count
}

/// Of a run of [`advances`]: the schedule, the outcome, and the kinds of
/// advances that are met once.
type AdvanceRun = (
    &'static [(usize, u8)],
    &'static str,
    &'static [&'static str],
);

const UNDISTURBED: &str = "advances told the value before, undisturbed";
const AFTER_A_LOST_ROUND: &str = "advances told the value before after a lost round";
const FROM_A2: &str = "advances told the value before from what A2 kept";
const FROM_A2_AFTER_A_LOST_ROUND: &str =
    "advances told the value before from what A2 kept after a lost round";
const WENT_ROUND: &str = "advances whose sum went round";

const ADVANCE_RUNS: [AdvanceRun; 6] = [
    (
        &[(9, 0)],
        "word 0 460 1\nlog 6 0 0 4 4294966296\nanswer 8 0 0 4 4294966296\n",
        &[UNDISTURBED, WENT_ROUND],
    ),
    (
        &[(7, 0), (1, 0x10), (1, 0x20), (5, 0)],
        "word 0 460 1\nlog 6 0 0 4 4294966296\nanswer 13 0 0 4 4294966296\n",
        &[FROM_A2, WENT_ROUND],
    ),
    // With the answer stored it is not from what A2 kept.
    (
        &[(8, 0), (1, 0x10), (1, 0x20), (2, 0)],
        "word 0 460 1\nlog 6 0 0 4 4294966296\nanswer 11 0 0 4 4294966296\n",
        &[WENT_ROUND],
    ),
    // Cut off again in its recovery.
    (
        &[
            (7, 0),
            (1, 0x10),
            (1, 0x20),
            (2, 0),
            (1, 0xF0),
            (1, 0x20),
            (5, 0),
        ],
        "word 0 460 1\nlog 6 0 0 4 4294966296\nanswer 17 0 0 4 4294966296\n",
        &[FROM_A2, WENT_ROUND],
    ),
    (
        &[(6, 0), (1, 0x10), (1, 0x20), (4, 0)],
        "word 0 4294966296 0\nanswer 11 0 0 2 0\n",
        &["advances told fail, no round lost"],
    ),
    (
        &[(4, 0), (7, 1), (7, 0), (1, 0x10), (1, 0x20), (5, 0)],
        "word 0 996 3\nlog 10 1 1 4 4294966296\nlog 17 0 0 4 4294966832\n\
         answer 24 0 0 4 4294966832\n",
        &[
            AFTER_A_LOST_ROUND,
            FROM_A2,
            FROM_A2_AFTER_A_LOST_ROUND,
            WENT_ROUND,
            "rounds of advances lost to an advance",
        ],
    ),
];

#[test]
fn kinds_of_advances_are_told_apart() {
    for (parts, told, names) in ADVANCE_RUNS {
        let schedule = times(parts);
        let told = format!("run 2 1 3 {}\n{told}", schedule.len());
        let mut tally = Tally::default();
        count_kinds(&mut tally, &advances(&schedule), &told);
        let kinds = tally.kinds();
        let of_advances =
            |kind: &&tally::Kind| kind.name.contains("advance") && !kind.name.contains("refused");
        for kind in kinds.iter().filter(of_advances) {
            let wanted = names.contains(&kind.name.as_str());
            assert_eq!(kind.count, u64::from(wanted), "{}", kind.name);
        }
    }
}

/// A round lost to a compare row, and then told fail.
#[test]
fn a_round_lost_to_a_compare_and_told_fail() {
    let mut file = advances(&times(&[
        (4, 0),
        (7, 1),
        (3, 0),
        (1, 0x10),
        (1, 0x20),
        (4, 0),
    ]));
    // Row 1 swaps 4,294,966,296 for 7.
    file[31..43].copy_from_slice(&[1, 1, 0, 0, 0x18, 0xFC, 0xFF, 0xFF, 7, 0, 0, 0]);
    let told = "run 2 1 3 20\nword 0 7 2\nlog 10 1 1 1 0\nanswer 19 0 0 2 0\n";
    let mut tally = Tally::default();
    count_kinds(&mut tally, &file, told);
    assert_eq!(met(&tally, "advances told fail after a lost round"), 1);
    assert_eq!(met(&tally, "advances told fail, no round lost"), 0);
    assert_eq!(met(&tally, "rounds of advances lost to a compare"), 1);
    assert_eq!(met(&tally, "rounds of advances lost to an advance"), 0);
}

/// Rows of the file begin at 19, 31 and 43. Kind 2 is faulty in version 1 only,
/// an old of an advance is; 11 has the place of the row.
#[test]
fn refusals_of_advances_have_their_places_and_names() {
    let with = |changes: &[(usize, u8)]| {
        let mut file = advances(&[]);
        for (at, byte) in changes {
            file[*at] = *byte;
        }
        file
    };
    let mut of_version_1 = F.to_vec();
    of_version_1[24] = 2;
    let cases: [(Vec<u8>, usize, usize, &str); 6] = [
        (
            with(&[(35, 1)]),
            9,
            35,
            "version 2 refused 9 old of an advance",
        ),
        (
            with(&[(38, 1)]),
            9,
            35,
            "version 2 refused 9 old of an advance",
        ),
        (
            with(&[(32, 3)]),
            9,
            32,
            "version 2 refused 9 kind 3 or more",
        ),
        (of_version_1, 9, 24, "version 1 refused 9 kind 2"),
        (
            with(&[(39, 0), (40, 0), (47, 7), (48, 0)]),
            11,
            31,
            "version 2 refused 11 of an advance",
        ),
        (
            with(&[(47, 7), (48, 0)]),
            11,
            43,
            "version 2 refused 11 of a compare",
        ),
    ];
    for (file, number, truth, name) in cases {
        for place in 0..file.len() {
            let told = check_with_sum(&file, &format!("refused {number} {place}\n"));
            assert_eq!(told.is_ok(), place == truth);
        }
        let fault = fields::fault_at(&file, number, truth).unwrap();
        let mut tally = Tally::default();
        tally.refused(number, fault, Layout::of(&file)).unwrap();
        for kind in tally.kinds() {
            assert_eq!(kind.count, u64::from(kind.name == name), "{}", kind.name);
        }
    }
    let text = objection(&advances(&[]), "refused 11 19\n");
    assert_eq!(text, "no row puts in the same");
}

#[test]
fn kinds_never_met_fail_the_check() {
    let mut out = Vec::new();
    let ending = check(&mut [].as_slice(), &mut [].as_slice(), &mut out).unwrap();
    assert!(ending == Ending::Objection);
    let text = String::from_utf8(out).unwrap();
    for number in 1..=3 {
        assert!(text.contains(&format!("never met: refused {number}\n")));
    }
    for version in 1..=2 {
        assert!(text.contains(&format!("never met: files of version {version} run\n")));
        let refused = format!("never met: version {version} refused");
        for number in (4..=15).filter(|number| *number != 9 && *number != 11) {
            assert!(text.contains(&format!("{refused} {number}\n")));
        }
        for idle in ["a crash of one that is down", "a wake of one that is up"] {
            assert!(text.contains(&format!("{refused} 16 for {idle}\n")));
        }
        let kind = "kind 3 or more";
        for field in ["process", kind, "word", "zero byte", "old of a read", "new"] {
            assert!(text.contains(&format!("{refused} 9 {field}\n")));
        }
        assert!(text.contains(&format!("{refused} 11 of a compare\n")));
        // Each of these in one version only.
        for (fault, only) in [
            ("9 kind 2", 1),
            ("9 old of an advance", 2),
            ("11 of an advance", 2),
        ] {
            let wanted = text.contains(&format!("{refused} {fault}\n"));
            assert_eq!(wanted, version == only);
        }
    }
    assert_eq!(text.matches("never met: log verdict").count(), 4);
    assert_eq!(text.matches("never met: answer verdict").count(), 5);
    assert_eq!(text.matches("never met: advances told").count(), 6);
    for kind in [
        "advances whose sum went round",
        "compares that lost to an advance",
        "rounds of advances lost to a compare",
        "rounds of advances lost to an advance",
    ] {
        assert!(text.contains(&format!("never met: {kind}\n")));
    }
    assert!(text.contains("never met: lost swaps\n"));
    assert!(text.contains("never met: starts cut off after 1 store\n"));
    assert!(text.contains("never met: starts cut off after 2 stores\n"));
    assert!(text.contains("never met: rows begun again that failed\n"));
    assert!(text.contains("never met: values read over 65,535\n"));
    assert!(text.contains("never met: final words with bits from 48 up\n"));
    assert!(!text.contains("never met: crashes"));
}
