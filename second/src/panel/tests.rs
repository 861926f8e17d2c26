//! What the panel prints, typed by hand from the description of the panel and
//! the steps of document 01.

use super::panel;

/// One word at 7; rows are process, kind, old and new; no schedule.
fn file(processes: u8, rows: &[(u8, u8, u16, u16)]) -> Vec<u8> {
    let mut file = b"SWR\x01\x00".to_vec();
    file.extend([processes, 1, rows.len() as u8, 0, 0, 0]);
    file.extend([7, 0, 0, 0]);
    for (process, kind, old, new) in rows {
        file.extend([*process, *kind, 0, 0]);
        file.extend(old.to_le_bytes());
        file.extend(new.to_le_bytes());
    }
    file
}

/// The rows of case f: p0 7>8, p1 7>9.
fn case_f() -> Vec<u8> {
    file(2, &[(0, 1, 7, 8), (1, 1, 7, 9)])
}

fn printed(file: &[u8], keys: impl AsRef<[u8]>) -> String {
    let mut out = Vec::new();
    panel(file, &mut keys.as_ref(), &mut out).unwrap();
    String::from_utf8(out).unwrap()
}

/// The same key, so many times, one a line.
fn times(count: usize, key: &str) -> String {
    format!("{key}\n").repeat(count)
}

/// What is printed from this key on.
fn from_key(key: usize, text: &str) -> &str {
    let begins = text.find(&format!("key {key} ")).expect("a key");
    &text[begins..]
}

/// "keys `00`, `00`, `00`, `1` over a file whose first row is process 0's"
#[test]
fn the_example_of_the_description() {
    let expected = "\
run 2 1 2 0
word 0 7 0
key 0 00 step 0
process 0 stage N2
key 1 00 step 0
process 0 stage N3
key 2 00 step 0
process 0 stage A1
process 0 row 0
process 0 begun 1
key 3 01 step 1
process 1 stage N2
";
    assert_eq!(printed(&case_f(), "00\n00\n00\n1\n"), expected);
}

/// The schedule of case f, from p0's A1 on. Process 1 swaps at 10, process 0
/// loses at 13 and is logged behind that swap.
const CASE_F: &str = "\
key 3 00 step 0
process 0 stage A2
key 4 01 step 1
process 1 stage N2
key 5 01 step 1
process 1 stage N3
key 6 01 step 1
process 1 stage A1
process 1 row 1
process 1 begun 1
key 7 01 step 1
process 1 stage A2
key 8 01 step 1
process 1 stage A3
process 1 kept 1
key 9 01 step 1
process 1 stage A4
process 1 checkpoint 1
key 10 01 step 1
process 1 stage A5
word 0 9 2
log 10 1 1 1 0 at 0
key 11 00 step 0
process 0 stage A3
process 0 kept 1
key 12 00 step 0
process 0 stage A4
process 0 checkpoint 1
key 13 00 step 0
process 0 stage A5
key 14 00 step 0
process 0 stage A6
process 0 stored false
log 10 0 0 0 0 at 1
key 15 00 step 0
process 0 stage idle
process 0 row none
answer 15 0 0 0 0
";

#[test]
fn a_lost_swap_and_the_swap_it_lost_to() {
    let keys = times(4, "00") + &times(7, "01") + &times(5, "00");
    assert_eq!(from_key(3, &printed(&case_f(), keys)), CASE_F);
}

/// Process 1 is cut off behind its swap, and again in its recovery; process 0
/// has no row open then.
const RECOVERED: &str = "\
key 7 11 crash 1
process 1 stage down
key 8 01 step 1
nothing
key 9 21 wake 1
process 1 stage V1
key 10 01 step 1
process 1 stage V2
key 11 01 step 1
process 1 stage V3
key 12 01 step 1
process 1 stage V4
key 13 01 step 1
process 1 stage V5
process 1 stored true
key 14 f0 crash all
process 0 stage down
process 1 stage down
key 15 20 wake 0
process 0 stage idle
key 16 21 wake 1
process 1 stage V1
key 17 01 step 1
process 1 stage V5
key 18 01 step 1
process 1 stage idle
process 1 row none
answer 18 1 1 1 0
key 19 01 step 1
nothing
";

#[test]
fn a_recovery_that_says_true() {
    let keys = times(7, "1") + "11\n01\n21\n" + &times(4, "01") + "f0\n20\n21\n01\n01\n01\n";
    assert_eq!(from_key(7, &printed(&case_f(), keys)), RECOVERED);
}

/// Cut off behind A3: the flip bit is 0 and the kept bit 1.
#[test]
fn a_recovery_that_fails() {
    let keys = times(6, "0") + "10\n20\n" + &times(4, "0");
    let expected = "\
key 7 20 wake 0
process 0 stage V1
key 8 00 step 0
process 0 stage V2
key 9 00 step 0
process 0 stage V3
key 10 00 step 0
process 0 stage V6
key 11 00 step 0
process 0 stage idle
process 0 row none
answer 11 0 0 2 0
";
    assert_eq!(from_key(7, &printed(&case_f(), keys)), expected);
}

/// Process 0 reads 7 at 3, process 1 swaps at 10: the read is stored later and
/// enters the log in front.
#[test]
fn a_read_that_enters_in_front_of_a_swap() {
    let file = file(2, &[(0, 0, 0, 0), (1, 1, 7, 9)]);
    let keys = times(4, "0") + &times(7, "1") + &times(2, "0");
    let text = printed(&file, keys);
    assert!(text.contains("key 3 00 step 0\nprocess 0 stage A5\nkey 4 "));
    assert!(text.contains("log 10 1 1 1 0 at 0\n"));
    let expected = "\
key 11 00 step 0
process 0 stage A6
process 0 stored value 7
log 3 0 0 3 7 at 0
key 12 00 step 0
process 0 stage idle
process 0 row none
answer 12 0 0 3 7
";
    assert_eq!(from_key(11, &text), expected);
}

/// The second row of a process that has swapped: answer and checkpoint are
/// there to be cleared, and its flip bit is 1 by then.
#[test]
fn a_second_row_clears_what_the_first_has_left() {
    let file = file(1, &[(0, 1, 7, 8), (0, 1, 8, 9)]);
    let expected = "\
key 9 00 step 0
process 0 stage N2
process 0 stored none
key 10 00 step 0
process 0 stage N3
process 0 checkpoint 0
key 11 00 step 0
process 0 stage A1
process 0 row 1
process 0 begun 2
key 12 00 step 0
process 0 stage A2
key 13 00 step 0
process 0 stage A3
process 0 kept 0
key 14 00 step 0
process 0 stage A4
process 0 checkpoint 1
key 15 00 step 0
process 0 stage A5
word 0 9 0
log 15 0 1 1 0 at 1
";
    assert_eq!(from_key(9, &printed(&file, times(16, "0"))), expected);
}

/// Neither a line that is no key nor a refused key moves the position.
#[test]
fn the_position_stays_where_nothing_is_done() {
    let keys = "# a comment\n\n \t\r\nzero\n30\n02\n12\n2F\nf1\nE # 14\n21\nF0 # all\nF0\n003\n\
                2 1\n11\n00\n20\n20";
    let expected = "\
run 2 1 2 0
word 0 7 0
not a key
key 0 30 none
refused 22 0
key 0 02 step 2
refused 22 0
key 0 12 crash 2
refused 22 0
key 0 2f wake 15
refused 22 0
key 0 f1 crash all
refused 22 0
key 0 0e step 14
refused 22 0
key 0 21 wake 1
refused 16 0
key 0 f0 crash all
process 0 stage down
process 1 stage down
key 1 f0 crash all
nothing
not a key
not a key
key 2 11 crash 1
refused 16 0
key 2 00 step 0
nothing
key 3 20 wake 0
process 0 stage idle
key 4 20 wake 0
refused 16 0
";
    assert_eq!(printed(&case_f(), keys), expected);
}

#[test]
fn a_last_line_without_newline_is_a_line_like_the_others() {
    for (keys, with_newline) in [
        ("20", "20\n"),
        ("20\n", "20\n\n"),
        ("20\nx", "20\nx\n"),
        ("20\n#", "20\n#\n"),
        ("20\n ", "20\n"),
        ("", "\n"),
    ] {
        let file = case_f();
        assert_eq!(printed(&file, keys), printed(&file, with_newline));
    }
    assert!(printed(&case_f(), "f0\nx").ends_with("process 1 stage down\nnot a key\n"));
}

/// "21, a position over 1,023", which goes before 22 and 16.
#[test]
fn the_last_position_is_1023() {
    let keys = times(1_024, "f0") + "20\n10\n30\nx\n";
    let expected = "\
key 1023 f0 crash all
nothing
key 1024 20 wake 0
refused 21 0
key 1024 10 crash 0
refused 21 0
key 1024 30 none
refused 21 0
not a key
";
    assert_eq!(from_key(1_023, &printed(&case_f(), keys)), expected);
}

/// The schedule that stands in the file is told by its length only.
#[test]
fn the_files_own_schedule_is_not_carried_out() {
    let mut file = case_f();
    file[9] = 3;
    file.extend([0x00, 0x10, 0xF0]);
    let expected = "run 2 1 2 3\nword 0 7 0\nkey 0 00 step 0\nprocess 0 stage N2\n";
    assert_eq!(printed(&file, "0"), expected);
    // Nor is it held against the panel that `run` refuses it by 16.
    file[32] = 0x20;
    assert_eq!(printed(&file, "0"), expected);
}

#[test]
fn every_word_is_printed_first() {
    let mut file = b"SWR\x01\x00\x01\x03\x00\x00\x00\x00".to_vec();
    file.extend([7, 0, 0, 0, 0xFF, 0xFF, 0x01, 0x80, 0, 1, 0xFF, 0xFF]);
    let expected = "run 1 3 0 0\nword 0 7 0\nword 1 65535 32769\nword 2 256 65535\n";
    assert_eq!(printed(&file, ""), expected);
}

/// In version 2 the value is the low 32 bits, and the flip bits are all those
/// from 32 up.
#[test]
fn a_file_of_version_2() {
    let mut file = b"SWR\x02\x00\x01\x02\x02\x00\x00\x00".to_vec();
    file.extend([0x07, 0x28, 0x6B, 0xEE, 0, 0, 1, 0]);
    file.extend([0xFF; 8]);
    file.extend([0, 1, 0, 0, 0x07, 0x28, 0x6B, 0xEE, 0, 0, 1, 0]);
    file.extend([0, 0, 1, 0, 0, 0, 0, 0, 0, 0, 0, 0]);
    let text = printed(&file, times(15, "0"));
    let start = "run 1 2 2 0\nword 0 4000000007 65536\nword 1 4294967295 4294967295\nkey 0 ";
    assert!(text.starts_with(start));
    let swap = "\
key 6 00 step 0
process 0 stage A5
word 0 65536 65537
log 6 0 0 1 0 at 0
key 7 ";
    assert!(text.contains(swap));
    let read = "\
key 13 00 step 0
process 0 stage A6
process 0 stored value 4294967295
log 12 0 1 3 4294967295 at 1
key 14 00 step 0
process 0 stage idle
process 0 row none
answer 14 0 1 3 4294967295
";
    assert_eq!(from_key(13, &text), read);
    file[42] = 1;
    assert_eq!(printed(&file, "00\n"), "refused 9 42\n");
}

/// "the one line `refused N PLACE`, and the program ends": no key is taken.
#[test]
fn a_refused_file() {
    let mut equal = case_f();
    equal[27] = 7;
    equal[29] = 7;
    assert_eq!(printed(&equal, "00\nx\n"), "refused 11 23\n");
    let mut no_kind = case_f();
    no_kind[16] = 2;
    assert_eq!(printed(&no_kind, "00\n"), "refused 9 16\n");
    assert_eq!(printed(b"SWR", "00\n"), "refused 1 0\n");
}

/// One word 1,000 below the end, in a file of version 2: process 0 advances it
/// by 1,460, process 1 by 536 and then swaps 996 for 7.
fn advances() -> Vec<u8> {
    let mut file = b"SWR\x02\x00\x02\x01\x03\x00\x00\x00".to_vec();
    file.extend([0x18, 0xFC, 0xFF, 0xFF, 0, 0, 0, 0]);
    file.extend([0, 2, 0, 0, 0, 0, 0, 0, 0xB4, 5, 0, 0]);
    file.extend([1, 2, 0, 0, 0, 0, 0, 0, 0x18, 2, 0, 0]);
    file.extend([1, 1, 0, 0, 0xE4, 3, 0, 0, 7, 0, 0, 0]);
    file
}

/// Process 0 reads at 3, process 1 advances at 10, process 0 loses at 13, goes
/// back to A1 and swaps at 17. The kept value has a line of its own directly
/// behind that of the kept bit, which stays as it was in the second round.
const LOST_ROUND: &str = "\
key 8 01 step 1
process 1 stage A3
process 1 kept 1
process 1 kept value 4294966296
key 9 01 step 1
process 1 stage A4
process 1 checkpoint 1
key 10 01 step 1
process 1 stage A5
word 0 4294966832 2
log 10 1 1 4 4294966296 at 0
key 11 00 step 0
process 0 stage A3
process 0 kept 1
process 0 kept value 4294966296
key 12 00 step 0
process 0 stage A4
process 0 checkpoint 1
key 13 00 step 0
process 0 stage A1
key 14 00 step 0
process 0 stage A2
key 15 00 step 0
process 0 stage A3
process 0 kept value 4294966832
key 16 00 step 0
process 0 stage A4
key 17 00 step 0
process 0 stage A5
word 0 996 3
log 17 0 0 4 4294966832 at 1
key 18 00 step 0
process 0 stage A6
process 0 stored was 4294966832
key 19 00 step 0
process 0 stage idle
process 0 row none
answer 19 0 0 4 4294966832
";

#[test]
fn an_advance_that_loses_a_round() {
    let keys = times(4, "00") + &times(7, "01") + &times(9, "00");
    assert_eq!(from_key(8, &printed(&advances(), keys)), LOST_ROUND);
}

/// Process 1 is cut off behind its swap, and its answer comes from what A2 kept.
const RECOVERED_ADVANCE: &str = "\
key 7 11 crash 1
process 1 stage down
key 8 21 wake 1
process 1 stage V1
key 9 01 step 1
process 1 stage V2
key 10 01 step 1
process 1 stage V3
key 11 01 step 1
process 1 stage V4
key 12 01 step 1
process 1 stage V5
process 1 stored was 4294966296
key 13 01 step 1
process 1 stage idle
process 1 row none
answer 13 1 1 4 4294966296
";

#[test]
fn an_advance_that_is_recovered() {
    let keys = times(7, "01") + "11\n21\n" + &times(5, "01");
    assert_eq!(from_key(7, &printed(&advances(), keys)), RECOVERED_ADVANCE);
}

/// The row behind an advance: the announcement leaves what is kept, and A2 of a
/// compare keeps its bit alone.
#[test]
fn a_compare_behind_an_advance() {
    let keys = times(9, "00") + &times(15, "01");
    let text = printed(&advances(), keys);
    let expected = "\
key 18 01 step 1
process 1 stage N2
process 1 stored none
key 19 01 step 1
process 1 stage N3
process 1 checkpoint 0
key 20 01 step 1
process 1 stage A1
process 1 row 2
process 1 begun 2
key 21 01 step 1
process 1 stage A2
key 22 01 step 1
process 1 stage A3
process 1 kept 0
key 23 01 step 1
process 1 stage A4
process 1 checkpoint 1
";
    assert_eq!(from_key(18, &text), expected);
}

/// A kept value of 0 is what is kept at first, so nothing is told of it.
#[test]
fn a_kept_value_of_0_is_no_other() {
    let mut file = advances();
    file[11..15].fill(0);
    let text = printed(&file, times(5, "00"));
    let expected = "key 4 00 step 0\nprocess 0 stage A3\nprocess 0 kept 1\n";
    assert_eq!(from_key(4, &text), expected);
}

#[test]
fn refused_files_of_advances() {
    let mut with_old = advances();
    with_old[35] = 1;
    assert_eq!(printed(&with_old, "00\n"), "refused 9 35\n");
    let mut by_nothing = advances();
    by_nothing[39..43].fill(0);
    assert_eq!(printed(&by_nothing, "00\n"), "refused 11 31\n");
}
