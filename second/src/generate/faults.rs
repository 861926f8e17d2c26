//! Faults for every check, so that each refusal is met often and at many
//! places, and several in one file so that the order of the checks matters.

use super::draft::{Draft, DraftRow};
use super::random::Random;
use super::upright::{Upright, CRASH, CRASH_OF_ALL, WAKE};
use crate::machine::Version;

/// The refusals that the file alone can bring about, in the order of the
/// checks: 1 to 12, and then 16.
const REFUSALS_OF_THE_FILE: usize = 13;

/// One fault of any number.
pub fn single_fault(draft: Draft, random: &mut Random) -> Draft {
    faulty(draft, 1, random)
}

/// Two to five faults of any numbers, also twice the same.
pub fn several_faults(draft: Draft, random: &mut Random) -> Draft {
    let count = random.between(2, 5);
    faulty(draft, count, random)
}

/// Two to five faults of rows and schedule only, since any fault of the
/// header would hide them.
pub fn several_row_faults(draft: Draft, random: &mut Random) -> Draft {
    let mut draft = roomy(draft, random);
    for _ in 0..random.between(2, 5) {
        let check = random.between(9, REFUSALS_OF_THE_FILE);
        inflict(check, &mut draft, random);
    }
    draft
}

fn faulty(draft: Draft, count: usize, random: &mut Random) -> Draft {
    let mut draft = roomy(draft, random);
    for _ in 0..count {
        let check = random.between(1, REFUSALS_OF_THE_FILE);
        inflict(check, &mut draft, random);
    }
    draft
}

/// A valid draft with room for every fault: two processes, two rows and a
/// schedule byte at least.
fn roomy(mut draft: Draft, random: &mut Random) -> Draft {
    draft.processes = draft.processes.max(2);
    while draft.rows.len() < 2 {
        let process = draft.rows.last().map_or(0, |row| row.process);
        draft.rows.push(DraftRow::read(process, 0));
    }
    if draft.schedule.is_empty() {
        draft.schedule.push(random.byte_between(0, 1));
    }
    draft.made_honest()
}

/// A fault by the place of its check in the order.
fn inflict(check: usize, draft: &mut Draft, random: &mut Random) {
    match check {
        1 => draft.cut = Some(random.one_of([0, 1, 3, 9, 10, 10])),
        2 => draft.mark[random.below(3)] ^= 1 << random.below(8),
        3 => draft.version = wrong_version(random),
        4 => draft.processes = random.one_of([0, 17, 18, 32, 128, 255]),
        5 => wrong_word_count(draft, random),
        6 => wrong_row_count(draft, random),
        7 => wrong_schedule_length(draft, random),
        8 => wrong_length(draft, random),
        9 => wrong_field(draft, random),
        10 => wrong_row_order(draft, random),
        11 => equal_for_equal(draft, random),
        12 => no_action(draft, random),
        _ => idle_byte(draft, random),
    }
}

fn wrong_version(random: &mut Random) -> u16 {
    let any = random.u16();
    match random.one_of([0, 3, 4, 0x0100, 0x0101, 0x0102, 0x0200, 0x0201, 0xFFFF, any]) {
        1 | 2 => 0,
        version => version,
    }
}

/// A word count out of range; half of the time the words are really there.
fn wrong_word_count(draft: &mut Draft, random: &mut Random) {
    draft.word_count = random.one_of([0, 17, 18, 40, 255]);
    if random.percent(50) {
        draft.words.resize(usize::from(draft.word_count), 7);
    }
}

/// A row count over 512; half of the time the rows are really there.
fn wrong_row_count(draft: &mut Draft, random: &mut Random) {
    draft.row_count = random.one_of([513, 514, 520, 0x0300, 0x8000, 0xFFFF]);
    if draft.row_count <= 520 && random.percent(50) {
        let process = draft.rows.last().map_or(0, |row| row.process);
        let filler = DraftRow::read(process, 0);
        draft.rows.resize(usize::from(draft.row_count), filler);
    }
}

/// A schedule over 1,024; half of the time the bytes are really there.
fn wrong_schedule_length(draft: &mut Draft, random: &mut Random) {
    draft.schedule_length = random.one_of([1025, 1026, 1040, 0x0500, 0x8000, 0xFFFF]);
    if draft.schedule_length <= 1040 && random.percent(50) {
        draft.schedule.resize(usize::from(draft.schedule_length), 0);
    }
}

/// A file longer or shorter than its header gives, or a header that gives
/// one too many or too few, or the other version.
fn wrong_length(draft: &mut Draft, random: &mut Random) {
    let whole = draft.bytes().len();
    match random.below(7) {
        0 => draft.tail.push(random.byte()),
        1 => {
            let extra = random.between(1, 300);
            draft.tail.extend(random.bytes(extra));
        }
        2 => draft.cut = Some(whole.saturating_sub(1)),
        3 => draft.cut = Some(random.below(whole)),
        4 => draft.row_count ^= 1,
        5 => draft.version ^= 3,
        _ => draft.schedule_length ^= 1,
    }
}

/// Refusal 9 in any of the six fields, at any row and in rows of every kind,
/// and now and then in another field of the same row, before or behind it.
fn wrong_field(draft: &mut Draft, random: &mut Random) {
    let (processes, words, layout) = (draft.processes, draft.word_count, draft.layout);
    let Some(row) = any_row(draft, random) else {
        return;
    };
    loop {
        // A fault hides those behind it, so the later fields come more often.
        match random.weighted([(2, 0), (3, 1), (3, 2), (4, 3), (6, 4), (6, 5), (3, 6)]) {
            0 => row.process = at_least(processes, random),
            1 => row.kind = wrong_kind(layout, random),
            2 => row.word = at_least(words, random),
            3 => row.zero = at_least(1, random),
            4 => (row.kind, row.old) = (0, not_zero(layout, random)),
            5 => (row.kind, row.old, row.new) = (0, 0, not_zero(layout, random)),
            _ => wrong_advance(row, layout, random),
        }
        if random.percent(75) {
            break;
        }
    }
}

/// Kind 2 is one of version 2 only.
fn wrong_kind(layout: Version, random: &mut Random) -> u8 {
    match layout {
        Version::One => at_least(2, random),
        Version::Two => at_least(3, random),
    }
}

/// An advance in a file of version 1, with nothing else wrong; or, in one of
/// version 2, an advance with an old.
fn wrong_advance(row: &mut DraftRow, layout: Version, random: &mut Random) {
    row.kind = 2;
    row.new = row.new.max(1);
    row.old = match layout {
        Version::One => 0,
        Version::Two => not_zero(layout, random),
    };
}

/// The least number as often as all the others.
fn at_least(least: u8, random: &mut Random) -> u8 {
    let any = random.byte_between(least, 255);
    random.one_of([least, any])
}

/// Mostly with all bytes 0 but one, whichever that is.
fn not_zero(layout: Version, random: &mut Random) -> u32 {
    let (bytes, any) = match layout {
        Version::One => (2, random.u16().into()),
        Version::Two => (4, random.u32()),
    };
    let at = 8 * random.below(bytes);
    random.one_of([1 << at, 1 << at, 0xFF << at, any | 1 << at])
}

/// A row whose process is below that of the row before.
fn wrong_row_order(draft: &mut Draft, random: &mut Random) {
    let highest = draft.processes.saturating_sub(1);
    let second = random.between(1, draft.rows.len().saturating_sub(1));
    if let Some([before, row]) = draft.rows.get_mut(second - 1..=second) {
        if before.process == 0 {
            before.process = random.byte_between(1, highest.max(1));
        }
        row.process = random.byte_between(0, before.process.saturating_sub(1));
    }
}

/// A compare row with old equal to new or, in version 2, an advance of 0.
fn equal_for_equal(draft: &mut Draft, random: &mut Random) {
    let advances = draft.layout == Version::Two && random.percent(50);
    if let Some(row) = any_row(draft, random) {
        if advances {
            (row.kind, row.old, row.new) = (2, 0, 0);
        } else {
            row.kind = 1;
            row.new = row.old;
        }
    }
}

/// A byte that is no action, at any place of the schedule.
fn no_action(draft: &mut Draft, random: &mut Random) {
    let byte = match random.below(3) {
        0 => random.byte_between(0xF1, 0xFF),
        1 if draft.processes < 16 => {
            let any = random.byte_between(draft.processes, 15);
            random.one_of([0x00, 0x10, 0x20]) | random.one_of([draft.processes, any])
        }
        _ => {
            let any = random.byte_between(0x30, 0xEF);
            random.one_of([0x30, 0xE0, any])
        }
    };
    let at = random.below(draft.schedule.len());
    if let Some(slot) = draft.schedule.get_mut(at) {
        *slot = byte;
    }
}

/// Refusal 16: a wake of one that is up or a crash of one that is down, at any
/// place of the schedule. Now and then a crash is put in front of it; so there
/// is one that is down.
fn idle_byte(draft: &mut Draft, random: &mut Random) {
    let process = random.below(draft.processes.clamp(1, 16).into()) as u8;
    let at = random.below(draft.schedule.len());
    let upright = Upright::behind(&draft.schedule[..at]);
    let crash = random.one_of([CRASH | process, CRASH_OF_ALL]);
    let is_up = upright.is_up(process);
    match draft.schedule.get_mut(at..) {
        Some([first, second, ..]) if is_up && random.percent(45) => {
            (*first, *second) = (crash, CRASH | process);
        }
        Some([slot, ..]) if is_up => *slot = WAKE | process,
        Some([slot, ..]) => *slot = CRASH | process,
        _ => {}
    }
}

fn any_row<'d>(draft: &'d mut Draft, random: &mut Random) -> Option<&'d mut DraftRow> {
    let at = random.below(draft.rows.len());
    draft.rows.get_mut(at)
}
