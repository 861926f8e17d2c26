//! Refusals 9 and 11 by what is wrong with the row. Of 9 "The first faulty
//! field of the first faulty row ends the search; fields go in file order", and
//! the place is that of "that field's first byte" (change request 2). Of 11 it
//! is the "row's first byte".

use super::given::{number, GivenRow, Layout, ADVANCE, COMPARE, FIELDS, READ};
use super::Violation;

/// What a refusal 9 or 11 of that file at that place is about.
pub fn fault_at(file: &[u8], number: usize, place: usize) -> Result<Option<String>, Violation> {
    let (first, none) = match number {
        9 => (first_faulty_field(file), "no field of a row is faulty"),
        11 => (first_of_no_change(file), "no row puts in the same"),
        _ => return Ok(None),
    };
    match first {
        Some((at, fault)) if at == place => Ok(Some(fault)),
        Some((at, _)) if number == 9 => Err(format!("the first faulty field is at {at}")),
        Some((at, _)) => Err(format!("the first row that puts in the same is at {at}")),
        None => Err(none.to_string()),
    }
}

/// Place and name of the first faulty field of the first faulty row.
fn first_faulty_field(file: &[u8]) -> Option<(usize, String)> {
    let layout = Layout::of(file)?;
    let processes = number(file, 5, 1)?;
    let words = number(file, 6, 1)?;
    for row in layout.rows(file)? {
        let kind = number(file, row + 1, 1)?;
        for (field, (offset, bytes)) in layout.fields().into_iter().enumerate() {
            let value = number(file, row + offset, bytes)?;
            let most = match (field, kind) {
                (0, _) => processes.checked_sub(1)?,
                (1, _) => layout.last_kind(),
                (2, _) => words.checked_sub(1)?,
                (3, _) | (_, READ) => 0,
                (4, ADVANCE) => 0,
                _ => u64::MAX,
            };
            if value > most {
                return Some((row + offset, field_name(field, kind)));
            }
        }
    }
    None
}

/// A faulty kind and a faulty old have two sorts: kind 2, in version 1, is one
/// that another version has, and an advance has no old, as a read has none.
fn field_name(field: usize, kind: u64) -> String {
    let name = FIELDS[field];
    match (field, kind) {
        (1, ADVANCE) => format!("{name} 2"),
        (1, _) => format!("{name} 3 or more"),
        (4, ADVANCE) => format!("{name} of an advance"),
        (4, _) => format!("{name} of a read"),
        _ => name.to_string(),
    }
}

/// Place and kind of the first row that would put in what is there: a compare
/// row with old equal to new, or an advance of 0.
fn first_of_no_change(file: &[u8]) -> Option<(usize, String)> {
    let layout = Layout::of(file)?;
    for place in layout.rows(file)? {
        let row = layout.given_row(file, place)?;
        if puts_in_the_same(&row) {
            let of = if row.kind == ADVANCE {
                "an advance"
            } else {
                "a compare"
            };
            return Some((place, format!("of {of}")));
        }
    }
    None
}

fn puts_in_the_same(row: &GivenRow) -> bool {
    match row.kind {
        COMPARE => row.old == row.new,
        ADVANCE => row.new == 0,
        _ => false,
    }
}
