//! The lent log, read and written as numbers. The panel may lend any numbers,
//! in any order of positions, so what the documents say is done literally.

use crate::machine::Row;
use crate::pieces::pieces;

/// "Both have rows of five numbers".
pub const ROW: usize = 5;

/// "no room for one more row" behind so many.
pub fn has_no_room(buffer: &[u32], rows: usize) -> bool {
    buffer.len() / ROW <= rows
}

/// "A new log row goes directly behind the last row of equal or smaller
/// position, or to the front if there is none; rows from that place to the
/// end move up by one row." `rows` is how many the log has; there is room.
pub fn enter(log: &mut [u32], rows: usize, new: [u32; ROW]) {
    let is_in_front = |row: [u32; ROW]| row[0] <= new[0];
    let before: Vec<[u32; ROW]> = pieces(log).take(rows).collect();
    let place = before
        .into_iter()
        .rposition(is_in_front)
        .map_or(0, |last| last + 1);
    log.copy_within(ROW * place..ROW * rows, ROW * (place + 1));
    write(log, place, new);
}

/// Writes a row at its place.
pub fn write(buffer: &mut [u32], place: usize, row: [u32; ROW]) {
    buffer[ROW * place..ROW * (place + 1)].copy_from_slice(&row);
}

/// "the front-most log row of a successful swap whose position is larger than
/// its A1's and whose row number names a row on the same word": its position.
/// "a row number not in the file names none". A row is one of a successful swap
/// by its verdict: true, or that of an advance, whose swap "is a successful
/// swap for others' lost ones" (change request 6).
pub fn first_swap_after(log: &[u32], rows: usize, a1: u32, own: &Row, file: &[Row]) -> Option<u32> {
    let names_the_word = |number: u32| {
        let named = usize::try_from(number).ok().and_then(|at| file.get(at));
        named.is_some_and(|row| row.word == own.word)
    };
    pieces(log)
        .take(rows)
        .find(|[position, _, row, verdict, _]| {
            matches!(*verdict, 1 | 4) && *position > a1 && names_the_word(*row)
        })
        .map(|[position, ..]| position)
}
