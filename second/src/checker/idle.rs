//! Refusal 16: "A crash of a process already down, or a wake of one already
//! up" (change request 7), told from the bytes of the schedule alone.

use super::given::Given;
use super::Violation;

pub const CRASH_OF_ONE_DOWN: &str = "for a crash of one that is down";
pub const WAKE_OF_ONE_UP: &str = "for a wake of one that is up";

/// Position and sort of the first idle byte of a schedule. Who is up is kept in
/// one number, bit p for process p; a byte that is no action turns nothing.
fn first_idle(schedule: &[u8]) -> Option<(usize, &'static str)> {
    let mut up = u16::MAX;
    for (position, byte) in schedule.iter().enumerate() {
        let bit = 1 << (byte & 15);
        match byte >> 4 {
            1 if up & bit == 0 => return Some((position, CRASH_OF_ONE_DOWN)),
            2 if up & bit != 0 => return Some((position, WAKE_OF_ONE_UP)),
            1 | 2 => up ^= bit,
            15 => up = 0,
            _ => {}
        }
    }
    None
}

/// Of a file that 16 refuses at that place: of which sort the byte is. "F0 is
/// always allowed, and so is a step of a process that is down."
pub fn idle_at(file: &[u8], place: usize) -> Result<&'static str, Violation> {
    let given = Given::read(file)?;
    let begins = file.len() - given.schedule.len();
    match first_idle(&given.schedule) {
        Some((at, sort)) if begins + at == place => Ok(sort),
        Some((at, _)) => Err(format!("the first idle byte is at {}", begins + at)),
        None => Err("no byte of the schedule is idle".to_string()),
    }
}

/// A file that ran, or was refused by a later check, has no such byte: 16 is
/// "checked straight after 12 and before 13".
pub fn check_none(given: &Given) -> Result<(), Violation> {
    match first_idle(&given.schedule) {
        Some((at, _)) => Err(format!("the byte at {at} of the schedule is idle")),
        None => Ok(()),
    }
}
