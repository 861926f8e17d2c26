//! Change request 7: "A crash of a process already down, or a wake of one
//! already up, has each time been a misread trace. Refuse such files."
//!
//! Who is up is told from the schedule alone, without rows, words or what the
//! processes are doing: a crash takes its process down, a crash of all takes
//! all down, a wake brings its process up, a step does neither.

use super::action::Action;

/// The position of the first byte that is a crash of a process that is down or
/// a wake of one that is up. "F0 is always allowed, and so is a step of a
/// process that is down."
///
/// Every process that an action names is there: one of P or more is no action,
/// so refusal 12 has been given for it, and it never comes to this check. Were
/// it asked about one all the same, that one would be taken as down for good.
pub fn first_idle(schedule: &[Action], processes: usize) -> Option<usize> {
    // At first all are up.
    let mut up = vec![true; processes];
    schedule.iter().position(|action| is_idle(*action, &mut up))
}

/// Whether an action is idle where these are up; who is up then.
fn is_idle(action: Action, up: &mut [bool]) -> bool {
    match action {
        Action::Step(_) => false,
        Action::Crash(process) => !turn(up, process, false),
        Action::Wake(process) => turn(up, process, true),
        Action::CrashOfAll => {
            up.fill(false);
            false
        }
    }
}

/// Takes a process up or down; whether it was up.
fn turn(up: &mut [bool], process: usize, is_up: bool) -> bool {
    match up.get_mut(process) {
        Some(slot) => std::mem::replace(slot, is_up),
        None => false,
    }
}

#[cfg(test)]
mod tests {
    use super::*;
    use Action::{Crash, CrashOfAll, Step, Wake};

    #[test]
    fn the_first_idle_byte_is_told() {
        let cases: [(&[Action], Option<usize>); 15] = [
            (&[], None),
            (&[Step(0), Step(1)], None),
            (&[Wake(0)], Some(0)),
            (&[Crash(0)], None),
            (&[Crash(0), Crash(0)], Some(1)),
            (&[Crash(0), Crash(1), Wake(1), Wake(0)], None),
            (&[Crash(0), Wake(1)], Some(1)),
            (&[Crash(0), Wake(0), Wake(0)], Some(2)),
            (&[Crash(0), Wake(0), Crash(0), Wake(0), Crash(0)], None),
            // A step of one that is down is allowed, and does not wake it.
            (&[Crash(0), Step(0), Step(0), Wake(0)], None),
            (&[Crash(0), Step(0), Crash(0)], Some(2)),
            // So is a crash of all, whoever is down, and it takes all down.
            (
                &[CrashOfAll, CrashOfAll, Wake(1), CrashOfAll, Wake(1)],
                None,
            ),
            (&[Crash(1), CrashOfAll, Wake(0), Wake(1), Wake(1)], Some(4)),
            (&[CrashOfAll, Wake(0), Crash(1)], Some(2)),
            // The first of two.
            (&[Step(0), Wake(1), Wake(0)], Some(1)),
        ];
        for (schedule, expected) in cases {
            assert_eq!(first_idle(schedule, 2), expected, "{schedule:?}");
        }
    }
}
