//! The schedule bytes.

#[derive(Clone, Copy, Debug, PartialEq, Eq)]
pub enum Action {
    Step(usize),
    Crash(usize),
    Wake(usize),
    CrashOfAll,
}

impl Action {
    /// "The low four bits name a process; in the high four bits the action is
    /// read off in ranges: 0 step, 1 crash, 2 wake, 15 crash of all, the rest
    /// none." `None` when refusal 12 is due: "A byte is refused if its action
    /// is none, if its process is P or more for 0, 1 and 2, or if its low
    /// bits are not 0 for 15."
    pub fn decode(byte: u8, processes: usize) -> Option<Action> {
        let low = usize::from(byte & 0x0F);
        let present = low < processes;
        match byte >> 4 {
            0 if present => Some(Action::Step(low)),
            1 if present => Some(Action::Crash(low)),
            2 if present => Some(Action::Wake(low)),
            15 if low == 0 => Some(Action::CrashOfAll),
            _ => None,
        }
    }
}
