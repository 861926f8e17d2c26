//! Who is up and who is down, so that a valid file has no idle byte and a
//! damaged one has one on purpose (change request 7).

pub const CRASH: u8 = 0x10;
pub const WAKE: u8 = 0x20;
pub const CRASH_OF_ALL: u8 = 0xF0;

/// By process. Also one that is not there counts as up until a byte names it;
/// its bytes are refused by 12, whatever is said of them here.
#[derive(Clone)]
pub struct Upright {
    up: [bool; 16],
}

impl Upright {
    pub fn at_first() -> Upright {
        Upright { up: [true; 16] }
    }

    /// Behind these bytes, whether they are in order or not.
    pub fn behind(schedule: &[u8]) -> Upright {
        let mut upright = Upright::at_first();
        for byte in schedule {
            upright.takes(*byte);
        }
        upright
    }

    pub fn is_up(&self, process: u8) -> bool {
        self.up[usize::from(process & 15)]
    }

    /// A crash of one that is down, or a wake of one that is up.
    pub fn is_idle(&self, byte: u8) -> bool {
        match byte & 0xF0 {
            CRASH => !self.is_up(byte),
            WAKE => self.is_up(byte),
            _ => false,
        }
    }

    /// Carries a byte out; whether it is not idle.
    pub fn takes(&mut self, byte: u8) -> bool {
        let idle = self.is_idle(byte);
        match byte & 0xF0 {
            CRASH | WAKE => self.up[usize::from(byte & 15)] = byte & 0xF0 == WAKE,
            CRASH_OF_ALL => self.up = [false; 16],
            _ => {}
        }
        !idle
    }
}

#[cfg(test)]
mod tests {
    use super::*;

    #[test]
    fn a_crash_takes_down_and_a_wake_brings_up() {
        let mut upright = Upright::at_first();
        let bytes = [
            0x23, 0x13, 0x03, 0x13, 0x14, 0x23, 0x23, 0xF0, 0xF0, 0x13, 0x24,
        ];
        let idle = [0x23, 0x13, 0x23, 0x13];
        let met = bytes.into_iter().filter(|byte| !upright.takes(*byte));
        assert_eq!(met.collect::<Vec<u8>>(), idle);
        let upright = Upright::behind(&bytes);
        assert!(upright.is_up(4) && !upright.is_up(3) && !upright.is_up(0));
    }
}
