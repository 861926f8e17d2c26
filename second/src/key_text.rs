//! `second key-text`: the schedule of a run file as keys, littered by a seed
//! with all that a panel has to bear: comments, lines that are no key, bytes
//! that are no action, processes that are not there, crashes and wakes, and
//! those of them that are idle.

use std::io::{self, Read, Write};

use crate::generate::random::Random;
use crate::keys::schedule;
use crate::machine::RunFile;
use crate::Ending;

const CRASH: u8 = 0x10;
const WAKE: u8 = 0x20;
const CRASH_OF_ALL: u8 = 0xF0;

/// More processes than this no file has.
const MOST_PROCESSES: u8 = 16;

/// In so many of a hundred places something is strewn in.
const LITTERED: usize = 6;

/// Keys behind the schedule, at most. So a short file comes to more rows than
/// its own schedule has room for.
const LONGEST_TAIL: usize = 60;

const NO_KEYS: [&[u8]; 14] = [
    b"003", b"0 1", b"01 02", b"0x01", b"g0", b"0G", b"step 0", b"-1", b"1;", b"\x0b01", b"01\x0c",
    b"\0", b"\xff", b"1\r2",
];

const BLANKS: [&[u8]; 6] = [b"", b" ", b"\t", b"\r", b"  \t", b" \r"];

pub fn command(seed: u64) -> io::Result<Ending> {
    let mut file = Vec::new();
    io::stdin().lock().read_to_end(&mut file)?;
    io::stdout().lock().write_all(&key_text(&file, seed))?;
    Ok(Ending::Clean)
}

fn key_text(file: &[u8], seed: u64) -> Vec<u8> {
    let mut typist = Typist {
        // Of a refused file the panel reads no keys; any text will do.
        processes: RunFile::read(file).map_or(1, |file| file.processes as u8),
        random: Random::seeded(seed),
        text: Vec::new(),
    };
    for byte in schedule(file).unwrap_or(&[]) {
        typist.perhaps_litter();
        typist.key(*byte);
    }
    for _ in 0..typist.random.below(LONGEST_TAIL) {
        typist.perhaps_litter();
        typist.any_action();
    }
    typist.end();
    typist.text
}

struct Typist {
    processes: u8,
    random: Random,
    text: Vec<u8>,
}

impl Typist {
    fn perhaps_litter(&mut self) {
        if !self.random.percent(LITTERED) {
            return;
        }
        let litter: fn(&mut Typist) = self.random.weighted([
            (2, Typist::comment),
            (2, Typist::blank_line),
            (3, Typist::no_key),
            (3, Typist::no_action),
            (2, Typist::process_beyond),
            (2, Typist::any_action),
            (5, Typist::crash_and_wake),
            (2, Typist::idle_keys),
            (1, Typist::crash_all_and_wake),
        ]);
        litter(self);
    }

    fn line(&mut self, line: &[u8]) {
        self.text.extend(line);
        self.text.push(b'\n');
    }

    /// A key, mostly as two lower-case digits and nothing else.
    fn key(&mut self, byte: u8) {
        if self.random.percent(80) {
            self.line(format!("{byte:02x}").as_bytes());
            return;
        }
        let digits = match self.random.below(3) {
            0 => format!("{byte:02x}"),
            1 => format!("{byte:02X}"),
            // One digit where that is enough.
            _ => format!("{byte:x}"),
        };
        let comment = self.random.one_of([&b""[..], b"", b"#", b"# 00", b"#\xff"]);
        let (before, after) = (self.random.one_of(BLANKS), self.random.one_of(BLANKS));
        self.line(&[before, digits.as_bytes(), after, comment].concat());
    }

    fn comment(&mut self) {
        let blank = self.random.one_of(BLANKS);
        let text = self
            .random
            .one_of([&b"#"[..], b"# 00", b"#00", b"# \xff\0"]);
        self.line(&[blank, text].concat());
    }

    fn blank_line(&mut self) {
        let blank = self.random.one_of(BLANKS);
        self.line(blank);
    }

    fn no_key(&mut self) {
        let line = self.random.one_of(NO_KEYS);
        self.line(line);
    }

    /// High four bits from 3 to 14, or a crash of all with low bits.
    fn no_action(&mut self) {
        let none = self.random.byte_between(0x30, 0xEF);
        let all = self.random.byte_between(0xF1, 0xFF);
        let byte = self.random.one_of([none, none, all]);
        self.key(byte);
    }

    fn process_beyond(&mut self) {
        if self.processes < MOST_PROCESSES {
            let any = self.random.byte_between(self.processes, 15);
            let process = self.random.one_of([self.processes, any]);
            let action = self.random.one_of([0, CRASH, WAKE]);
            self.key(action | process);
        }
    }

    fn any_process(&mut self) -> u8 {
        self.random.below(self.processes.into()) as u8
    }

    /// Also one that changes nothing, and one that is refused for that.
    fn any_action(&mut self) {
        let process = self.any_process();
        let action = self.random.weighted([(8, 0), (1, CRASH), (2, WAKE)]);
        self.key(action | process);
    }

    /// A crash wherever it falls, some steps while down, and the recovery,
    /// perhaps cut off in its turn.
    fn crash_and_wake(&mut self) {
        let process = self.any_process();
        self.key(CRASH | process);
        self.steps(process, 1);
        self.key(WAKE | process);
        self.steps(process, 5);
        if self.random.percent(30) {
            self.key(CRASH | process);
            self.key(WAKE | process);
        }
    }

    /// A crash or a wake typed twice: whatever the process was, the second is
    /// refused by 16. Then what brings it back, and perhaps that twice as well.
    fn idle_keys(&mut self) {
        let process = self.any_process();
        let [first, second] = self.random.one_of([[CRASH, WAKE], [WAKE, CRASH]]);
        for action in [first, first, second] {
            self.key(action | process);
        }
        if self.random.percent(50) {
            self.steps(process, 2);
            self.key(second | process);
        }
        if second == CRASH {
            self.key(WAKE | process);
        }
    }

    fn steps(&mut self, process: u8, most: usize) {
        for _ in 0..self.random.between(0, most) {
            self.key(process);
        }
    }

    fn crash_all_and_wake(&mut self) {
        self.key(CRASH_OF_ALL);
        for process in 0..self.processes {
            if self.random.percent(90) {
                self.key(WAKE | process);
            }
        }
    }

    /// The last line has its newline, or has none, or has nothing in it.
    fn end(&mut self) {
        match self.random.below(3) {
            0 => {}
            1 => {
                self.text.pop();
            }
            _ => {
                let blank = self.random.one_of(BLANKS);
                self.text.extend(blank);
            }
        }
    }
}

#[cfg(test)]
mod tests {
    use super::*;
    use crate::generate::{records, Flavour};
    use crate::machine::Version;
    use crate::panel::{read_line, Line};

    fn lines(text: &[u8]) -> Vec<Line> {
        text.split(|byte| *byte == b'\n').map(read_line).collect()
    }

    fn keys(text: &[u8]) -> Vec<u8> {
        let keys = lines(text).into_iter().filter_map(|line| match line {
            Line::Key(byte) => Some(byte),
            Line::Nothing | Line::NotAKey => None,
        });
        keys.collect()
    }

    #[test]
    fn the_schedule_is_there_in_its_order_among_the_litter() {
        for version in [Version::One, Version::Two] {
            for record in records(3, 4, Flavour::FewLost(version)) {
                let text = key_text(&record.file, 5);
                let mut keys = keys(&text).into_iter();
                for byte in schedule(&record.file).unwrap() {
                    assert!(keys.any(|key| key == *byte));
                }
            }
        }
    }

    #[test]
    fn every_sort_of_litter_is_met() {
        let file = records(3, 1, Flavour::FewLost(Version::One))
            .next()
            .unwrap()
            .file;
        let processes = RunFile::read(&file).unwrap().processes as u8;
        assert!(processes < 16);
        let text = (0..5).map(|seed| key_text(&file, seed)).collect::<Vec<_>>();
        let text = text.join(&b'\n');
        let (lines, keys) = (lines(&text), keys(&text));
        assert!(lines.contains(&Line::NotAKey));
        assert!(lines.contains(&Line::Nothing));
        let met = |of_them: fn(u8, u8) -> bool| keys.iter().any(|key| of_them(*key, processes));
        assert!(met(|key, _| (0x30..=0xEF).contains(&key)));
        assert!(met(|key, _| key > CRASH_OF_ALL));
        assert!(met(|key, _| key == CRASH_OF_ALL));
        assert!(met(|key, processes| key < 0x30 && key & 0x0F >= processes));
        assert!(met(|key, processes| key >> 4 == 1 && key & 0x0F < processes));
        assert!(met(|key, processes| key >> 4 == 2 && key & 0x0F < processes));
        for action in [CRASH, WAKE] {
            let twice = |pair: &[u8]| pair[0] == pair[1] && pair[0] & 0xF0 == action;
            assert!(keys.windows(2).any(twice));
        }
    }

    #[test]
    fn a_seed_gives_the_same_text_again() {
        let file = records(3, 1, Flavour::ManyLost(Version::Two))
            .next()
            .unwrap()
            .file;
        assert_eq!(key_text(&file, 8), key_text(&file, 8));
        assert_ne!(key_text(&file, 8), key_text(&file, 9));
    }
}
