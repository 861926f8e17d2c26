//! What the panel prints for a file's own schedule tells the whole outcome of
//! the run: it is rebuilt from the lines and held against what `run` prints.

use crate::generate::{records, Flavour};
use crate::keys::schedule;
use crate::machine::Version;
use crate::run::print_run;

use super::panel;

/// The `run` line, the words, the log and the answers, as `run` prints them.
#[derive(Default)]
struct Rebuilt {
    header: String,
    words: Vec<String>,
    log: Vec<String>,
    answers: Vec<String>,
}

impl Rebuilt {
    fn take(&mut self, line: &str) {
        match line.split(' ').next() {
            Some("run") => self.header = line.to_string(),
            Some("word") => self.take_word(line),
            Some("log") => {
                let (row, place) = line.split_once(" at ").expect("a place");
                let place = place.parse().expect("a number");
                self.log.insert(place, row.to_string());
            }
            Some("answer") => self.answers.push(line.to_string()),
            _ => {}
        }
    }

    /// A word's first line comes from the start, in order of the words.
    fn take_word(&mut self, line: &str) {
        let number = line.split(' ').nth(1).and_then(|word| word.parse().ok());
        let number: usize = number.expect("a number");
        if number == self.words.len() {
            self.words.push(line.to_string());
        } else {
            self.words[number] = line.to_string();
        }
    }

    fn text(self) -> String {
        let Rebuilt {
            header,
            words,
            log,
            answers,
        } = self;
        let lines = [vec![header], words, log, answers].concat();
        lines.join("\n") + "\n"
    }
}

fn printed(print: impl Fn(&mut Vec<u8>) -> std::io::Result<()>) -> String {
    let mut out = Vec::new();
    print(&mut out).unwrap();
    String::from_utf8(out).unwrap()
}

#[test]
fn the_lines_of_a_whole_schedule_tell_the_outcome_of_the_run() {
    let files = [
        (Flavour::Short, 300),
        (Flavour::FewLost(Version::One), 6),
        (Flavour::FewLost(Version::Two), 6),
        (Flavour::ManyLost(Version::One), 6),
        (Flavour::ManyLost(Version::Two), 6),
        (Flavour::Advances, 6),
        (Flavour::Mixed, 6),
    ];
    for (flavour, count) in files {
        for record in records(41, count, flavour) {
            let file = &record.file;
            let bytes = schedule(file).unwrap_or(&[]).iter();
            let keys: String = bytes.map(|byte| format!("{byte:02x}\n")).collect();
            let ran = printed(|out| print_run(file, out));
            let told = printed(|out| panel(file, &mut keys.as_bytes(), out));
            if ran.starts_with("refused 16 ") {
                // On the panel it is the key that is refused, not the file.
                assert!(told.starts_with("run ") && told.contains("refused 16 0\n"));
                continue;
            }
            if ran.starts_with("refused") {
                assert_eq!(told, ran);
                continue;
            }
            let mut rebuilt = Rebuilt::default();
            told.lines().for_each(|line| rebuilt.take(line));
            assert_eq!(rebuilt.text(), ran);
        }
    }
}
