//! `second panel-kinds`: counts the kinds of line in what a panel has printed,
//! so that a comparison that never met a kind is not taken for evidence about
//! it.

use std::collections::BTreeMap;
use std::io::{self, BufRead, BufReader, Write};

use crate::Ending;

/// The lines of a panel. A word in capitals stands for a number, `BB` for two
/// hex digits; each verdict, answer, bit and stage is a kind of its own. Where
/// the line alone does not tell, [`Tally::labelled`] puts in a word: `start`
/// for the words that the file starts from, `between` for a row of the log
/// that has others behind it, `wide` for a value over 65,535, which only a file
/// of version 2 comes to, `back` for a stage that follows a lost round, `crash`
/// and `wake` for the refusal by 16 of such a key, `file` for that of a file.
const KINDS: &[&str] = &[
    "run P W R S",
    "start word K VALUE FLIPS",
    "start wide word K VALUE FLIPS",
    "not a key",
    "key T BB step Q",
    "key T BB crash Q",
    "key T BB wake Q",
    "key T BB crash all",
    "key T BB none",
    "process Q stage down",
    "process Q stage idle",
    "process Q stage N2",
    "process Q stage N3",
    "process Q stage A1",
    "back process Q stage A1",
    "process Q stage A2",
    "process Q stage A3",
    "process Q stage A4",
    "process Q stage A5",
    "process Q stage A6",
    "process Q stage V1",
    "process Q stage V2",
    "process Q stage V3",
    "process Q stage V4",
    "process Q stage V5",
    "process Q stage V6",
    "process Q row none",
    "process Q row K",
    "process Q stored none",
    "process Q stored false",
    "process Q stored true",
    "process Q stored value V",
    "wide process Q stored value V",
    "process Q stored was V",
    "wide process Q stored was V",
    "process Q checkpoint 0",
    "process Q checkpoint 1",
    "process Q kept 0",
    "process Q kept 1",
    "process Q kept value V",
    "wide process Q kept value V",
    "process Q begun N",
    "word K VALUE FLIPS",
    "wide word K VALUE FLIPS",
    "log POSITION PROCESS ROW 0 0 at PLACE",
    "log POSITION PROCESS ROW 1 0 at PLACE",
    "log POSITION PROCESS ROW 3 VALUE at PLACE",
    "log POSITION PROCESS ROW 4 VALUE at PLACE",
    "log between POSITION PROCESS ROW 0 0 at PLACE",
    "log between POSITION PROCESS ROW 3 VALUE at PLACE",
    "answer POSITION PROCESS ROW 0 0",
    "answer POSITION PROCESS ROW 1 0",
    "answer POSITION PROCESS ROW 2 0",
    "answer POSITION PROCESS ROW 3 VALUE",
    "wide answer POSITION PROCESS ROW 3 VALUE",
    "answer POSITION PROCESS ROW 4 VALUE",
    "wide answer POSITION PROCESS ROW 4 VALUE",
    "nothing",
    "file refused N PLACE",
    "refused 21 0",
    "refused 22 0",
    "crash refused 16 0",
    "wake refused 16 0",
];

/// A text is what a panel has printed for one file after the other.
#[derive(Default)]
struct Tally {
    met: BTreeMap<&'static str, u64>,
    /// By number.
    refused: BTreeMap<u64, u64>,
    keys: u64,
    /// Rows of this file's log by now.
    log_rows: u64,
    /// The stage of each process of this file, where one has been told.
    stages: BTreeMap<String, String>,
    in_header: bool,
    /// The action of the key in the line before, if that was one.
    behind_a_key: Option<String>,
}

pub fn command() -> io::Result<Ending> {
    let text = BufReader::new(io::stdin().lock());
    panel_kinds(text, &mut io::stdout().lock())
}

fn panel_kinds(text: impl BufRead, out: &mut impl Write) -> io::Result<Ending> {
    let mut tally = Tally::default();
    for line in text.lines() {
        let line = line?;
        if !tally.count(&line) {
            writeln!(out, "no line of a panel: {line}")?;
            return Ok(Ending::Objection);
        }
    }
    tally.report(out)
}

impl Tally {
    /// Whether the line is of a kind.
    fn count(&mut self, line: &str) -> bool {
        let label = self.labelled(line);
        let Some(kind) = KINDS.iter().find(|kind| is_of_kind(&label, kind)) else {
            return false;
        };
        *self.met.entry(kind).or_default() += 1;
        let mut words = line.split(' ');
        let (name, number) = (
            words.next(),
            words.next().and_then(|word| word.parse().ok()),
        );
        if let ["process", process, "stage", stage] = line.split(' ').collect::<Vec<_>>()[..] {
            self.stages.insert(process.to_string(), stage.to_string());
        }
        match (name, number) {
            (Some("run"), _) => {
                (self.in_header, self.log_rows) = (true, 0);
                self.stages.clear();
            }
            (Some("refused"), Some(number)) => *self.refused.entry(number).or_default() += 1,
            (Some("log"), _) => self.log_rows += 1,
            (Some("key"), _) => self.keys += 1,
            _ => {}
        }
        self.behind_a_key = match line.split(' ').collect::<Vec<_>>()[..] {
            ["key", _, _, "crash", "all"] => Some("crash all".to_string()),
            ["key", _, _, action, ..] => Some(action.to_string()),
            _ => None,
        };
        self.in_header &= matches!(name, Some("run" | "word"));
        true
    }

    fn labelled(&self, line: &str) -> String {
        let wide = if has_wide_value(line) { "wide " } else { "" };
        match line.split_once(' ') {
            Some(("word", _)) if self.in_header => format!("start {wide}{line}"),
            Some(("process", told)) if self.goes_back(told) => format!("back {line}"),
            Some(("word" | "process" | "answer", _)) => format!("{wide}{line}"),
            Some(("refused", number)) => match &self.behind_a_key {
                None => format!("file {line}"),
                Some(action) if number.starts_with("16 ") => format!("{action} {line}"),
                Some(_) => line.to_string(),
            },
            Some(("log", row)) if self.has_others_behind(row) => format!("log between {row}"),
            _ => line.to_string(),
        }
    }

    /// Of what is told of a process: an advance goes from A4 to A1.
    fn goes_back(&self, told: &str) -> bool {
        let was_at_a4 = |process| self.stages.get(process).is_some_and(|stage| stage == "A4");
        told.strip_suffix(" stage A1").is_some_and(was_at_a4)
    }

    /// Of a new row of the log: its place is not the end.
    fn has_others_behind(&self, row: &str) -> bool {
        let place = row.rsplit(' ').next().and_then(|word| word.parse().ok());
        place.is_some_and(|place: u64| place < self.log_rows)
    }

    fn report(&self, out: &mut impl Write) -> io::Result<Ending> {
        for kind in KINDS {
            writeln!(out, "{kind}: {}", self.times(kind))?;
        }
        writeln!(out, "{} keys", self.keys)?;
        for (number, count) in &self.refused {
            writeln!(out, "refused by {number}: {count}")?;
        }
        let mut ending = Ending::Clean;
        for kind in KINDS.iter().filter(|kind| self.times(kind) == 0) {
            writeln!(out, "never met: {kind}")?;
            ending = Ending::Objection;
        }
        Ok(ending)
    }

    fn times(&self, kind: &str) -> u64 {
        self.met.get(kind).copied().unwrap_or(0)
    }
}

/// Of a line with a value in it, the word's or the one that is stored, kept or
/// answered: it is over 65,535.
fn has_wide_value(line: &str) -> bool {
    let words: Vec<&str> = line.split(' ').collect();
    let value = match words[..] {
        ["word", _, value, _]
        | ["process", _, "stored", "value" | "was", value]
        | ["process", _, "kept", "value", value]
        | ["answer", _, _, _, "3" | "4", value] => value.parse().ok(),
        _ => None,
    };
    value.is_some_and(|value: u64| value > 65_535)
}

fn is_of_kind(line: &str, kind: &str) -> bool {
    let (words, wanted) = (line.split(' '), kind.split(' '));
    words.clone().count() == wanted.clone().count()
        && words.zip(wanted).all(|(word, wanted)| fits(word, wanted))
}

fn fits(word: &str, wanted: &str) -> bool {
    let is_digit: fn(u8) -> bool = match wanted {
        "BB" => |byte| matches!(byte, b'0'..=b'9' | b'a'..=b'f'),
        _ if wanted.bytes().all(|byte| byte.is_ascii_uppercase()) => |byte| byte.is_ascii_digit(),
        _ => return word == wanted,
    };
    let right_length = if wanted == "BB" {
        word.len() == 2
    } else {
        !word.is_empty()
    };
    right_length && word.bytes().all(is_digit)
}

#[cfg(test)]
mod tests {
    use super::*;

    fn told(text: &str) -> (bool, String) {
        let mut out = Vec::new();
        let ending = panel_kinds(text.as_bytes(), &mut out).unwrap();
        (ending == Ending::Clean, String::from_utf8(out).unwrap())
    }

    /// The kinds that are met once, and no others.
    fn met_once(text: &str) -> Vec<String> {
        let (_, told) = told(text);
        let once = told.lines().filter_map(|line| line.strip_suffix(": 1"));
        let kinds = once.filter(|kind| !kind.starts_with("refused by"));
        kinds.map(str::to_string).collect()
    }

    #[test]
    fn lines_are_told_apart_by_what_stands_before_them() {
        let text = "run 1 1 1 0\nword 0 7 0\nkey 0 00 step 0\nword 0 8 1\n";
        let expected = [
            "run P W R S",
            "start word K VALUE FLIPS",
            "key T BB step Q",
            "word K VALUE FLIPS",
        ];
        assert_eq!(met_once(text), expected);
        let text = "refused 9 21\nrun 1 1 1 0\nkey 0 30 none\nrefused 22 0\n";
        let expected = [
            "run P W R S",
            "key T BB none",
            "file refused N PLACE",
            "refused 22 0",
        ];
        assert_eq!(met_once(text), expected);
        assert!(told(text)
            .1
            .contains("1 keys\nrefused by 9: 1\nrefused by 22: 1\n"));
    }

    #[test]
    fn a_value_over_65535_is_another_kind() {
        let text = "run 1 1 1 0\nword 0 65535 0\nkey 0 00 step 0\nword 0 65536 1\n\
                    process 0 stored value 65535\nanswer 9 0 0 3 4294967295\n";
        let expected = [
            "run P W R S",
            "start word K VALUE FLIPS",
            "key T BB step Q",
            "process Q stored value V",
            "wide word K VALUE FLIPS",
            "wide answer POSITION PROCESS ROW 3 VALUE",
        ];
        assert_eq!(met_once(text), expected);
        let text = "run 1 1 1 0\nword 0 65536 0\nkey 0 00 step 0\nword 0 7 65536\n\
                    process 0 stored value 65536\nanswer 9 0 0 3 65535\n";
        let expected = [
            "run P W R S",
            "start wide word K VALUE FLIPS",
            "key T BB step Q",
            "wide process Q stored value V",
            "word K VALUE FLIPS",
            "answer POSITION PROCESS ROW 3 VALUE",
        ];
        assert_eq!(met_once(text), expected);
    }

    #[test]
    fn the_lines_of_an_advance() {
        let text = "run 1 1 1 0\nprocess 0 kept value 65535\nprocess 1 kept value 65536\n\
                    log 6 0 0 4 65536 at 0\nprocess 0 stored was 0\n\
                    process 1 stored was 4294967295\nanswer 8 0 0 4 65535\n\
                    answer 9 0 0 4 65536\n";
        let expected = [
            "run P W R S",
            "process Q stored was V",
            "wide process Q stored was V",
            "process Q kept value V",
            "wide process Q kept value V",
            "log POSITION PROCESS ROW 4 VALUE at PLACE",
            "answer POSITION PROCESS ROW 4 VALUE",
            "wide answer POSITION PROCESS ROW 4 VALUE",
        ];
        assert_eq!(met_once(text), expected);
    }

    /// Its own stage counts, and that of the file before does not.
    #[test]
    fn one_that_goes_back_to_a1_is_another_kind() {
        let text = "process 0 stage A4\nprocess 1 stage A1\nprocess 0 stage A1\n";
        let expected = [
            "process Q stage A1",
            "back process Q stage A1",
            "process Q stage A4",
        ];
        assert_eq!(met_once(text), expected);
        let text = "process 0 stage A4\nrun 1 1 1 0\nprocess 0 stage A1\n";
        let expected = ["run P W R S", "process Q stage A1", "process Q stage A4"];
        assert_eq!(met_once(text), expected);
    }

    #[test]
    fn an_idle_crash_and_an_idle_wake_are_two_kinds() {
        let text = "key 0 20 wake 0\nrefused 16 0\nkey 0 13 crash 3\nrefused 16 0\n";
        let expected = [
            "key T BB crash Q",
            "key T BB wake Q",
            "crash refused 16 0",
            "wake refused 16 0",
        ];
        assert_eq!(met_once(text), expected);
        assert!(told(text).1.contains("2 keys\nrefused by 16: 2\n"));
    }

    /// Also over two files: the second begins with an empty log.
    #[test]
    fn a_row_of_the_log_with_others_behind_it_is_another_kind() {
        let text = "run 1 1 1 0\nlog 6 0 0 1 0 at 0\nlog 3 0 1 3 7 at 0\n\
                    run 1 1 1 0\nlog 3 0 0 0 0 at 0\n";
        let expected = [
            "log POSITION PROCESS ROW 0 0 at PLACE",
            "log POSITION PROCESS ROW 1 0 at PLACE",
            "log between POSITION PROCESS ROW 3 VALUE at PLACE",
        ];
        assert_eq!(met_once(text), expected);
    }

    #[test]
    fn a_line_of_no_kind_is_an_objection() {
        for line in [
            "",
            "nothing ",
            "process 0 stage A7",
            "key 0 0 step 0",
            "key 0 0G none",
            "key x 00 step 0",
            "key 0 00 step 0\nrefused 14 0",
            "key 0 00 step 0\nrefused 16 0",
            "key 0 f0 crash all\nrefused 16 0",
            "key 0 10 crash 0\nrefused 16 1",
            "answer 3 0 0 5 0",
            "log 3 0 0 2 0 at 0",
            "process 0 stored before 7",
            "process 0 kept 2",
        ] {
            let (clean, told) = told(&format!("{line}\n"));
            assert!(!clean && told.starts_with("no line of a panel: "), "{line}");
        }
    }

    #[test]
    fn a_kind_never_met_is_an_objection() {
        let (clean, told) = told("nothing\n");
        assert!(!clean);
        assert!(told.contains("nothing: 1\n") && !told.contains("never met: nothing\n"));
        assert!(told.contains("never met: process Q stage V4\n"));
    }
}
