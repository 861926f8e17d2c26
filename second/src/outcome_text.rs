//! An outcome text, cut into the outcomes of its records: each ends with its
//! `sum` line.

use std::io::{self, BufRead};

/// The next outcome with all its lines, the `sum` line last. If the text ends
/// before that, whatever is left of it, which may be nothing.
pub fn next_outcome(text: &mut impl BufRead) -> io::Result<Vec<u8>> {
    let mut outcome = Vec::new();
    loop {
        let line_begins = outcome.len();
        let text_ends = text.read_until(b'\n', &mut outcome)? == 0;
        if text_ends || is_sum_line(&outcome[line_begins..]) {
            return Ok(outcome);
        }
    }
}

/// Whether an outcome has come to its end.
pub fn is_whole(outcome: &[u8]) -> bool {
    outcome
        .split_inclusive(|byte| *byte == b'\n')
        .next_back()
        .is_some_and(is_sum_line)
}

fn is_sum_line(line: &[u8]) -> bool {
    line.starts_with(b"sum ") && line.ends_with(b"\n")
}

#[cfg(test)]
mod tests {
    use super::*;

    #[test]
    fn outcomes_are_cut_behind_their_sum_lines() {
        let mut text = b"refused 1 0\nsum 5\nrun 1 1 0 0\nword 0 7 0\nsum 6\n".as_slice();
        let first = next_outcome(&mut text).unwrap();
        assert_eq!(first, b"refused 1 0\nsum 5\n");
        let second = next_outcome(&mut text).unwrap();
        assert_eq!(second, b"run 1 1 0 0\nword 0 7 0\nsum 6\n");
        assert!(is_whole(&first) && is_whole(&second));
        assert!(next_outcome(&mut text).unwrap().is_empty());
    }

    #[test]
    fn an_outcome_without_its_sum_line_is_not_whole() {
        for cut in ["", "refused 1 0\n", "refused 1 0\nsum 5", "sum 5\nrun"] {
            assert!(!is_whole(cut.as_bytes()));
        }
        let cut = next_outcome(&mut b"refused 1 0\nsum 5".as_slice()).unwrap();
        assert_eq!(cut, b"refused 1 0\nsum 5");
    }
}
