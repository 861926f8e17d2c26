//! A line that was typed at the panel.

#[derive(Clone, Copy, Debug, PartialEq, Eq)]
pub enum Line {
    /// Blank, or a comment.
    Nothing,
    Key(u8),
    NotAKey,
}

/// What a line is, its newline taken off. "A line of nothing but spaces, tabs
/// and carriage returns, or whose first other character is `#`: nothing. One
/// or two hex digits, in either case, with spaces, tabs and carriage returns
/// before and after, and then perhaps `#` and anything: a key. Anything else:
/// the line `not a key`."
pub fn read(line: &[u8]) -> Line {
    // So a comment is never part of what counts, wherever it begins.
    let before_comment = line.split(|byte| *byte == b'#').next();
    match trimmed(before_comment.unwrap_or(&[])) {
        [] => Line::Nothing,
        digits => key(digits).map_or(Line::NotAKey, Line::Key),
    }
}

fn key(digits: &[u8]) -> Option<u8> {
    match digits {
        [low] => hex_digit(*low),
        [high, low] => Some(hex_digit(*high)? << 4 | hex_digit(*low)?),
        _ => None,
    }
}

fn hex_digit(character: u8) -> Option<u8> {
    let digit = char::from(character).to_digit(16)?;
    u8::try_from(digit).ok()
}

/// Other blanks than these three, a form feed for one, belong to "anything
/// else", so the standard library's trimming is not the one wanted.
fn trimmed(text: &[u8]) -> &[u8] {
    let is_blank = |byte: &u8| matches!(byte, b' ' | b'\t' | b'\r');
    let begin = text.iter().position(|byte| !is_blank(byte));
    let last = text.iter().rposition(|byte| !is_blank(byte));
    match (begin, last) {
        (Some(begin), Some(last)) => &text[begin..=last],
        _ => &[],
    }
}

#[cfg(test)]
mod tests {
    use super::*;

    #[test]
    fn blank_lines_and_comments_are_nothing() {
        let nothing = ["", " ", "\t\r \r", "#", "#03", " \t\r# 03", "##", "#\u{fc}"];
        for line in nothing {
            assert_eq!(read(line.as_bytes()), Line::Nothing, "{line:?}");
        }
    }

    #[test]
    fn one_or_two_digits_in_either_case_are_a_key() {
        let keys = [
            ("3", 0x03),
            ("03", 0x03),
            ("f0", 0xF0),
            ("F0", 0xF0),
            ("aB", 0xAB),
            ("Cd", 0xCD),
            ("e", 0x0E),
            ("99", 0x99),
            (" \t\r13", 0x13),
            ("13\r", 0x13),
            ("\r 13 \t", 0x13),
            ("13#", 0x13),
            ("13 # wake", 0x13),
            ("1\t#2#3", 0x01),
        ];
        for (line, byte) in keys {
            assert_eq!(read(line.as_bytes()), Line::Key(byte), "{line:?}");
        }
    }

    #[test]
    fn anything_else_is_not_a_key() {
        let others = [
            "003", "0 3", "03 03", "0x3", "g", "0g", "g0", "+3", "-1", "3,", "3 x", "3;# x",
            "step 0", "\u{b}03", "03\u{c}", "\0", "03\0", "\u{fc}", "\u{661}", "3\r3",
        ];
        for line in others {
            assert_eq!(read(line.as_bytes()), Line::NotAKey, "{line:?}");
        }
        assert_eq!(read(&[0xFF]), Line::NotAKey);
        assert_eq!(read(&[0xA0, b'3']), Line::NotAKey);
    }
}
