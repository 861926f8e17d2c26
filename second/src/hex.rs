//! Bytes as text, in the form in which document 01 prints a file.

/// Two capital hex digits for each byte, with a space between bytes.
pub fn hex(bytes: &[u8]) -> String {
    let pairs: Vec<String> = bytes.iter().map(|byte| format!("{byte:02X}")).collect();
    pairs.join(" ")
}

#[cfg(test)]
mod tests {
    #[test]
    fn bytes_are_written_as_in_the_document() {
        assert_eq!(super::hex(&[0x53, 0x57, 0x52, 0x0C]), "53 57 52 0C");
        assert_eq!(super::hex(&[]), "");
    }
}
