//! Texts that end with the sum of their lines.

use crate::layout::xxh64::hash;

/// The bytes of the last line, such as `sum 0123456789abcdef`.
const SUM_LINE: usize = 21;

/// The lines with their sum after them.
pub fn seal(lines: &str) -> String {
    format!("{lines}sum {:016x}\n", hash(lines.as_bytes(), 0))
}

/// The lines of a text that ends with their sum.
pub fn open(text: &[u8]) -> Option<&str> {
    let text = std::str::from_utf8(text).ok()?;
    let lines = text.get(..text.len().checked_sub(SUM_LINE)?)?;
    (lines.ends_with('\n') && seal(lines) == text).then_some(lines)
}

#[cfg(test)]
mod tests {
    use super::*;

    #[test]
    fn every_changed_byte_is_noticed() {
        let text = seal("first line\nsecond\n").into_bytes();
        assert_eq!(open(&text), Some("first line\nsecond\n"));
        for place in 0..text.len() {
            let mut changed = text.clone();
            changed[place] ^= 1;
            assert_eq!(open(&changed), None, "byte {place}");
            assert_eq!(open(&text[..place]), None, "{place} bytes");
        }
        assert_eq!(open(seal("no end").as_bytes()), None);
    }
}
