//! Numbers in words: ASCII digits and nothing else, leading zeros allowed.

/// The number a word stands for. One too large for a `u64` gives the largest
/// `u64`, which is above every limit there is.
pub fn decimal(word: &[u8]) -> Option<u64> {
    if word.is_empty() || !word.iter().all(u8::is_ascii_digit) {
        return None;
    }
    Some(word.iter().fold(0, |number: u64, digit| {
        number
            .saturating_mul(10)
            .saturating_add(u64::from(digit - b'0'))
    }))
}

#[cfg(test)]
mod tests {
    use super::decimal;

    #[test]
    fn only_digits_make_a_number() {
        assert_eq!(decimal(b"0"), Some(0));
        assert_eq!(decimal(b"00000000000000000000000000000042"), Some(42));
        assert_eq!(decimal(b"99999999999999999999999999"), Some(u64::MAX));
        for word in ["", "+5", "-1", " 5", "5 ", "x", "0x1"] {
            assert_eq!(decimal(word.as_bytes()), None, "{word:?}");
        }
    }
}
