//! White space, lines, words and numbers.

/// "white space (Unicode's, here and in lyrics)": 25 characters.
pub fn is_space(c: char) -> bool {
    matches!(c, '\t'..='\r' | ' ' | '\u{85}' | '\u{a0}' | '\u{1680}' | '\u{2000}'..='\u{200a}' | '\u{2028}' | '\u{2029}' | '\u{202f}' | '\u{205f}' | '\u{3000}')
}

pub fn trim_end(text: &str) -> &str {
    text.trim_end_matches(is_space)
}

pub fn trim(text: &str) -> &str {
    text.trim_matches(is_space)
}

/// The pieces between white space.
pub fn words(text: &str) -> Vec<&str> {
    text.split(is_space).filter(|word| !word.is_empty()).collect()
}

/// "Lines end at a line feed only"; "a final feed opens no line" (Decision 11).
pub fn lines(text: &str) -> Vec<&str> {
    let mut lines: Vec<&str> = text.split('\n').collect();
    if lines.last() == Some(&"") {
        lines.pop();
    }
    lines
}

/// How many of the first bytes are digits.
pub fn digits(bytes: &[u8]) -> usize {
    bytes.iter().take_while(|byte| byte.is_ascii_digit()).count()
}

/// "Numbers go by value, with leading zeros" (Decision 30): the value of digits, none if it is above `most`.
pub fn value(digits: &[u8], most: u64) -> Option<u64> {
    let mut value: u64 = 0;
    for digit in digits {
        value = value.checked_mul(10)?.checked_add(u64::from(digit - b'0'))?;
        if value > most {
            return None;
        }
    }
    Some(value)
}

/// "L and M take a plus sign" (Decision 30): a number from 0 to `most` and nothing else.
pub fn number(text: &str, most: u64) -> Option<u64> {
    let bytes = text.strip_prefix('+').unwrap_or(text).as_bytes();
    if bytes.is_empty() || digits(bytes) < bytes.len() {
        return None;
    }
    value(bytes, most)
}
