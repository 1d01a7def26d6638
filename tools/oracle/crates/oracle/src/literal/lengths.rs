//! Lengths: as they are written behind a note, and which written value they take.
use super::text::{digits, value};
use super::{Edition, Refusable};

/// A length in units.
#[derive(Debug, Clone, Copy, PartialEq)]
pub struct Length {
    pub numerator: u32,
    pub denominator: u32,
}

/// The length at the start of these bytes, and how many of them it takes. "A numerator past 32 bits reads 1, a denominator 2." "The length after a note, a chord and a rest is one rule, so all three follow it." (T-04)
pub fn length(bytes: &[u8], edition: Edition) -> Refusable<(Length, usize)> {
    let written = digits(bytes);
    let numerator = if written > 0 { up_to_32_bits(&bytes[..written]).unwrap_or(1) } else { 1 };
    let (denominator, more) = behind_numerator(&bytes[written..], edition)?;
    Ok((Length { numerator, denominator }, written + more))
}

/// The denominator at the start of these bytes, and how many of them say it. "All slashes and digits right after such a run, or after a slash with digits, are skipped" (T-04): they are no part of the length.
fn behind_numerator(bytes: &[u8], edition: Edition) -> Refusable<(u32, usize)> {
    let slashes = bytes.iter().take_while(|byte| **byte == b'/').count();
    match edition {
        // "In the first edition the later slashes are still skipped" (T-04), as "000 skips the second slash".
        Edition::First => Ok(one_slash(bytes)),
        // "In the 2.1 edition two or more slashes in a row halve once each, digits behind them or not" (T-04).
        Edition::Abc21 if slashes >= 2 => Ok((halved_by(slashes)?, slashes)),
        Edition::Abc21 => Ok(one_slash(bytes)),
    }
}

/// A slash and the digits right behind it, if any; or no slash.
fn one_slash(bytes: &[u8]) -> (u32, usize) {
    if bytes.first() != Some(&b'/') {
        return (1, 0);
    }
    let written = digits(&bytes[1..]);
    let denominator = if written > 0 { up_to_32_bits(&bytes[1..1 + written]).unwrap_or(2) } else { 2 };
    (denominator, 1 + written)
}

/// "22 a 32nd slash that would halve" (T-04)
fn halved_by(slashes: usize) -> Refusable<u32> {
    let mut denominator: u32 = 1;
    for slash in 1..=slashes {
        if slash == 32 {
            return Err(22);
        }
        denominator *= 2;
    }
    Ok(denominator)
}

fn up_to_32_bits(digits: &[u8]) -> Option<u32> {
    value(digits, u64::from(u32::MAX)).map(|n| n as u32)
}

/// "unit 0 counts as 1"
fn denominator(length: Length, unit: u32) -> u128 {
    u128::from(length.denominator) * u128::from(unit.max(1))
}

/// "no length has denominator times unit above 2^57"
pub fn is_in_domain(length: Length, unit: u32) -> bool {
    denominator(length, unit) <= 1 << 57
}

/// A written value (0 longa .. 9 a 128th) and its dots.
pub type Written = (u8, u8);

/// "numerator times 1 over denominator times unit": "The written value is the greatest of 40 (ten values, 0 to 3 dots) not above it; none gives a plain quarter. Denominator 0 gives longa with 3 dots, 0/0 plain
/// longa." In whole numbers also outside the domain (Decision 22).
pub fn written(length: Length, unit: u32) -> Written {
    let (numerator, denominator) = (u128::from(length.numerator), denominator(length, unit));
    if denominator == 0 {
        return if numerator == 0 { (0, 0) } else { (0, 3) };
    }
    // In parts of a 1,024th, so that a 128th with three dots is a whole number of them: a longa is four whole notes.
    let size = |(value, dots): Written| (4 * 1024u128 >> value) * ((2 << dots) - 1) >> dots;
    let all = (0..10).flat_map(|value| (0..4).map(move |dots| (value, dots)));
    // "not above it": size / 1024 ≤ numerator / denominator.
    all.filter(|written| size(*written) * denominator <= numerator * 1024).max_by_key(|written| size(*written)).unwrap_or((4, 0))
}

/// "n `>` add n dots to the last note (at most 3)"
pub fn with_dots(dots: u8, count: u8) -> u8 {
    dots.saturating_add(count).min(3)
}

/// "and halve the next n times, stopping at the 128th"; "A whole bar keeps value 10."
pub fn halved(value: u8, count: u8) -> u8 {
    if value == 10 { 10 } else { value.saturating_add(count).min(9) }
}
