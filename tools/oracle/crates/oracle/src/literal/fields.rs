//! The values of K, L and M fields, on their own lines and inline. All of them are ASCII (refusal 6).
use super::text::{number, trim, words};
use super::{Edition, Refusable};

/// A key signature.
#[derive(Debug, Clone, Copy, PartialEq)]
pub struct Key {
    /// Sharps above 0, flats below.
    pub fifths: i32,
    /// What the key mark tells: 1 major, 2 minor.
    pub is_minor: bool,
}

impl Key {
    pub const C_MAJOR: Key = Key { fifths: 0, is_minor: false };
}

#[derive(Debug, Clone, Copy, PartialEq)]
pub struct Meter {
    pub top: u8,
    pub bottom: u8,
}

// ---- K --------------------------------------------------------------------------------------------------------------

/// The key of a K field, or 10, or 21.
pub fn key(value: &str, edition: Edition) -> Refusable<Key> {
    let text = key_text(value);
    let key = match edition {
        Edition::First => first_key(&text),
        Edition::Abc21 => key_21(&text),
    };
    let is_beyond = match edition {
        Edition::First => false,
        // "21 a key beyond seven sharps or flats, in the second edition" (T-03)
        Edition::Abc21 => key.fifths.abs() > 7,
    };
    // "as met in the line" (T-03): from the left, a `middle=` word gives 10, and the first word that stays in the key text gives 21 if the key, name and mode, is beyond seven.
    for word in words(value) {
        if is_middle(word) {
            return Err(10);
        }
        if is_beyond && stays(word) {
            return Err(21);
        }
    }
    Ok(key)
}

/// "a `middle=` word": "a piece between white space that starts with `middle=`" (Decision 8).
pub fn is_middle(word: &str) -> bool {
    word.starts_with("middle=")
}

/// "clef words still leave the key text", and so do "words with `=`" (Decision 34).
fn stays(word: &str) -> bool {
    let clefs = ["treble", "bass", "alto", "tenor", "soprano", "mezzosoprano", "baritone"];
    !word.contains('=') && !clefs.contains(&word.to_ascii_lowercase().as_str())
}

/// The words that stay, one space between them.
fn key_text(value: &str) -> String {
    words(value).into_iter().filter(|word| stays(word)).collect::<Vec<_>>().join(" ")
}

/// "fifteen major and fifteen minor names", each from seven flats to seven sharps.
const MAJORS: [&str; 15] = ["Cb", "Gb", "Db", "Ab", "Eb", "Bb", "F", "C", "G", "D", "A", "E", "B", "F#", "C#"];
const MINORS: [&str; 15] = ["Ab", "Eb", "Bb", "F", "C", "G", "D", "A", "E", "B", "F#", "C#", "G#", "D#", "A#"];

/// "In this order: `min` anywhere; a final `m` behind a capital; `maj` anywhere; else major" (Decision 34). What is none of the names has "0 fifths".
fn first_key(text: &str) -> Key {
    let small = text.to_ascii_lowercase();
    let (name, is_minor) = if let Some(at) = small.find("min") {
        (&text[..at], true)
    } else if text.len() >= 2 && text.ends_with('m') && text.starts_with(|c: char| c.is_ascii_uppercase()) {
        (&text[..text.len() - 1], true)
    } else if let Some(at) = small.find("maj") {
        (&text[..at], false)
    } else {
        (text, false)
    };
    let names = if is_minor { MINORS } else { MAJORS };
    let place = names.iter().position(|other| *other == trim(name));
    Key { fifths: place.map_or(0, |place| place as i32 - 7), is_minor }
}

/// What a mode adds to its tonic's fifths, and whether it is marked minor: "min, aeo and m are marked 2, all others 1" (T-03).
type Mode = (i32, bool);
const MAJOR: Mode = (0, false);
const MINOR: Mode = (-3, true);

/// "the modes maj, ion, min, aeo, dor, phr, lyd, mix and loc" (T-03)
const MODES: [(&str, Mode); 9] = [
    ("maj", MAJOR), ("ion", MAJOR), ("min", MINOR), ("aeo", MINOR), ("dor", (-2, false)), ("phr", (-4, false)), ("lyd", (1, false)), ("mix", (-1, false)), ("loc", (-5, false)),
];

/// "a name is a capital A to G, perhaps # or b, perhaps white space and a mode (else major), and what follows is skipped; a key with no readable name is C major" (T-03)
fn key_21(text: &str) -> Key {
    // On the line of fifths F is −1, C 0, and so on to B, 5.
    let Some(place) = text.chars().next().and_then(|letter| "FCGDAEB".find(letter)) else { return Key::C_MAJOR };
    let behind = &text[1..];
    // A sign stands right behind the letter, and is seven fifths.
    let (sign, behind) = match behind.as_bytes().first() {
        Some(b'#') => (7, &behind[1..]),
        Some(b'b') => (-7, &behind[1..]),
        _ => (0, behind),
    };
    let (change, is_minor) = mode(trim(behind));
    Key { fifths: place as i32 - 1 + sign + change, is_minor }
}

/// The mode at the start of this text.
fn mode(text: &str) -> Mode {
    // "read by their first three letters, in any case" (T-03); what stands behind them does not matter
    let letters = text.get(..3).unwrap_or("").to_ascii_lowercase();
    if let Some((_, mode)) = MODES.iter().find(|(name, _)| *name == letters) {
        return *mode;
    }
    // "an m or M with no letter after it is minor" (T-03)
    match text.as_bytes() {
        [b'm' | b'M', next, ..] if next.is_ascii_alphabetic() => MAJOR,
        [b'm' | b'M', ..] => MINOR,
        _ => MAJOR,
    }
}

// ---- M and L --------------------------------------------------------------------------------------------------------

/// `C`, `C|` and `c|` as the whole text; else a number of 8 bits on each side of the first `/`, 4 where there is none.
pub fn meter(value: &str) -> Meter {
    match trim(value) {
        "C" => return Meter { top: 4, bottom: 4 },
        "C|" | "c|" => return Meter { top: 2, bottom: 2 },
        _ => {}
    }
    let (top, bottom) = value.split_once('/').unwrap_or((value, ""));
    let side = |side: &str| number(trim(side), 255).unwrap_or(4) as u8;
    Meter { top: side(top), bottom: side(bottom) }
}

/// What stands between the first two `/`: none without a `/`, no number where it cannot be read.
fn denominator(value: &str) -> Option<Option<u32>> {
    let between = value.split('/').nth(1)?;
    Some(number(between, u64::from(u32::MAX)).map(|n| n as u32))
}

/// "an L line with an unreadable denominator sets 1/8, .. a field without a slash sets nothing" (Decision 38)
pub fn unit_of_line(value: &str, old: u32) -> u32 {
    match denominator(value) {
        None => old,
        Some(unit) => unit.unwrap_or(8),
    }
}

/// "the same inline sets nothing" (Decision 38)
pub fn unit_inline(value: &str) -> Option<u32> {
    denominator(value).flatten()
}
