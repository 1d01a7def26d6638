//! What a person is told: names of values and pitches, counts, the line that brought a refusal about.
use sindvaelo::{Barline, Duration, Edition, KeySignature, Mode, Note, Part, Pitch, Reading, Refusal, Step, VoltaBracket};
use std::fmt::Write;

/// What a quote bears.
pub fn read_by(edition: Edition) -> String {
    let edition = match edition {
        Edition::First => "",
        Edition::Abc21 => ", edition 2.1",
    };
    format!("read by sindvaelo {}, commit {}{edition}", sindvaelo::VERSION, sindvaelo::COMMIT)
}

/// What a price list charges for in a part.
pub struct Counts {
    pub measures: usize,
    pub sounded: usize,
    pub rests: usize,
    pub syllables: usize,
}

pub fn count(part: &Part) -> Counts {
    let rests = part.notes().filter(Note::is_rest).count();
    Counts { measures: part.measures().len(), sounded: part.notes().len() - rests, rests, syllables: part.lyrics().len() }
}

pub fn counts<'a>(reading: &Reading<&'a [u8]>) -> impl Iterator<Item = Counts> + use<'a> {
    reading.into_parts().map(|part| count(&part))
}

pub fn value(note: &Note) -> &'static str {
    match note.duration() {
        Duration::Longa => "longa",
        Duration::Breve => "breve",
        Duration::Whole => "whole",
        Duration::Half => "half",
        Duration::Quarter => "quarter",
        Duration::Eighth => "eighth",
        Duration::Sixteenth => "16th",
        Duration::ThirtySecond => "32nd",
        Duration::SixtyFourth => "64th",
        Duration::HundredTwentyEighth => "128th",
        Duration::WholeBar => "whole bar",
    }
}

pub fn letter(step: Step) -> char {
    match step {
        Step::C => 'C',
        Step::D => 'D',
        Step::E => 'E',
        Step::F => 'F',
        Step::G => 'G',
        Step::A => 'A',
        Step::B => 'B',
    }
}

/// A pitch in one word, as F#4, Bb3+50c; middle C is C4.
pub fn pitch(pitch: &Pitch) -> String {
    let alter = match pitch.alter {
        n @ 0..=2 => "#".repeat(n as usize),
        n @ -2..0 => "b".repeat(n.unsigned_abs() as usize),
        n => format!("({n:+})"),
    };
    let cents = if pitch.microtone_cents == 0 { String::new() } else { format!("{:+}c", pitch.microtone_cents) };
    format!("{}{alter}{}{cents}", letter(pitch.step), pitch.octave)
}

/// A key by its name where it has a usual one, as in E minor.
pub fn key(key: &KeySignature) -> String {
    const NAMES: [&str; 7] = ["F", "C", "G", "D", "A", "E", "B"];
    let (mode, first) = match key.mode {
        Mode::Major => ("major", 1),
        Mode::Minor => ("minor", 4),
    };
    let at = i32::from(key.fifths) + first;
    let tonic = NAMES[at.rem_euclid(7) as usize];
    let sign = match at.div_euclid(7) {
        n @ 0.. => "#".repeat(n as usize),
        n => "b".repeat(n.unsigned_abs() as usize),
    };
    let count = key.fifths.unsigned_abs();
    let signs = match key.fifths {
        0 => String::new(),
        1.. => format!(", {count} sharp{}", if count == 1 { "" } else { "s" }),
        _ => format!(", {count} flat{}", if count == 1 { "" } else { "s" }),
    };
    format!("{tonic}{sign} {mode}{signs}")
}

pub fn barline(barline: Barline) -> &'static str {
    match barline {
        Barline::Normal => "|",
        Barline::RepeatStart => "|:",
        Barline::RepeatEnd => ":|",
        Barline::RepeatBoth => "::",
        Barline::Double => "||",
        Barline::Final => "|]",
    }
}

/// The passes of an ending, as 1,3 or 1-3.
pub fn passes(volta: &VoltaBracket) -> String {
    let mut out = String::new();
    let numbers: Vec<u8> = volta.pass_numbers().collect();
    let mut rest = numbers.as_slice();
    while let Some(&first) = rest.first() {
        let run = rest.iter().zip(first..).take_while(|(a, b)| **a == *b).count();
        let separator = if out.is_empty() { "" } else { "," };
        let last = first + (run as u8 - 1);
        let _ = match run {
            1 => write!(out, "{separator}{first}"),
            2 => write!(out, "{separator}{first},{last}"),
            _ => write!(out, "{separator}{first}-{last}"),
        };
        rest = &rest[run..];
    }
    out
}

/// Measures as they are played, each run of neighbours as one, as 1-4 1-3 5.
pub fn runs(list: &[u32]) -> String {
    let mut out = String::new();
    let mut rest = list;
    while let Some(&first) = rest.first() {
        let run = rest.iter().zip(first..).take_while(|(a, b)| **a == *b).count();
        let last = rest[run - 1];
        let _ = if run == 1 { write!(out, " {first}") } else { write!(out, " {first}-{last}") };
        rest = &rest[run..];
    }
    out
}

/// A text with control characters made visible, and at most `most` characters of it.
fn visible(bytes: &[u8], most: usize) -> String {
    let text = String::from_utf8_lossy(bytes);
    let mut out: String = text.chars().take(most).map(|c| if c == '\t' { ' ' } else if c.is_control() { '\u{fffd}' } else { c }).collect();
    if text.chars().nth(most).is_some() {
        out += " ...";
    }
    out
}

/// The line that brought a refusal about, between its neighbours and marked; nothing where no line did.
pub fn marked(text: &[u8], refusal: &Refusal) -> String {
    let mut out = String::new();
    let Some(line) = refusal.line().map(|line| line as usize) else {
        if let (Refusal::NotUtf8, Err(error)) = (refusal, str::from_utf8(text)) {
            let before = &text[..error.valid_up_to()];
            let line = before.iter().filter(|byte| **byte == b'\n').count() + 1;
            let column = before.len() - before.iter().rposition(|byte| *byte == b'\n').map_or(0, |at| at + 1);
            let _ = writeln!(out, "the first byte that is none stands in line {line}, behind {column} bytes");
        }
        return out;
    };
    for (number, bytes) in (1..).zip(text.split(|byte| *byte == b'\n')).skip(line.saturating_sub(2)).take(3) {
        if number == text.split(|byte| *byte == b'\n').count() && bytes.is_empty() {
            continue;
        }
        let bytes = bytes.strip_suffix(b"\r").unwrap_or(bytes);
        // Of a long line that is refused for one byte, what stands around that byte.
        let music = bytes.split(|byte| *byte == b'%').next().unwrap_or(bytes);
        let wrong = match refusal {
            Refusal::NotAscii { .. } if number == line => music.iter().position(|byte| *byte > 127),
            _ => None,
        };
        let from = wrong.map_or(0, |at| at.saturating_sub(60));
        let from = (from..).find(|at| bytes.get(*at).is_none_or(|byte| byte & 0xc0 != 0x80)).unwrap_or(from);
        let dots = if from > 0 { "... " } else { "" };
        let mark = if number == line { '>' } else { ' ' };
        let _ = writeln!(out, "{mark} {number:>5} | {dots}{}", visible(&bytes[from..], 100));
        if let Some(at) = wrong {
            let behind = String::from_utf8_lossy(&bytes[from..at]).chars().count() + dots.len();
            let _ = writeln!(out, "        | {}^", " ".repeat(behind));
        }
    }
    out
}
