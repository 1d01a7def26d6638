//! A second reader, for both editions: slow, and straight from the words of documents 01 and 02. It shares no code with the Rust's 000 or the port. In comments the words in quotes are document 01's, a
//! request's where it is named, or those of an entry of docs/DECISIONS.md ("Decision").
//!
//! A text is cut into lines, lines into fields and tokens; tokens are played on parts, lyric lines sung to them, and parts written as bytes. Each rule has a function of its own. Where the editions
//! part, there is a `match` on the edition with the request's sentence beside it.
mod bytes;
mod fields;
mod lengths;
mod lyrics;
mod parts;
mod text;
mod tokens;

use fields::{Key, Meter};
use parts::{Part, Pending, Unit};
use tokens::{Token, tokens};

/// "The caller names the edition." (T-03)
#[derive(Debug, Clone, Copy, PartialEq, Eq)]
pub enum Edition {
    First,
    Abc21,
}

/// The answer to a text, stores large enough.
#[derive(Debug, Clone, PartialEq)]
pub enum LiteralAnswer {
    /// `in_domain`: "no length has denominator times unit above 2^57".
    Reading { bytes: Vec<u8>, in_domain: bool },
    /// The number, and the line from 1, or 0.
    Refused(u32, usize),
}

/// "Each refusal .. answers its number": the number, while its line is being read.
type Refusable<T> = Result<T, u32>;

/// "Order: 2, 3, blank 1 ..; then line by line ..; then 1 for no measure". 15 and 16 are matters of the stores.
pub fn answer(text: &[u8], edition: Edition) -> LiteralAnswer {
    if text.len() > 67_108_864 {
        return LiteralAnswer::Refused(2, 0);
    }
    let Ok(text) = std::str::from_utf8(text) else { return LiteralAnswer::Refused(3, 0) };
    if text::trim(text).is_empty() {
        return LiteralAnswer::Refused(1, 0);
    }
    let mut tune = Tune::new(edition);
    for (number, line) in (1..).zip(text::lines(text)) {
        if let Err(refusal) = tune.line(number, line) {
            return LiteralAnswer::Refused(refusal, number);
        }
    }
    if tune.parts.iter().all(|part| part.measures.is_empty()) {
        return LiteralAnswer::Refused(1, 0);
    }
    for part in &mut tune.parts {
        part.end(tune.header_key, edition);
    }
    LiteralAnswer::Reading { bytes: bytes::reading(&tune.parts), in_domain: tune.in_domain }
}

/// `reading HEX`, `outside HEX` (a length outside the domain of equality), `refused N LINE`.
pub fn answer_line(text: &[u8], edition: Edition) -> String {
    match answer(text, edition) {
        LiteralAnswer::Reading { bytes, in_domain } => format!("{} {}", if in_domain { "reading" } else { "outside" }, crate::hex(&bytes)),
        LiteralAnswer::Refused(number, line) => format!("refused {number} {line}"),
    }
}

/// The answer on one line: the reading in words, or `refused N LINE`.
pub fn brief_line(text: &[u8], edition: Edition) -> String {
    match answer(text, edition) {
        LiteralAnswer::Reading { bytes, .. } => crate::brief(&bytes),
        LiteralAnswer::Refused(number, line) => format!("refused {number} {line}"),
    }
}

/// What a line is, once cut and trimmed.
enum Line<'a> {
    Blank,
    /// Behind its `w:`.
    Lyric(&'a str),
    /// "A letter and `:` at the start is a field": the letter, and what stands behind the colon.
    Field(u8, &'a str),
    Music(&'a str),
}

/// "then lyric, field or music"
fn class(line: &str) -> Line<'_> {
    match line.as_bytes() {
        [] => Line::Blank,
        [b'w', b':', ..] => Line::Lyric(&line[2..]),
        [letter, b':', ..] if letter.is_ascii_alphabetic() => Line::Field(*letter, &line[2..]),
        _ => Line::Music(line),
    }
}

/// All that is known of a tune while its lines are read.
struct Tune {
    edition: Edition,
    /// Before the first K line.
    in_header: bool,
    /// "Before any field the key is C major and the meter 4/4" (Decision 23); the unit is 1/8.
    header_key: Key,
    meter: Meter,
    unit: Unit,
    /// Their identifiers, in the order in which they were named; that of unnamed opening music is empty.
    voices: Vec<String>,
    parts: Vec<Part>,
    current: usize,
    pending: Pending,
    /// Notes, rests and chords with a pitch, so far.
    notes: usize,
    in_domain: bool,
}

impl Tune {
    fn new(edition: Edition) -> Self {
        Self {
            edition,
            in_header: true,
            header_key: Key::C_MAJOR,
            meter: Meter { top: 4, bottom: 4 },
            unit: 8,
            voices: Vec::new(),
            parts: vec![Part::new(Key::C_MAJOR)],
            current: 0,
            pending: Pending::default(),
            notes: 0,
            in_domain: true,
        }
    }

    /// "line by line 4, 5, 6 and 7 to 14 as met from left to right"
    fn line(&mut self, number: usize, line: &str) -> Refusable<()> {
        // "4 a line after the 10,000th"
        if number > 10_000 {
            return Err(4);
        }
        // "Lines: cut at the first `%`, even in quotes; trim white space .. at the end"
        let line = text::trim_end(line.split('%').next().unwrap_or(""));
        // "5 a line over 1,048,576 bytes after trimming"
        if line.len() > 1_048_576 {
            return Err(5);
        }
        // "6 a byte above 127 in a K, L, M or V line, or in a music line after the first K line, once cut and trimmed"
        let is_heard = match class(line) {
            Line::Field(letter, _) => matches!(letter, b'K' | b'L' | b'M' | b'V'),
            Line::Music(_) => !self.in_header,
            Line::Blank | Line::Lyric(_) => false,
        };
        if is_heard && !line.is_ascii() {
            return Err(6);
        }
        match class(line) {
            Line::Field(letter, value) => self.field(letter, text::trim(value)),
            // "Music and lyric lines before the first K: line are ignored."
            _ if self.in_header => Ok(()),
            Line::Blank => Ok(()),
            Line::Lyric(words) => {
                self.lyric_line(words);
                Ok(())
            }
            Line::Music(line) => self.music_line(line),
        }
    }

    fn field(&mut self, letter: u8, value: &str) -> Refusable<()> {
        match letter {
            b'X' => self.tune_line(),
            b'K' => self.key_line(value),
            b'M' => {
                self.meter_line(value);
                Ok(())
            }
            b'L' => {
                self.unit = fields::unit_of_line(value, self.unit);
                Ok(())
            }
            b'V' => self.voice_line(value),
            _ => Ok(()),
        }
    }

    /// "7 an X line after the first K line". "An X line in the header makes the first part current" (Decision 35).
    fn tune_line(&mut self) -> Refusable<()> {
        if !self.in_header {
            return Err(7);
        }
        self.current = 0;
        Ok(())
    }

    fn key_line(&mut self, value: &str) -> Refusable<()> {
        let key = fields::key(value, self.edition)?;
        if self.in_header {
            self.in_header = false;
            self.header_key = key;
            self.hear_header_key();
        } else {
            let header_key = self.header_key;
            self.part().change_key(key, header_key);
        }
        Ok(())
    }

    /// At the first K line. Voices named later start with the header's key in both editions.
    fn hear_header_key(&mut self) {
        let key = self.header_key;
        match self.edition {
            // "giving the header key to every voice named before K" is wrong: "of those only the current one hears it".
            Edition::First => self.part().key = key,
            // "the header key holds for every voice" (T-03)
            Edition::Abc21 => self.parts.iter_mut().for_each(|part| part.key = key),
        }
    }

    /// A body M line changes the meter "for all voices but marks the current voice's last measure alone" (Decision 20).
    fn meter_line(&mut self, value: &str) {
        let meter = fields::meter(value);
        self.meter = meter;
        if let Some(measure) = self.part().measures.last_mut() {
            measure.meter = meter;
        }
    }

    fn voice_line(&mut self, value: &str) -> Refusable<()> {
        // "8 V without an identifier"
        let Some(identifier) = text::words(value).first().copied() else { return Err(8) };
        // "unnamed opening music counts as one": "if a measure exists at the first V line and no voice was named before" (Decision 17).
        if self.voices.is_empty() && !self.parts[0].measures.is_empty() {
            self.voices.push(String::new());
        }
        let known = self.voices.iter().position(|voice| voice == identifier);
        self.current = known.unwrap_or(self.voices.len());
        if known.is_none() {
            // "9 a 33rd voice", "met at the identifier, before 10" (Decision 9).
            if self.voices.len() == 32 {
                return Err(9);
            }
            self.voices.push(identifier.to_string());
            // The first voice named takes the part that is there.
            if self.parts.len() < self.voices.len() {
                self.parts.push(Part::new(self.header_key));
            }
        }
        // "a pending tie end, slur start or open grace brace lasts on until the next V line"
        self.pending = Pending::default();
        // "10 a `middle=` word in a K or V field"
        if text::words(value).into_iter().any(fields::is_middle) { Err(10) } else { Ok(()) }
    }

    fn part(&mut self) -> &mut Part {
        &mut self.parts[self.current]
    }

    /// A lyric line is sung once the whole part is read: its words may run on over later lines.
    fn lyric_line(&mut self, words: &str) {
        // Before its voice's first music line the verse counts up only if a voice with a higher number had a music line before.
        let counts = self.parts[self.current..].iter().any(|part| part.has_music);
        self.part().lyric_line(words, counts);
    }

    fn music_line(&mut self, line: &str) -> Refusable<()> {
        let edition = self.edition;
        let (tokens, refusal) = tokens(line, edition);
        let part = &mut self.parts[self.current];
        part.begin_line(self.meter);
        for token in &tokens {
            // "11 the 100,001st note, rest or non-empty chord", "met where the length ends": a note that is refused for its octave marks (12) or its slashes (22) is no token.
            if let Token::Sound(sound) = token {
                self.notes += 1;
                if self.notes > 100_000 {
                    return Err(11);
                }
                self.in_domain &= sound.is_in_domain(self.unit);
            }
            match token {
                Token::Unit(unit) => self.unit = *unit,
                Token::Meter(meter) => self.meter = *meter,
                _ => {}
            }
            part.play(token, self.unit, self.meter, &mut self.pending, edition);
        }
        part.end_line();
        match refusal {
            Some(number) => Err(number),
            None => Ok(()),
        }
    }
}
