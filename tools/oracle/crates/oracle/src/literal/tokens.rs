//! A music line cut into tokens. Where a token begins and ends depends on the line and the edition alone. All bytes are ASCII (refusal 6).
use super::fields::{self, Key, Meter};
use super::lengths::{self, Length, length};
use super::text::{digits, is_space, trim, value};
use super::{Edition, Refusable};

#[derive(Debug, Clone, PartialEq)]
pub enum Token {
    Space,
    /// `&`
    Overlay,
    Broken(Broken),
    Tuplet(Tuplet),
    SlurStart,
    GraceOpen,
    GraceClose,
    Barline(Barline),
    /// `[` and a pass list.
    Ending(Vec<u8>),
    Key(Key),
    Meter(Meter),
    /// An inline L that sets the unit.
    Unit(u32),
    Sound(Sound),
    /// "An empty chord and a lone accidental take the beam step once more on the voice's last note" (Decision 27).
    Silent,
    /// What is passed over: quoted text, decorations, other brackets with a colon, and every byte that begins nothing.
    Skipped,
}

/// `>` or `<`, as often as they stand together.
#[derive(Debug, Clone, Copy, PartialEq)]
pub struct Broken {
    /// `>`: the last note gets the dots.
    pub is_dotted: bool,
    pub count: u8,
}

#[derive(Debug, Clone, Copy, PartialEq)]
pub struct Tuplet {
    pub actual: u8,
    /// None: its default, which the meter in force may decide.
    pub normal: Option<u8>,
    pub count: u64,
}

/// Barlines by their codes in the reading.
#[derive(Debug, Clone, Copy, PartialEq)]
pub struct Barline {
    pub right: u8,
    /// Of the measure that it opens.
    pub left: u8,
    /// "No new measure opens if `]` follows."
    pub opens: bool,
}

/// A note, a chord with a pitch, or a rest.
#[derive(Debug, Clone, PartialEq)]
pub struct Sound {
    /// 0 note, 1 z, 2 x, 3 Z, 4 X.
    pub kind: u8,
    pub pitches: Vec<Pitch>,
    pub length: Length,
    /// A `-`, a `)` right behind it.
    pub is_tied: bool,
    pub ends_slur: bool,
}

impl Sound {
    /// Of a whole bar the length is read over and never valued.
    pub fn is_in_domain(&self, unit: u32) -> bool {
        self.is_whole_bar() || lengths::is_in_domain(self.length, unit)
    }

    pub fn is_whole_bar(&self) -> bool {
        self.kind >= 3
    }
}

/// A pitch as written.
#[derive(Debug, Clone, Copy, PartialEq)]
pub struct Pitch {
    /// 0 (C) to 6 (B).
    pub step: u8,
    pub octave: i8,
    pub accidental: Option<Accidental>,
}

#[derive(Debug, Clone, Copy, PartialEq)]
pub struct Accidental {
    pub alter: i8,
    pub cents: i16,
}

/// The tokens of a line, and the refusal that is met behind them, if any.
pub fn tokens(line: &str, edition: Edition) -> (Vec<Token>, Option<u32>) {
    let mut rest = line.as_bytes();
    let mut tokens = Vec::new();
    while !rest.is_empty() {
        match token(rest, edition) {
            Ok(Some((token, used))) => {
                tokens.push(token);
                rest = &rest[used..];
            }
            Ok(None) => break,
            Err(number) => return (tokens, Some(number)),
        }
    }
    (tokens, None)
}

/// A token at the start of some bytes, and how many of them it takes.
type Found = (Token, usize);

/// The token at the start of these bytes; none where the line's reading ends.
fn token(rest: &[u8], edition: Edition) -> Refusable<Option<Found>> {
    let found = match rest[0] {
        byte if is_space(char::from(byte)) => (Token::Space, 1),
        b'&' => (Token::Overlay, 1),
        // An unclosed quote drops the rest of the line.
        b'"' => match closing(rest) {
            Some(end) => (Token::Skipped, end + 1),
            None => return Ok(None),
        },
        b'>' | b'<' => broken(rest)?,
        b'(' => tuplet(rest, edition).unwrap_or((Token::SlurStart, 1)),
        b'{' => (Token::GraceOpen, 1),
        b'}' => (Token::GraceClose, 1),
        // An unclosed decoration drops its first sign alone.
        b'!' | b'+' => (Token::Skipped, closing(rest).map_or(1, |end| end + 1)),
        b'|' | b':' => barline(rest).unwrap_or((Token::Skipped, 1)),
        b'[' => bracket(rest, edition)?,
        b'z' | b'x' | b'Z' | b'X' => pause(rest, edition)?,
        b'^' | b'_' | b'=' | b'A'..=b'G' | b'a'..=b'g' => note(rest, edition)?,
        _ => (Token::Skipped, 1),
    };
    Ok(Some(found))
}

/// Where the first byte stands again.
fn closing(rest: &[u8]) -> Option<usize> {
    (1..rest.len()).find(|at| rest[*at] == rest[0])
}

/// "13 more than 255 equal `>` or `<` together"
fn broken(rest: &[u8]) -> Refusable<Found> {
    let count = rest.iter().take_while(|byte| **byte == rest[0]).count();
    let Ok(count8) = u8::try_from(count) else { return Err(13) };
    Ok((Token::Broken(Broken { is_dotted: rest[0] == b'>', count: count8 }), count))
}

// ---- tuplets --------------------------------------------------------------------------------------------------------

/// `(p`, `(p:q` or `(p:q:r`. "Actual below 2 or above 255, normal 0 or above 255, count 0 or past 64 bits, or an empty part after `:` is a slur start instead": none.
fn tuplet(rest: &[u8], edition: Edition) -> Option<Found> {
    let mut used = 1;
    let actual = match number(&rest[used..], 255) {
        Number::Good(p, length) if p >= 2 => {
            used += length;
            p as u8
        }
        _ => return None,
    };
    let normal = behind_colon(rest, &mut used, 255, edition)?;
    // Without a `:` for q there is none for r.
    let count = behind_colon(rest, &mut used, u64::MAX, edition)?;
    let tuplet = Tuplet { actual, normal: normal.map(|q| q as u8), count: count.unwrap_or(u64::from(actual)) };
    Some((Token::Tuplet(tuplet), used))
}

/// The digits at the start of some bytes.
enum Number {
    Empty,
    /// 0, or above what it may be.
    Bad,
    /// With its length.
    Good(u64, usize),
}

fn number(bytes: &[u8], most: u64) -> Number {
    let length = digits(bytes);
    match value(&bytes[..length], most) {
        _ if length == 0 => Number::Empty,
        Some(n) if n > 0 => Number::Good(n, length),
        _ => Number::Bad,
    }
}

/// The number behind a `:`, `Some(None)` for its default, none where the whole is no tuplet.
fn behind_colon(rest: &[u8], used: &mut usize, most: u64, edition: Edition) -> Option<Option<u64>> {
    if rest.get(*used) != Some(&b':') {
        return Some(None);
    }
    *used += 1;
    match number(&rest[*used..], most) {
        Number::Good(n, length) => {
            *used += length;
            Some(Some(n))
        }
        Number::Bad => None,
        Number::Empty => match edition {
            Edition::First => None,
            // "an empty part after `:` takes its default" (T-03): the colon belongs to the tuplet.
            Edition::Abc21 => Some(None),
        },
    }
}

// ---- barlines and brackets ------------------------------------------------------------------------------------------

/// "left and right barline (0 normal, 1 repeat start, 2 repeat end, 3 both, 4 double, 5 final)". `|:`, `::` and `||` are the right barline of a measure and the left one of the next; others leave that normal.
fn barline(rest: &[u8]) -> Option<Found> {
    let (right, left, used) = match rest {
        [b'|', b':', ..] => (1, 1, 2),
        [b':', b'|', ..] => (2, 0, 2),
        [b':', b':', ..] => (3, 3, 2),
        [b'|', b'|', ..] => (4, 4, 2),
        [b'|', b']', ..] => (5, 0, 2),
        [b'|', ..] => (0, 0, 1),
        // A lone colon is skipped.
        _ => return None,
    };
    Some((Token::Barline(Barline { right, left, opens: rest.get(used) != Some(&b']') }), used))
}

/// With a digit behind it a bracket begins a pass list; with a `:` before the next `]`, and no quote right behind it, an inline field, which "is passed over whole" if it has no known name (Decision 26); else a chord.
fn bracket(rest: &[u8], edition: Edition) -> Refusable<Found> {
    if rest.get(1).is_some_and(u8::is_ascii_digit) {
        return ending(rest);
    }
    if rest.get(1) != Some(&b'"')
        && let Some(end) = rest.iter().position(|byte| *byte == b']')
        && let Some(colon) = rest[..end].iter().position(|byte| *byte == b':')
    {
        let value = std::str::from_utf8(&rest[colon + 1..end]).expect("ASCII");
        return Ok((inline(&rest[1..colon], trim(value), edition)?, end + 1));
    }
    chord(rest, edition)
}

fn inline(name: &[u8], value: &str, edition: Edition) -> Refusable<Token> {
    Ok(match name {
        b"K" => Token::Key(fields::key(value, edition)?),
        b"M" => Token::Meter(fields::meter(value)),
        b"L" => fields::unit_inline(value).map_or(Token::Skipped, Token::Unit),
        _ => Token::Skipped,
    })
}

/// "`[` and a digit whose run of digits, commas and hyphens is no pass list" is refused (14, and T-01's 17 and 18).
fn ending(rest: &[u8]) -> Refusable<Found> {
    let run = rest[1..].iter().take_while(|byte| byte.is_ascii_digit() || matches!(byte, b',' | b'-')).count();
    let text = std::str::from_utf8(&rest[1..1 + run]).expect("ASCII");
    Ok((Token::Ending(passes(text)?), 1 + run))
}

/// "numbers 1 to 32 without leading zero, or a-b with a below b, strictly rising, commas between"
fn passes(list: &str) -> Refusable<Vec<u8>> {
    let items: Vec<Vec<&str>> = list.split(',').map(|item| item.split('-').collect()).collect();
    let written = items.concat();
    // "A list of the wrong shape, a leading zero included, keeps 14; a 0 by itself is well shaped." (T-01)
    let is_shaped = |number: &&str| !number.is_empty() && (*number == "0" || !number.starts_with('0'));
    if items.iter().any(|item| item.len() > 2) || !written.iter().all(is_shaped) {
        return Err(14);
    }
    // "A well-shaped list with a number 0 or above 32 gets its own number" (T-01), whatever its length in digits.
    let number = |number: &&str| value(number.as_bytes(), 32).filter(|n| *n > 0);
    let Some(numbers) = written.iter().map(number).collect::<Option<Vec<u64>>>() else { return Err(17) };
    // "and so does one whose numbers don't rise, 3-1 among them" (T-01)
    if numbers.windows(2).any(|two| two[0] >= two[1]) {
        return Err(18);
    }
    let mut passes = Vec::new();
    for item in items {
        let ends: Vec<u8> = item.iter().map(|number| number.parse().expect("a number up to 32")).collect();
        passes.extend(ends[0]..=ends[ends.len() - 1]);
    }
    Ok(passes)
}

// ---- notes, chords, rests -------------------------------------------------------------------------------------------

/// z, x, Z, X and a length. Ties and slur ends behind a rest are skipped.
fn pause(rest: &[u8], edition: Edition) -> Refusable<Found> {
    let kind = 1 + b"zxZX".iter().position(|letter| *letter == rest[0]).expect("a rest") as u8;
    let (length, used) = length(&rest[1..], edition)?;
    Ok((Token::Sound(Sound { kind, pitches: Vec::new(), length, is_tied: false, ends_slur: false }), 1 + used))
}

/// Accidentals, a letter, octave marks, a length, ties and slur ends.
fn note(rest: &[u8], edition: Edition) -> Refusable<Found> {
    let (accidental, used) = before_note(rest);
    let Some((mut pitch, more)) = letter(&rest[used..])? else {
        // "A lone accidental swallows the next character" (Decision 28).
        return Ok((Token::Silent, (used + 1).min(rest.len())));
    };
    pitch.accidental = accidental;
    sound(rest, vec![pitch], used + more, edition)
}

/// A note or chord whose length begins at `at`.
fn sound(rest: &[u8], pitches: Vec<Pitch>, at: usize, edition: Edition) -> Refusable<Found> {
    let (length, used) = length(&rest[at..], edition)?;
    let at = at + used;
    let marks = rest[at..].iter().take_while(|byte| matches!(byte, b'-' | b')')).count();
    let has = |mark: u8| rest[at..at + marks].contains(&mark);
    Ok((Token::Sound(Sound { kind: 0, pitches, length, is_tied: has(b'-'), ends_slur: has(b')') }), at + marks))
}

/// "Alters are clamped to −128 and 127" (Decision 29).
fn altered(alter: i8, sign: u8) -> i8 {
    if sign == b'^' { alter.saturating_add(1) } else { alter.saturating_sub(1) }
}

/// The accidental before a note: any number of `^`, or of `_`, or one `=`. A `/` behind one `^` or `_` makes it a quarter tone.
fn before_note(rest: &[u8]) -> (Option<Accidental>, usize) {
    let sign = rest[0];
    match sign {
        b'=' => (Some(Accidental { alter: 0, cents: 0 }), 1),
        b'^' | b'_' => {
            let count = rest.iter().take_while(|byte| **byte == sign).count();
            if count == 1 && rest.get(1) == Some(&b'/') {
                return (Some(Accidental { alter: 0, cents: quarter_tone(sign) }), 2);
            }
            let alter = (0..count).fold(0, |alter, _| altered(alter, sign));
            (Some(Accidental { alter, cents: 0 }), count)
        }
        _ => (None, 0),
    }
}

fn quarter_tone(sign: u8) -> i16 {
    if sign == b'^' { 50 } else { -50 }
}

/// A letter and its octave marks, all `,` first and then all `'`. "12 octave marks that leave −128 to 127".
fn letter(rest: &[u8]) -> Refusable<Option<(Pitch, usize)>> {
    let Some(step) = rest.first().and_then(|letter| b"CDEFGAB".iter().position(|step| *step == letter.to_ascii_uppercase())) else { return Ok(None) };
    let mut octave: i8 = if rest[0].is_ascii_uppercase() { 4 } else { 5 };
    let downs = rest[1..].iter().take_while(|byte| **byte == b',').count();
    let ups = rest[1 + downs..].iter().take_while(|byte| **byte == b'\'').count();
    // "Refusal 12 goes by the running octave" (Decision 3).
    for _ in 0..downs {
        octave = octave.checked_sub(1).ok_or(12u32)?;
    }
    for _ in 0..ups {
        octave = octave.checked_add(1).ok_or(12u32)?;
    }
    Ok(Some((Pitch { step: step as u8, octave, accidental: None }, 1 + downs + ups)))
}

/// A chord "to the next `]`", or to the line's end, and then a length.
fn chord(rest: &[u8], edition: Edition) -> Refusable<Found> {
    let end = rest.iter().position(|byte| *byte == b']');
    let pitches = inside(&rest[1..end.unwrap_or(rest.len())])?;
    let behind = end.map_or(rest.len(), |end| end + 1);
    if pitches.is_empty() {
        // A length behind it is read over.
        return Ok((Token::Silent, behind + length(&rest[behind..], edition)?.1));
    }
    sound(rest, pitches, behind, edition)
}

/// The pitches between a chord's brackets. An accidental waits for the next letter; all else is skipped.
fn inside(chord: &[u8]) -> Refusable<Vec<Pitch>> {
    let mut pitches = Vec::new();
    let mut waiting: Option<Accidental> = None;
    let mut at = 0;
    while at < chord.len() {
        let rest = &chord[at..];
        at += 1;
        match rest[0] {
            b'=' => waiting = Some(Accidental { alter: 0, cents: 0 }),
            sign @ (b'^' | b'_') => match waiting {
                None if rest.get(1) == Some(&b'/') => {
                    waiting = Some(Accidental { alter: 0, cents: quarter_tone(sign) });
                    at += 1;
                }
                _ => waiting = Some(Accidental { alter: altered(waiting.map_or(0, |accidental| accidental.alter), sign), cents: 0 }),
            },
            _ => {
                if let Some((mut pitch, used)) = letter(rest)? {
                    pitch.accidental = waiting.take();
                    pitches.push(pitch);
                    at += used - 1;
                }
            }
        }
    }
    Ok(pitches)
}
