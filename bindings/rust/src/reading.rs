//! A reading, looked at where it stands: parts, their measures, notes, pitches and lyrics. Nothing is copied.
use crate::{Refusal, is_whole, list_bytes, played_measures};
use std::fmt;
use std::iter::FusedIterator;

const MEASURE: usize = 28;
const NOTE: usize = 12;
const PITCH: usize = 5;
const LYRIC: usize = 11;

fn number(bytes: &[u8], at: usize) -> usize {
    u32::from_le_bytes([bytes[at], bytes[at + 1], bytes[at + 2], bytes[at + 3]]) as usize
}

/// The number at the front and the records behind it, and what follows them; none if they are not all there.
fn section(bytes: &[u8], width: usize) -> Option<(&[u8], &[u8])> {
    let (count, rest) = bytes.split_at_checked(4)?;
    rest.split_at_checked(number(count, 0).checked_mul(width)?)
}

/// A whole reading: `Reading<Vec<u8>>` owns its bytes, `Reading<&[u8]>` looks into a store. Readings are equal if their bytes are.
///
/// ```
/// let owned = sindvaelo::read("K:C\nA")?;
/// let mut reader = sindvaelo::Reader::new();
/// assert_eq!(owned, reader.read("K:C\nA")?);
/// # Ok::<(), sindvaelo::Refusal>(())
/// ```
#[derive(Clone, Copy)]
pub struct Reading<B> {
    bytes: B,
    /// Where the reading ends; zeros may stand behind it.
    length: usize,
}

impl<B: AsRef<[u8]>> Reading<B> {
    /// Bytes that the reader wrote.
    pub(crate) fn trusted(bytes: B) -> Self {
        let length = bytes.as_ref().len();
        Self { bytes, length }
    }

    /// Bytes kept from an earlier call; none if they are no whole reading, or one that is not viewable.
    ///
    /// *Whole* is the library's word ([`is_whole`], which is proved): counts, codes and endings are in order, and zeros may stand behind the reading. *Viewable* is what this crate's views ask besides:
    /// lyrics come by note, and their texts are UTF-8, since [`Lyric::text`] is a `&str`. Every reading of a text is both; neither says that some text has this reading.
    ///
    /// ```
    /// use sindvaelo::Reading;
    ///
    /// let kept = sindvaelo::read("K:C\nA").unwrap().into_bytes();
    /// assert!(Reading::from_bytes(&kept).is_some());
    /// assert!(Reading::from_bytes(&kept[1..]).is_none());
    /// ```
    pub fn from_bytes(bytes: B) -> Option<Self> {
        let all = bytes.as_ref();
        is_whole(all).then_some(())?;
        let parts = Parts { left: number(all, 0), rest: &all[4..] };
        let mut length = 4;
        for part in parts {
            part.is_viewable().then_some(())?;
            length += part.bytes.len();
        }
        Some(Self { bytes, length })
    }

    /// The bytes of the contract's format. The same text gives the same bytes with the same version.
    pub fn as_bytes(&self) -> &[u8] {
        &self.bytes.as_ref()[..self.length]
    }

    /// The bytes, or the store's slice, without the view; zeros that stood behind the reading are still there.
    pub fn into_bytes(self) -> B {
        self.bytes
    }

    /// A reading that looks into this one, to pass on without a copy.
    pub fn view(&self) -> Reading<&[u8]> {
        Reading { bytes: self.as_bytes(), length: self.length }
    }

    /// One part for each voice, in order.
    pub fn parts(&self) -> Parts<'_> {
        self.view().into_parts()
    }
}

impl<'a> Reading<&'a [u8]> {
    /// The parts, which live as long as the store that this reading looks into.
    pub fn into_parts(self) -> Parts<'a> {
        Parts { left: number(self.bytes, 0), rest: &self.bytes[4..] }
    }
}

impl<A: AsRef<[u8]>, B: AsRef<[u8]>> PartialEq<Reading<B>> for Reading<A> {
    fn eq(&self, other: &Reading<B>) -> bool {
        self.as_bytes() == other.as_bytes()
    }
}

impl<B: AsRef<[u8]>> Eq for Reading<B> {}

impl<B: AsRef<[u8]>> fmt::Debug for Reading<B> {
    fn fmt(&self, f: &mut fmt::Formatter<'_>) -> fmt::Result {
        f.debug_list().entries(self.parts()).finish()
    }
}

impl<'r, B: AsRef<[u8]>> IntoIterator for &'r Reading<B> {
    type Item = Part<'r>;
    type IntoIter = Parts<'r>;

    fn into_iter(self) -> Parts<'r> {
        self.parts()
    }
}

impl<'a> IntoIterator for Reading<&'a [u8]> {
    type Item = Part<'a>;
    type IntoIter = Parts<'a>;

    fn into_iter(self) -> Parts<'a> {
        self.into_parts()
    }
}

/// The parts of a reading. Where one begins is known once those before it are passed, so they come from the front alone.
#[derive(Debug, Clone)]
pub struct Parts<'a> {
    left: usize,
    rest: &'a [u8],
}

impl<'a> Iterator for Parts<'a> {
    type Item = Part<'a>;

    fn next(&mut self) -> Option<Part<'a>> {
        self.left = self.left.checked_sub(1)?;
        let part = Part::first(self.rest)?;
        self.rest = &self.rest[part.bytes.len()..];
        Some(part)
    }

    fn size_hint(&self) -> (usize, Option<usize>) {
        (self.left, Some(self.left))
    }
}

impl ExactSizeIterator for Parts<'_> {}
impl FusedIterator for Parts<'_> {}

/// A run of a part's notes with their pitches and lyrics, and no others.
#[derive(Clone, Copy, PartialEq, Eq)]
struct Run<'a> {
    /// The first note's number among the part's notes.
    first: usize,
    notes: &'a [u8],
    pitches: &'a [u8],
    lyrics: &'a [u8],
    text: &'a [u8],
}

impl<'a> Run<'a> {
    fn len(&self) -> usize {
        self.notes.len() / NOTE
    }

    /// The first n notes, and the others.
    fn split(self, n: usize) -> (Self, Self) {
        let (notes, other_notes) = self.notes.split_at(NOTE * n);
        let pitches = notes.chunks_exact(NOTE).map(|note| number(note, 8)).sum::<usize>();
        let mut sung = 0;
        let mut text = 0;
        while let Some(lyric) = self.lyrics.get(sung..sung + LYRIC).filter(|lyric| number(lyric, 0) < self.first + n) {
            sung += LYRIC;
            text += number(lyric, 7);
        }
        let (pitches, other_pitches) = self.pitches.split_at(PITCH * pitches);
        let (lyrics, other_lyrics) = self.lyrics.split_at(sung);
        let (text, other_text) = self.text.split_at(text);
        let front = Self { first: self.first, notes, pitches, lyrics, text };
        (front, Self { first: self.first + n, notes: other_notes, pitches: other_pitches, lyrics: other_lyrics, text: other_text })
    }

    /// All notes but the last n, and those.
    fn split_back(self, n: usize) -> (Self, Self) {
        let (other_notes, notes) = self.notes.split_at(self.notes.len() - NOTE * n);
        let pitches = notes.chunks_exact(NOTE).map(|note| number(note, 8)).sum::<usize>();
        let first = self.first + other_notes.len() / NOTE;
        let mut sung = 0;
        let mut text = 0;
        while let Some(lyric) = (self.lyrics.len()).checked_sub(sung + LYRIC).map(|at| &self.lyrics[at..]).filter(|lyric| number(lyric, 0) >= first) {
            sung += LYRIC;
            text += number(lyric, 7);
        }
        let (other_pitches, pitches) = self.pitches.split_at(self.pitches.len() - PITCH * pitches);
        let (other_lyrics, lyrics) = self.lyrics.split_at(self.lyrics.len() - sung);
        let (other_text, text) = self.text.split_at(self.text.len() - text);
        let back = Self { first, notes, pitches, lyrics, text };
        (Self { first: self.first, notes: other_notes, pitches: other_pitches, lyrics: other_lyrics, text: other_text }, back)
    }
}

/// A part: acorde's `Part` with its one staff. Parts are equal if all their records are.
#[derive(Clone, Copy, PartialEq, Eq)]
pub struct Part<'a> {
    /// All five sections.
    bytes: &'a [u8],
    measures: &'a [u8],
    run: Run<'a>,
}

impl<'a> Part<'a> {
    fn first(bytes: &'a [u8]) -> Option<Self> {
        let (measures, rest) = section(bytes, MEASURE)?;
        let (notes, rest) = section(rest, NOTE)?;
        let (pitches, rest) = section(rest, PITCH)?;
        let (lyrics, rest) = section(rest, LYRIC)?;
        let (text, rest) = section(rest, 1)?;
        Some(Self { bytes: &bytes[..bytes.len() - rest.len()], measures, run: Run { first: 0, notes, pitches, lyrics, text } })
    }

    /// Its lyrics come by note and their texts are UTF-8. It is a part of a whole reading.
    fn is_viewable(&self) -> bool {
        let (mut note, mut rest) = (0, self.run.text);
        for record in self.run.lyrics.chunks_exact(LYRIC) {
            let (text, texts) = rest.split_at(number(record, 7));
            if number(record, 0) < note || str::from_utf8(text).is_err() {
                return false;
            }
            (note, rest) = (number(record, 0), texts);
        }
        true
    }

    /// The numbers of its measures, from 1, in the order in which a player walks them: repeats, and of the endings those of the pass.
    ///
    /// Refused with [`Refusal::ListShort`] if they are more than `most`, in time and memory (8 bytes a number) for `most` of them: a part of n measures may have a list of up to 16 × n × (n + 1) numbers.
    ///
    /// ```
    /// let reading = sindvaelo::read("K:C\n|:A|[1B:|[2c|]")?;
    /// let part = reading.parts().next().unwrap();
    /// assert_eq!(part.played(1_000)?, [1, 2, 1, 3]);
    /// assert_eq!(part.played(3), Err(sindvaelo::Refusal::ListShort));
    /// # Ok::<(), sindvaelo::Refusal>(())
    /// ```
    pub fn played(&self, most: usize) -> Result<Vec<u32>, Refusal> {
        // A reading of this part alone: with the others the call would test them too, once for each part that is asked for.
        let reading = [&1u32.to_le_bytes(), self.bytes].concat();
        let mut room = most.min(2 * self.measures().len());
        loop {
            let mut list = vec![0; list_bytes(room)];
            match played_measures(&reading, 1, &mut list) {
                Ok(length) => return Ok(list[4..length].chunks_exact(4).map(|n| number(n, 0) as u32).collect()),
                Err(Refusal::ListShort) if room < most => room = most.min(2 * room),
                Err(refusal) => return Err(refusal),
            }
        }
    }

    /// Its measures, in order.
    pub fn measures(&self) -> Measures<'a> {
        Measures { records: self.measures, run: self.run }
    }

    /// All notes and rests: by measure, then by voice 0 to 3, then as written.
    pub fn notes(&self) -> Notes<'a> {
        Notes { run: self.run }
    }

    /// The pitches of all notes, in the order of their notes.
    pub fn pitches(&self) -> Pitches<'a> {
        Pitches { rest: self.run.pitches }
    }

    /// All lyrics: by note, then by verse.
    ///
    /// ```
    /// let reading = sindvaelo::read("K:C\nAB\nw: one two\nw: eins\n")?;
    /// let part = reading.parts().next().unwrap();
    /// let sung: Vec<_> = part.lyrics().map(|lyric| (lyric.note, lyric.verse, lyric.text)).collect();
    /// assert_eq!(sung, [(0, 1, "one"), (0, 2, "eins"), (1, 1, "two")]);
    /// # Ok::<(), sindvaelo::Refusal>(())
    /// ```
    pub fn lyrics(&self) -> Lyrics<'a> {
        Lyrics { rest: self.run.lyrics, text: self.run.text }
    }
}

impl fmt::Debug for Part<'_> {
    fn fmt(&self, f: &mut fmt::Formatter<'_>) -> fmt::Result {
        f.debug_struct("Part").field("measures", &self.measures().collect::<Vec<_>>()).finish()
    }
}

macro_rules! numbered {
    ($(#[$doc:meta])* $name:ident { $($number:literal $case:ident $text:literal,)* }) => {
        $(#[$doc])*
        #[derive(Debug, Clone, Copy, PartialEq, Eq, Hash)]
        pub enum $name {
            $(#[doc = $text] $case,)*
        }

        impl $name {
            fn of(byte: u8) -> Self {
                match byte {
                    $($number => Self::$case,)*
                    other => unreachable!("{} {other} in a reading", stringify!($name)),
                }
            }
        }
    };
}

numbered! {
    /// A barline.
    Barline {
        0 Normal "`|`, or none written.",
        1 RepeatStart "`|:`.",
        2 RepeatEnd "`:|`.",
        3 RepeatBoth "`::`.",
        4 Double "`||`.",
        5 Final "`|]`.",
    }
}

numbered! {
    /// acorde's `VoltaBracket::kind`: `begin`, `end`, `begin_end`.
    VoltaKind {
        1 Begin "The ending begins here.",
        2 End "The ending that began earlier stops here.",
        3 BeginEnd "The ending is this measure.",
    }
}

numbered! {
    /// A key's mode.
    Mode {
        1 Major "Major.",
        2 Minor "Minor.",
    }
}

numbered! {
    /// A written value, without its dots.
    Duration {
        0 Longa "Four wholes.",
        1 Breve "Two wholes.",
        2 Whole "A whole.",
        3 Half "A half.",
        4 Quarter "A quarter.",
        5 Eighth "An eighth.",
        6 Sixteenth "A 16th.",
        7 ThirtySecond "A 32nd.",
        8 SixtyFourth "A 64th.",
        9 HundredTwentyEighth "A 128th.",
        10 WholeBar "The value of `Z` and `X`.",
    }
}

numbered! {
    /// A note's place in a beam.
    BeamState {
        0 None "Not beamed.",
        1 Begin "The beam's first note.",
        2 Continue "Neither its first nor its last.",
        3 End "Its last note.",
    }
}

numbered! {
    /// A note's place at the edge of a tuplet.
    TupletBoundary {
        1 Start "The tuplet's first note.",
        2 Stop "Its last note.",
        3 StartStop "Its only note.",
    }
}

numbered! {
    /// A pitch's letter.
    Step {
        0 C "C.",
        1 D "D.",
        2 E "E.",
        3 F "F.",
        4 G "G.",
        5 A "A.",
        6 B "B.",
    }
}

numbered! {
    /// A syllable's place in its word.
    Syllabic {
        0 Single "A word of one syllable.",
        1 Begin "A word's first syllable.",
        2 End "A word's last syllable.",
        3 Middle "Neither.",
    }
}

numbered! {
    /// How a note was written.
    Kind {
        0 Note "A note or chord.",
        1 Rest "`z`.",
        2 HiddenRest "`x`.",
        3 BarRest "`Z`.",
        4 HiddenBarRest "`X`.",
    }
}

/// A meter, as in 3/4.
#[derive(Debug, Clone, Copy, PartialEq, Eq, Hash)]
pub struct TimeSignature {
    /// The upper number.
    pub numerator: u8,
    /// The lower number.
    pub denominator: u8,
}

/// A key.
#[derive(Debug, Clone, Copy, PartialEq, Eq, Hash)]
pub struct KeySignature {
    /// Sharps, or flats below 0.
    pub fifths: i8,
    /// Major or minor.
    pub mode: Mode,
}

/// A measure's place in an ending (volta).
#[derive(Debug, Clone, Copy, PartialEq, Eq, Hash)]
pub struct VoltaBracket {
    /// Whether it begins or stops here.
    pub kind: VoltaKind,
    /// Its first pass.
    pub number: u8,
    /// All its passes: bit p − 1 for pass p.
    pub passes: u32,
}

impl VoltaBracket {
    /// Its passes, rising, from 1 to 32.
    ///
    /// ```
    /// let reading = sindvaelo::read("K:C\nA|[1,3-5 B:|")?;
    /// let volta = reading.parts().next().unwrap().measures().nth(1).unwrap().volta().unwrap();
    /// assert_eq!(volta.pass_numbers().collect::<Vec<_>>(), [1, 3, 4, 5]);
    /// # Ok::<(), sindvaelo::Refusal>(())
    /// ```
    pub fn pass_numbers(&self) -> impl Iterator<Item = u8> + use<> {
        let passes = self.passes;
        (1..=32).filter(move |pass| passes >> (pass - 1) & 1 == 1)
    }
}

/// So many notes in the time of so many.
#[derive(Debug, Clone, Copy, PartialEq, Eq, Hash)]
pub struct TupletInfo {
    /// The notes there are.
    pub actual_notes: u8,
    /// The notes whose time they take.
    pub normal_notes: u8,
}

/// The measures of a part.
#[derive(Debug, Clone)]
pub struct Measures<'a> {
    records: &'a [u8],
    run: Run<'a>,
}

impl<'a> Iterator for Measures<'a> {
    type Item = Measure<'a>;

    fn next(&mut self) -> Option<Measure<'a>> {
        let (record, records) = self.records.split_at_checked(MEASURE)?;
        let (run, others) = self.run.split(note_count(record));
        (self.records, self.run) = (records, others);
        Some(Measure { record, run })
    }

    fn size_hint(&self) -> (usize, Option<usize>) {
        let left = self.records.len() / MEASURE;
        (left, Some(left))
    }
}

impl DoubleEndedIterator for Measures<'_> {
    fn next_back(&mut self) -> Option<Self::Item> {
        let (records, record) = self.records.split_at(self.records.len().checked_sub(MEASURE)?);
        let (others, run) = self.run.split_back(note_count(record));
        (self.records, self.run) = (records, others);
        Some(Measure { record, run })
    }
}

impl ExactSizeIterator for Measures<'_> {}
impl FusedIterator for Measures<'_> {}

/// How many notes a measure's record counts.
fn note_count(record: &[u8]) -> usize {
    (0..4).map(|v| number(record, 4 * v)).sum()
}

/// A measure with its notes. Measures are equal if their records and their notes are, places among the part's notes included.
#[derive(Clone, Copy, PartialEq, Eq)]
pub struct Measure<'a> {
    record: &'a [u8],
    run: Run<'a>,
}

impl<'a> Measure<'a> {
    /// How many notes and rests voice `v`, 0 to 3, has; 0 for any other.
    pub fn voice_len(&self, v: usize) -> usize {
        if v < 4 { number(self.record, 4 * v) } else { 0 }
    }

    /// The notes and rests of voice `v`, 0 to 3; none for any other. `&` in a text moves on to the next.
    ///
    /// ```
    /// let reading = sindvaelo::read("K:C\nABcd & E2 z2 |")?;
    /// let measure = reading.parts().next().unwrap().measures().next().unwrap();
    /// assert_eq!((0..5).map(|v| measure.voice(v).len()).collect::<Vec<_>>(), [4, 2, 0, 0, 0]);
    /// # Ok::<(), sindvaelo::Refusal>(())
    /// ```
    pub fn voice(&self, v: usize) -> Notes<'a> {
        let before = (0..v.min(4)).map(|w| self.voice_len(w)).sum();
        Notes { run: self.run.split(before).1.split(self.voice_len(v)).0 }
    }

    /// All four voices, one after the other.
    pub fn notes(&self) -> Notes<'a> {
        Notes { run: self.run }
    }

    /// The barline at its left.
    pub fn barline_left(&self) -> Barline {
        Barline::of(self.record[16])
    }

    /// The barline at its right.
    pub fn barline_right(&self) -> Barline {
        Barline::of(self.record[17])
    }

    /// The meter in force; acorde has `None` where it is that of the measure before.
    pub fn time_sig(&self) -> TimeSignature {
        TimeSignature { numerator: self.record[18], denominator: self.record[19] }
    }

    /// The key, where the measure bears a key mark: the first one always does.
    pub fn key_sig(&self) -> Option<KeySignature> {
        match self.record[20] {
            0 => None,
            mode => Some(KeySignature { fifths: self.record[21] as i8, mode: Mode::of(mode) }),
        }
    }

    /// The ending that begins or stops here.
    pub fn volta(&self) -> Option<VoltaBracket> {
        match self.record[22] {
            0 => None,
            kind => Some(VoltaBracket { kind: VoltaKind::of(kind), number: self.record[23], passes: number(self.record, 24) as u32 }),
        }
    }
}

impl fmt::Debug for Measure<'_> {
    fn fmt(&self, f: &mut fmt::Formatter<'_>) -> fmt::Result {
        f.debug_struct("Measure")
            .field("voices", &[0, 1, 2, 3].map(|v| self.voice(v).collect::<Vec<_>>()))
            .field("barline_left", &self.barline_left())
            .field("barline_right", &self.barline_right())
            .field("time_sig", &self.time_sig())
            .field("key_sig", &self.key_sig())
            .field("volta", &self.volta())
            .finish()
    }
}

/// Notes and rests, each with its pitches and lyrics.
#[derive(Clone)]
pub struct Notes<'a> {
    run: Run<'a>,
}

impl<'a> Iterator for Notes<'a> {
    type Item = Note<'a>;

    fn next(&mut self) -> Option<Note<'a>> {
        (self.run.len() > 0).then_some(())?;
        let (note, others) = self.run.split(1);
        self.run = others;
        Some(Note { run: note })
    }

    fn size_hint(&self) -> (usize, Option<usize>) {
        (self.run.len(), Some(self.run.len()))
    }
}

impl DoubleEndedIterator for Notes<'_> {
    fn next_back(&mut self) -> Option<Self::Item> {
        (self.run.len() > 0).then_some(())?;
        let (others, note) = self.run.split_back(1);
        self.run = others;
        Some(Note { run: note })
    }
}

impl ExactSizeIterator for Notes<'_> {}
impl FusedIterator for Notes<'_> {}

impl fmt::Debug for Notes<'_> {
    fn fmt(&self, f: &mut fmt::Formatter<'_>) -> fmt::Result {
        f.debug_list().entries(self.clone()).finish()
    }
}

impl fmt::Debug for Run<'_> {
    fn fmt(&self, f: &mut fmt::Formatter<'_>) -> fmt::Result {
        Notes { run: *self }.fmt(f)
    }
}

/// A note, chord or rest. Notes are equal if all that they say is, their place among the part's notes included.
#[derive(Clone, Copy, PartialEq, Eq)]
pub struct Note<'a> {
    run: Run<'a>,
}

impl<'a> Note<'a> {
    fn byte(&self, at: usize) -> u8 {
        self.run.notes[at]
    }

    /// Its number among the part's notes, from 0.
    pub fn index(&self) -> usize {
        self.run.first
    }

    /// How it was written.
    pub fn kind(&self) -> Kind {
        Kind::of(self.byte(0))
    }

    /// Its pitches, as written: several for a chord, none for a rest.
    pub fn pitches(&self) -> Pitches<'a> {
        Pitches { rest: self.run.pitches }
    }

    /// Its written value, without dots.
    ///
    /// ```
    /// use sindvaelo::Duration;
    ///
    /// let reading = sindvaelo::read("L:1/8\nK:C\nA3")?;
    /// let note = reading.parts().next().unwrap().notes().next().unwrap();
    /// assert_eq!((note.duration(), note.dot_count()), (Duration::Quarter, 1));
    /// # Ok::<(), sindvaelo::Refusal>(())
    /// ```
    pub fn duration(&self) -> Duration {
        Duration::of(self.byte(1))
    }

    /// Its dots, 0 to 3.
    pub fn dot_count(&self) -> u8 {
        self.byte(2)
    }

    /// `z`, `x`, `Z` or `X`.
    pub fn is_rest(&self) -> bool {
        self.byte(0) != 0
    }

    /// `x` or `X`.
    pub fn hidden(&self) -> bool {
        matches!(self.kind(), Kind::HiddenRest | Kind::HiddenBarRest)
    }

    /// In braces.
    pub fn is_grace(&self) -> bool {
        self.byte(3) & 16 != 0
    }

    /// A tie begins here.
    pub fn tie_start(&self) -> bool {
        self.byte(3) & 1 != 0
    }

    /// A tie ends here.
    pub fn tie_end(&self) -> bool {
        self.byte(3) & 2 != 0
    }

    /// A slur begins here.
    pub fn slur_start(&self) -> bool {
        self.byte(3) & 4 != 0
    }

    /// A slur ends here.
    pub fn slur_end(&self) -> bool {
        self.byte(3) & 8 != 0
    }

    /// Its place in a beam.
    pub fn beam(&self) -> BeamState {
        BeamState::of(self.byte(4))
    }

    /// An eighth or shorter without a beam.
    pub fn explicit_unbeamed(&self) -> bool {
        self.byte(3) & 32 != 0
    }

    /// The tuplet that it is in.
    pub fn tuplet(&self) -> Option<TupletInfo> {
        match self.byte(5) {
            0 => None,
            actual_notes => Some(TupletInfo { actual_notes, normal_notes: self.byte(6) }),
        }
    }

    /// Whether that tuplet begins or stops here.
    pub fn tuplet_boundary(&self) -> Option<TupletBoundary> {
        match self.byte(7) {
            0 => None,
            boundary => Some(TupletBoundary::of(boundary)),
        }
    }

    /// Its syllables, by verse: acorde's `lyric` is that of verse 1, `additional_lyrics` the others.
    pub fn lyrics(&self) -> Lyrics<'a> {
        Lyrics { rest: self.run.lyrics, text: self.run.text }
    }
}

impl fmt::Debug for Note<'_> {
    fn fmt(&self, f: &mut fmt::Formatter<'_>) -> fmt::Result {
        f.debug_struct("Note")
            .field("kind", &self.kind())
            .field("pitches", &self.pitches().collect::<Vec<_>>())
            .field("duration", &self.duration())
            .field("dot_count", &self.dot_count())
            .field("is_grace", &self.is_grace())
            .field("tie_start", &self.tie_start())
            .field("tie_end", &self.tie_end())
            .field("slur_start", &self.slur_start())
            .field("slur_end", &self.slur_end())
            .field("beam", &self.beam())
            .field("explicit_unbeamed", &self.explicit_unbeamed())
            .field("tuplet", &self.tuplet())
            .field("tuplet_boundary", &self.tuplet_boundary())
            .field("lyrics", &self.lyrics().collect::<Vec<_>>())
            .finish()
    }
}

/// Pitches in the order of their notes.
#[derive(Debug, Clone)]
pub struct Pitches<'a> {
    rest: &'a [u8],
}

impl Iterator for Pitches<'_> {
    type Item = Pitch;

    fn next(&mut self) -> Option<Pitch> {
        let (record, rest) = self.rest.split_at_checked(PITCH)?;
        self.rest = rest;
        Some(Pitch::of(record))
    }

    fn size_hint(&self) -> (usize, Option<usize>) {
        let left = self.rest.len() / PITCH;
        (left, Some(left))
    }
}

impl DoubleEndedIterator for Pitches<'_> {
    fn next_back(&mut self) -> Option<Pitch> {
        let (rest, record) = self.rest.split_at(self.rest.len().checked_sub(PITCH)?);
        self.rest = rest;
        Some(Pitch::of(record))
    }
}

impl ExactSizeIterator for Pitches<'_> {}
impl FusedIterator for Pitches<'_> {}

/// A pitch as it sounds: the key and the accidentals before it are in `alter`.
#[derive(Debug, Clone, Copy, PartialEq, Eq, Hash)]
pub struct Pitch {
    /// The letter.
    pub step: Step,
    /// The octave; 4 begins at middle C.
    pub octave: i8,
    /// Semitones up, or down below 0.
    pub alter: i8,
    /// Hundredths of a semitone beside them.
    pub microtone_cents: i16,
}

impl Pitch {
    fn of(p: &[u8]) -> Self {
        Self { step: Step::of(p[0]), octave: p[1] as i8, alter: p[2] as i8, microtone_cents: i16::from_le_bytes([p[3], p[4]]) }
    }
}

/// Syllables.
#[derive(Debug, Clone)]
pub struct Lyrics<'a> {
    rest: &'a [u8],
    text: &'a [u8],
}

impl<'a> Iterator for Lyrics<'a> {
    type Item = Lyric<'a>;

    fn next(&mut self) -> Option<Lyric<'a>> {
        let (record, rest) = self.rest.split_at_checked(LYRIC)?;
        let (text, texts) = self.text.split_at(number(record, 7));
        (self.rest, self.text) = (rest, texts);
        Some(Lyric::of(record, text))
    }

    fn size_hint(&self) -> (usize, Option<usize>) {
        let left = self.rest.len() / LYRIC;
        (left, Some(left))
    }
}

impl DoubleEndedIterator for Lyrics<'_> {
    fn next_back(&mut self) -> Option<Self::Item> {
        let (rest, record) = self.rest.split_at(self.rest.len().checked_sub(LYRIC)?);
        let (texts, text) = self.text.split_at(self.text.len() - number(record, 7));
        (self.rest, self.text) = (rest, texts);
        Some(Lyric::of(record, text))
    }
}

impl ExactSizeIterator for Lyrics<'_> {}
impl FusedIterator for Lyrics<'_> {}

/// A syllable.
#[derive(Debug, Clone, Copy, PartialEq, Eq, Hash)]
pub struct Lyric<'a> {
    /// Its note's number among the part's notes, from 0.
    pub note: usize,
    /// 1 to 32.
    pub verse: u8,
    /// Its place in its word.
    pub syllabic: Syllabic,
    /// It is held on (`_`).
    pub extend: bool,
    /// Its text, which may be empty.
    pub text: &'a str,
}

impl<'a> Lyric<'a> {
    fn of(record: &[u8], text: &'a [u8]) -> Self {
        // The reader cuts UTF-8 at white space and ASCII only.
        let text = str::from_utf8(text).expect("a syllable of a reading is UTF-8");
        Self { note: number(record, 0), verse: record[4], syllabic: Syllabic::of(record[5]), extend: record[6] == 1, text }
    }
}
