//! Lyric lines: words, and the notes that they go to.
use super::Edition;
use super::parts::{Measure, Note};
use super::text;
use std::collections::BTreeMap;

#[derive(Debug, Clone, PartialEq)]
pub struct Lyric {
    /// 0 single, 1 begin, 2 end, 3 middle.
    pub syllabic: u8,
    pub is_extended: bool,
    pub text: String,
}

pub struct LyricLine {
    pub words: String,
    /// How many notes take words before the music line that it stands under.
    pub start: usize,
    pub verse: u8,
}

/// What a word, or a piece of a word, asks for.
enum Word {
    /// `|`
    Bar,
    /// `*`, "A lyric word of hyphens alone uses up a note without text, as `*` does" (Decision 33).
    Skip,
    /// `_`
    Hold,
    Syllable { text: String, syllabic: u8 },
}

/// `*`, `_` and `|` are special as words of their own.
fn words(line: &str) -> Vec<Word> {
    let mut found = Vec::new();
    for word in text::words(line) {
        match word {
            "|" => found.push(Word::Bar),
            "*" => found.push(Word::Skip),
            "_" => found.push(Word::Hold),
            _ => found.extend(pieces(word).iter().map(|piece| syllable(piece))),
        }
    }
    found
}

/// A word is split at its hyphens if it has one between other characters. A piece keeps a hyphen where it was split off, and where its word began or ended with one.
fn pieces(word: &str) -> Vec<String> {
    if !word.trim_matches('-').contains('-') {
        return vec![word.to_string()];
    }
    let inner: Vec<&str> = word.split('-').filter(|piece| !piece.is_empty()).collect();
    let mut pieces: Vec<String> = inner.iter().map(|piece| format!("-{piece}-")).collect();
    if !word.starts_with('-') {
        pieces[0].remove(0);
    }
    if !word.ends_with('-') {
        pieces.last_mut().expect("two pieces at least").pop();
    }
    pieces
}

/// Hyphens tell the syllabic: `hel-lo` is begin and end, `-a-b-` middle and middle. `~` is a space of the text.
fn syllable(piece: &str) -> Word {
    let text = piece.trim_matches('-').replace('~', " ");
    if text.is_empty() {
        return Word::Skip;
    }
    let syllabic = match (piece.starts_with('-'), piece.ends_with('-')) {
        (false, false) => 0,
        (false, true) => 1,
        (true, false) => 2,
        (true, true) => 3,
    };
    Word::Syllable { text, syllabic }
}

/// Whether words go to a note of voice 0.
pub fn takes_words(note: &Note, edition: Edition) -> bool {
    match edition {
        // "Lyrics go to voice 0 notes that are no rests, grace notes included".
        Edition::First => !note.is_rest(),
        // "grace notes take no syllable" (T-03), in every use: the line's first note, skips, holds, the move.
        Edition::Abc21 => !note.is_rest() && !note.is_grace,
    }
}

/// Where a note of voice 0 stands.
#[derive(Clone, Copy)]
struct Place {
    measure: usize,
    index: usize,
}

/// A part's lyric lines, in their order.
pub fn sing(measures: &mut [Measure], lines: &[LyricLine], edition: Edition) {
    let mut places = Vec::new();
    for (measure, notes) in measures.iter().map(|measure| &measure.voices[0]).enumerate() {
        places.extend((0..notes.len()).filter(|index| takes_words(&notes[*index], edition)).map(|index| Place { measure, index }));
    }
    for line in lines {
        // It starts at the first note of the voice's latest music line, and runs on over later ones.
        sing_line(measures, line, &places[line.start..], edition);
    }
}

fn sing_line(measures: &mut [Measure], line: &LyricLine, places: &[Place], edition: Edition) {
    // The note that the next word takes; and the measure of the note last reached: "at the start, the one of the line's first note" (T-03).
    let mut next = 0;
    let mut reached = places.first().map(|place| place.measure);
    for word in words(&line.words) {
        match word {
            Word::Bar => match edition {
                // "`|` is passed over."
                Edition::First => continue,
                // "a lyric `|` moves to the first note in a measure after the one last reached .. with no such note the line's rest lapses" (T-03)
                Edition::Abc21 => {
                    let Some(first) = (next..places.len()).find(|i| Some(places[*i].measure) > reached) else { return };
                    next = first;
                    // "that move, `*` and `_` reach too" (T-03), as syllables do; the move takes no note.
                    reached = Some(places[first].measure);
                    continue;
                }
            },
            Word::Skip => {}
            // It marks the note before, if that has this verse, and uses up a note as well.
            Word::Hold => {
                if let Some(lyrics) = next.checked_sub(1).and_then(|before| lyrics_at(measures, places, before))
                    && let Some(lyric) = lyrics.get_mut(&line.verse)
                {
                    lyric.is_extended = true;
                }
            }
            // It replaces what an earlier line of the same verse has there.
            Word::Syllable { text, syllabic } => {
                if let Some(lyrics) = lyrics_at(measures, places, next) {
                    lyrics.insert(line.verse, Lyric { syllabic, is_extended: false, text });
                }
            }
        }
        // "Words past the last note go on without effect." (Decision 33)
        if let Some(place) = places.get(next) {
            reached = Some(place.measure);
        }
        next += 1;
    }
}

/// The lyrics of a line's note, by verse; none past the last note.
fn lyrics_at<'a>(measures: &'a mut [Measure], places: &[Place], note: usize) -> Option<&'a mut BTreeMap<u8, Lyric>> {
    let place = places.get(note)?;
    Some(&mut measures[place.measure].voices[0][place.index].lyrics)
}
