//! A part: tokens become measures and notes.
use super::Edition;
use super::fields::{Key, Meter};
use super::lengths::{halved, with_dots, written};
use super::lyrics::{Lyric, LyricLine, sing, takes_words};
use super::tokens::{self, Accidental, Barline, Broken, Sound, Token, Tuplet};
use std::collections::BTreeMap;

/// The denominator of the unit of length.
pub type Unit = u32;

#[derive(Debug, Clone)]
pub struct Pitch {
    pub step: u8,
    pub octave: i8,
    pub sounds: Accidental,
}

#[derive(Debug, Clone)]
pub struct Note {
    /// 0 note, 1 z, 2 x, 3 Z, 4 X.
    pub kind: u8,
    /// 0 longa to 9, a 128th; 10 a whole bar.
    pub value: u8,
    pub dots: u8,
    pub tie_start: bool,
    pub tie_end: bool,
    pub slur_start: bool,
    pub slur_end: bool,
    pub is_grace: bool,
    /// 0 none, 1 begin, 2 continue, 3 end.
    pub beam: u8,
    /// Actual and normal; 0, 0 if none.
    pub tuplet: (u8, u8),
    /// 0 none, 1 start, 2 stop, 3 both.
    pub boundary: u8,
    pub pitches: Vec<Pitch>,
    /// By verse.
    pub lyrics: BTreeMap<u8, Lyric>,
}

impl Note {
    pub fn is_rest(&self) -> bool {
        self.kind != 0
    }

    /// "eighth to 128th"; "A rest has neither beam nor flag 32".
    pub fn is_beamable(&self) -> bool {
        !self.is_rest() && (5..=9).contains(&self.value)
    }
}

/// "volta (0 none, 1 begin, 2 end, 3 begin and end); first pass; passes"
#[derive(Debug, Clone)]
pub struct Volta {
    pub code: u8,
    pub passes: Vec<u8>,
}

#[derive(Debug, Clone)]
pub struct Measure {
    /// Voice 0 and three overlays.
    pub voices: [Vec<Note>; 4],
    pub left: u8,
    pub right: u8,
    /// "that in force when the measure opened, replaced by an M field there"
    pub meter: Meter,
    pub key: Option<Key>,
    pub volta: Option<Volta>,
}

impl Measure {
    fn new(meter: Meter, left: u8) -> Self {
        Self { voices: Default::default(), left, right: 0, meter, key: None, volta: None }
    }

    fn is_empty(&self) -> bool {
        self.voices.iter().all(Vec::is_empty)
    }
}

/// "a pending tie end, slur start or open grace brace lasts on until the next V line"
#[derive(Debug, Default)]
pub struct Pending {
    tie_end: bool,
    slur_start: bool,
    grace: bool,
}

/// What ends with its line.
#[derive(Debug, Default)]
struct InLine {
    /// "`&` moves on one voice, at most three times; a barline or line end goes back."
    voice: usize,
    /// "A broken rhythm still pending for the next note lapses at the line's end".
    broken: Option<Broken>,
    /// "It ends with its line." With the notes that are left.
    tuplet: Option<(u8, u8, u64, u64)>,
    /// The notes of the voice that the beam step was taken on since the last break.
    run: Vec<usize>,
}

pub struct Part {
    pub measures: Vec<Measure>,
    /// The key that the voice hears.
    pub key: Key,
    /// Of the measure being written: by letter and octave, in each of the four voices.
    accidentals: [BTreeMap<(u8, i8), Accidental>; 4],
    line: InLine,
    pub has_music: bool,
    /// How many notes take words, and how many did when the latest music line began.
    singable: usize,
    start: usize,
    /// Lyric lines under a music line are its verses, 1 to 32; later ones are the 32nd too.
    next_verse: u8,
    lyric_lines: Vec<LyricLine>,
}

impl Part {
    pub fn new(key: Key) -> Self {
        Self {
            measures: Vec::new(),
            key,
            accidentals: Default::default(),
            line: InLine::default(),
            has_music: false,
            singable: 0,
            start: 0,
            next_verse: 1,
            lyric_lines: Vec::new(),
        }
    }

    /// The measure being written: "any music line opens one" (Decision 13).
    fn measure(&mut self) -> &mut Measure {
        self.measures.last_mut().expect("a music line has a measure")
    }

    /// The notes of the voice being written, in the measure being written.
    fn voice(&mut self) -> &mut Vec<Note> {
        let voice = self.line.voice;
        &mut self.measure().voices[voice]
    }

    fn set_key(&mut self, key: Key) {
        self.key = key;
        self.clear_accidentals();
    }

    fn clear_accidentals(&mut self) {
        self.accidentals = Default::default();
    }

    /// A K line of the body. "A body K line in a voice with no measure yet falls back to the header's key."
    pub fn change_key(&mut self, key: Key, header_key: Key) {
        match self.measures.last_mut() {
            Some(measure) => {
                measure.key = Some(key);
                self.set_key(key);
            }
            None => self.set_key(header_key),
        }
    }

    // ---- lines ------------------------------------------------------------------------------------------------------

    pub fn begin_line(&mut self, meter: Meter) {
        if self.measures.is_empty() {
            self.measures.push(Measure::new(meter, 0));
        }
        self.has_music = true;
        self.start = self.singable;
        self.next_verse = 1;
    }

    pub fn end_line(&mut self) {
        self.line = InLine::default();
    }

    /// `counts`: the next one is another verse.
    pub fn lyric_line(&mut self, words: &str, counts: bool) {
        self.lyric_lines.push(LyricLine { words: words.to_string(), start: self.start, verse: self.next_verse });
        if counts {
            self.next_verse = (self.next_verse + 1).min(32);
        }
    }

    // ---- tokens -----------------------------------------------------------------------------------------------------

    pub fn play(&mut self, token: &Token, unit: Unit, meter: Meter, pending: &mut Pending, edition: Edition) {
        match token {
            Token::Space => self.line.run.clear(),
            Token::Overlay => {
                self.line.run.clear();
                self.line.voice = (self.line.voice + 1).min(3);
            }
            Token::Broken(broken) => self.broken(*broken),
            Token::Tuplet(tuplet) => {
                let normal = tuplet.normal.unwrap_or(default_normal(tuplet.actual, meter, edition));
                let Tuplet { actual, count, .. } = *tuplet;
                self.line.tuplet = Some((actual, normal, count, count));
            }
            Token::SlurStart => pending.slur_start = true,
            Token::GraceOpen => pending.grace = true,
            Token::GraceClose => pending.grace = false,
            Token::Barline(barline) => self.barline(*barline, meter),
            Token::Ending(passes) => self.measure().volta = Some(Volta { code: 1, passes: passes.clone() }),
            Token::Key(key) => {
                self.set_key(*key);
                self.measure().key = Some(*key);
            }
            Token::Meter(meter) => self.measure().meter = *meter,
            Token::Sound(sound) => self.sound(sound, unit, pending, edition),
            Token::Silent => self.beam_step(),
            Token::Unit(_) | Token::Skipped => {}
        }
    }

    /// "n `>` add n dots to the last note .. and halve the next n times ..; `<` the other way. No last note in the voice and measure: nothing."
    fn broken(&mut self, broken: Broken) {
        if let Some(last) = self.voice().last_mut() {
            lengthen(last, broken.is_dotted, broken.count);
            self.line.broken = Some(broken);
        }
    }

    fn barline(&mut self, barline: Barline, meter: Meter) {
        self.line.run.clear();
        self.line.voice = 0;
        let measure = self.measure();
        // "A barline on a measure without notes only sets its left barline, and that only to 1, 3 or 4; any other leaves it unchanged."
        if measure.is_empty() {
            if matches!(barline.left, 1 | 3 | 4) {
                measure.left = barline.left;
            }
            return;
        }
        measure.right = barline.right;
        if barline.opens {
            self.measures.push(Measure::new(meter, barline.left));
        }
        self.clear_accidentals();
    }

    /// A note, chord or rest is appended; then its beam step; then the half that waits for it.
    fn sound(&mut self, sound: &Sound, unit: Unit, pending: &mut Pending, edition: Edition) {
        let (value, dots) = if sound.is_whole_bar() { (10, 0) } else { written(sound.length, unit) };
        let mut note = Note {
            kind: sound.kind,
            value,
            dots,
            tie_start: sound.is_tied,
            tie_end: false,
            slur_start: false,
            slur_end: sound.ends_slur,
            is_grace: false,
            beam: 0,
            tuplet: (0, 0),
            boundary: 0,
            pitches: sound.pitches.iter().map(|pitch| self.pitch(*pitch)).collect(),
            lyrics: BTreeMap::new(),
        };
        if !note.is_rest() {
            // Of a rest none of the three is asked: they wait for a note.
            note.tie_end = std::mem::replace(&mut pending.tie_end, sound.is_tied);
            note.slur_start = std::mem::take(&mut pending.slur_start);
            note.is_grace = pending.grace;
        }
        if self.line.voice == 0 && takes_words(&note, edition) {
            self.singable += 1;
        }
        self.in_tuplet(&mut note);
        self.voice().push(note);
        self.beam_step();
        if let Some(broken) = self.line.broken.take() {
            let last = self.voice().last_mut().expect("the note");
            lengthen(last, !broken.is_dotted, broken.count);
        }
    }

    /// Rests, graces and chords use up the count as notes do. "boundary (0 none, 1 start, 2 stop, 3 both)"
    fn in_tuplet(&mut self, note: &mut Note) {
        let Some((actual, normal, count, left)) = self.line.tuplet else { return };
        note.tuplet = (actual, normal);
        note.boundary = u8::from(left == count) + 2 * u8::from(left == 1);
        self.line.tuplet = (left > 1).then(|| (actual, normal, count, left - 1));
    }

    /// The step on the voice's last note. "Beams use the length before the next-note half of broken rhythm"; a rest "ends a beam".
    fn beam_step(&mut self) {
        let mut run = std::mem::take(&mut self.line.run);
        let voice = self.voice();
        let Some(last) = voice.len().checked_sub(1) else { return };
        if !voice[last].is_beamable() {
            voice[last].beam = 0;
            return;
        }
        if let Some(before) = run.last() {
            voice[*before].beam = if run.len() == 1 { 1 } else { 2 };
            voice[last].beam = 3;
        }
        run.push(last);
        self.line.run = run;
    }

    /// A written accidental holds to the end of the bar, for its letter in that octave only; else the key's does.
    fn pitch(&mut self, pitch: tokens::Pitch) -> Pitch {
        let scope = &mut self.accidentals[self.line.voice];
        let place = (pitch.step, pitch.octave);
        if let Some(accidental) = pitch.accidental {
            scope.insert(place, accidental);
        }
        let sounds = scope.get(&place).copied().unwrap_or(Accidental { alter: key_alter(self.key, pitch.step), cents: 0 });
        Pitch { step: pitch.step, octave: pitch.octave, sounds }
    }

    // ---- the end ----------------------------------------------------------------------------------------------------

    /// What is left once the text is read.
    pub fn end(&mut self, header_key: Key, edition: Edition) {
        self.drop_empty();
        self.close_endings();
        sing(&mut self.measures, &self.lyric_lines, edition);
        // "The first measure always has a key mark.", "the header's key, whatever the voice hears" (Decision 24).
        if let Some(first) = self.measures.first_mut() {
            first.key.get_or_insert(header_key);
        }
    }

    /// "The empty measure at a part's end is dropped unless it is the only one" (Decision 31).
    fn drop_empty(&mut self) {
        if self.measures.len() > 1 && self.measures.last().is_some_and(Measure::is_empty) {
            self.measures.pop();
        }
    }

    /// "each start's span closes at its first measure with right barline 2, 3 or 5 before the next start, else at the last there; the end carries the start's passes; one measure alone is 3; all others
    /// are left."
    fn close_endings(&mut self) {
        let measures = &mut self.measures;
        let starts: Vec<usize> = (0..measures.len()).filter(|m| measures[*m].volta.is_some()).collect();
        for (i, start) in starts.iter().enumerate() {
            let next = starts.get(i + 1).copied().unwrap_or(measures.len());
            let end = (*start..next).find(|m| matches!(measures[*m].right, 2 | 3 | 5)).unwrap_or(next - 1);
            let mut volta = measures[*start].volta.clone().expect("a start");
            volta.code = if end == *start { 3 } else { 2 };
            measures[end].volta = Some(volta);
        }
    }
}

/// "n `>` add n dots .. and halve the next n times"
fn lengthen(note: &mut Note, with: bool, count: u8) {
    if with {
        note.dots = with_dots(note.dots, count);
    } else {
        note.value = halved(note.value, count);
    }
}

/// The default of q, by the meter in force where the tuplet is written, an inline M before it included.
fn default_normal(actual: u8, meter: Meter, edition: Edition) -> u8 {
    match edition {
        // "Tuplet: default normal 3, 2, 3 for 2, 3, 4, else actual less 1."
        Edition::First => usual_normal(actual),
        // "In these three meters the tuplets of 5, 7 and 9 go in the time of 3; in all others, 3/4 and 3/8 among them, in the time of 2" (T-06);
        // "6 goes in 2 and 8 in 3, others as before" (T-03)
        Edition::Abc21 => match actual {
            5 | 7 | 9 if is_compound(meter) => 3,
            5 | 7 | 9 => 2,
            6 => 2,
            8 => 3,
            _ => usual_normal(actual),
        },
    }
}

fn usual_normal(actual: u8) -> u8 {
    match actual {
        2 => 3,
        3 => 2,
        4 => 3,
        _ => actual - 1,
    }
}

/// "The standard names 6/8, 9/8 and 12/8 only." (T-06)
fn is_compound(meter: Meter) -> bool {
    matches!((meter.top, meter.bottom), (6, 8) | (9, 8) | (12, 8))
}

/// What a key alters a step by: sharps come in the order F C G D A E B, flats the other way round.
fn key_alter(key: Key, step: u8) -> i8 {
    const SHARPS: [u8; 7] = [3, 0, 4, 1, 5, 2, 6];
    let place = SHARPS.iter().position(|sharp| *sharp == step).expect("a step") as i32;
    if place < key.fifths {
        1
    } else if 6 - place < -key.fifths {
        -1
    } else {
        0
    }
}
