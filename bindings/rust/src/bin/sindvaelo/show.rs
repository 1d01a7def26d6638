//! A picture of a reading: an SVG file that needs nothing beside it. It draws what the reading holds, so there is no clef: the G at a staff's left says which line is which.
//!
//! Lengths are in pixels. A staff's lines stand 10 apart; heights count downwards from its lowest line, places on it upwards in steps of 5.
use crate::words;
use sindvaelo::{Barline, BeamState, Duration, Edition, KeySignature, Kind, Lyric, Measure, Note, Part, Pitch, Reading, Syllabic, TimeSignature, TupletBoundary, VoltaKind};
use std::collections::BTreeMap;
use std::fmt::Write;

const WIDTH: f64 = 1240.0;
const LEFT: f64 = 24.0;
/// Where systems end; the counts stand behind it.
const RIGHT: f64 = 1090.0;
/// Half a note head.
const HEAD: f64 = 6.0;
const STEM: f64 = 34.0;
/// Voice 0 and the three overlays.
const COLOURS: [&str; 4] = ["#111", "#1c5fb0", "#1b7d3c", "#9a4d00"];
const FAINT: &str = "#8a8a8a";

/// Text that XML allows.
fn escape(text: &str) -> String {
    let mut out = String::new();
    for c in text.chars() {
        match c {
            '&' => out += "&amp;",
            '<' => out += "&lt;",
            '>' => out += "&gt;",
            '"' => out += "&quot;",
            '\u{0}'..='\u{1f}' => out.push(char::from_u32(0x2400 + c as u32).unwrap_or('\u{fffd}')),
            '\u{7f}'..='\u{9f}' | '\u{fffe}' | '\u{ffff}' => out.push('\u{fffd}'),
            c => out.push(c),
        }
    }
    out
}

/// How wide a text is, about.
fn text_width(text: &str, size: f64) -> f64 {
    let units: f64 = text
        .chars()
        .map(|c| match c {
            'i' | 'j' | 'l' | 't' | 'f' | '.' | ',' | ':' | ';' | '!' | '\'' | '|' | ' ' => 0.33,
            'm' | 'w' | 'M' | 'W' => 0.92,
            c if c.is_ascii_uppercase() => 0.72,
            c if (c as u32) < 0x1100 => 0.56,
            _ => 1.05,
        })
        .sum();
    units * size
}

/// What is drawn of one system, and how high and low it reaches.
struct Canvas {
    out: String,
    top: f64,
    bottom: f64,
}

impl Canvas {
    fn new() -> Self {
        Self { out: String::new(), top: -40.0, bottom: 0.0 }
    }

    fn reach(&mut self, y: f64) {
        self.top = self.top.min(y);
        self.bottom = self.bottom.max(y);
    }

    fn line(&mut self, x1: f64, y1: f64, x2: f64, y2: f64, width: f64, colour: &str) {
        let _ = writeln!(self.out, r#"<line x1="{x1:.1}" y1="{y1:.1}" x2="{x2:.1}" y2="{y2:.1}" stroke="{colour}" stroke-width="{width}"/>"#);
        self.reach(y1);
        self.reach(y2);
    }

    fn rect(&mut self, x: f64, y: f64, w: f64, h: f64, style: &str) {
        let _ = writeln!(self.out, r#"<rect x="{x:.1}" y="{y:.1}" width="{w:.1}" height="{h:.1}" {style}/>"#);
    }

    fn dot(&mut self, x: f64, y: f64, r: f64, style: &str) {
        let _ = writeln!(self.out, r#"<circle cx="{x:.1}" cy="{y:.1}" r="{r}" {style}/>"#);
    }

    /// A path drawn around (0, 0), moved and scaled.
    fn shape(&mut self, d: &str, x: f64, y: f64, scale: f64, style: &str) {
        let _ = writeln!(self.out, r#"<path transform="translate({x:.1} {y:.1}) scale({scale})" d="{d}" {style}/>"#);
    }

    fn path(&mut self, d: &str, style: &str) {
        let _ = writeln!(self.out, r#"<path d="{d}" {style}/>"#);
    }

    fn text(&mut self, x: f64, y: f64, size: f64, anchor: &str, style: &str, text: &str) {
        let _ = writeln!(self.out, r#"<text x="{x:.1}" y="{y:.1}" font-size="{size}" text-anchor="{anchor}" {style}>{}</text>"#, escape(text));
    }
}

fn fill(colour: &str) -> String {
    format!(r#"fill="{colour}""#)
}

// ---- accidentals -----------------------------------------------------------------------------------------------------

/// How many semitones a key signature alters a letter by.
fn in_key(step: i32, fifths: i8) -> i32 {
    // F C G D A E B
    let at = [1, 3, 5, 0, 2, 4, 6][step as usize];
    (i32::from(fifths) + 6 - at).div_euclid(7)
}

fn sharp(c: &mut Canvas, x: f64, y: f64, scale: f64, colour: &str) {
    c.shape("M-1.7 -8V9M1.7 -9V8", x, y, scale, &format!(r#"stroke="{colour}" stroke-width="1.1" fill="none""#));
    c.shape("M-3.8 -1.6L3.8 -3.9M-3.8 4.1L3.8 1.8", x, y, scale, &format!(r#"stroke="{colour}" stroke-width="2.2" fill="none""#));
}

fn flat(c: &mut Canvas, x: f64, y: f64, scale: f64, colour: &str) {
    let style = format!(r#"stroke="{colour}" stroke-width="1.2" fill="none""#);
    c.shape("M-2.6 -13V4.5C0.8 2 3.6 0 3.2 -2.4C2.8 -4.6 -0.8 -4 -2.6 -1.4", x, y, scale, &style);
}

fn natural(c: &mut Canvas, x: f64, y: f64, scale: f64, colour: &str) {
    c.shape("M-2.4 -10V4.4M2.4 -4.4V10", x, y, scale, &format!(r#"stroke="{colour}" stroke-width="1.1" fill="none""#));
    c.shape("M-2.4 -2.6L2.4 -4.2M-2.4 4.2L2.4 2.6", x, y, scale, &format!(r#"stroke="{colour}" stroke-width="2.2" fill="none""#));
}

/// The sign of an alteration, its middle at x.
fn accidental(c: &mut Canvas, alter: i32, x: f64, y: f64, scale: f64, colour: &str) {
    match alter {
        0 => natural(c, x, y, scale, colour),
        1 => sharp(c, x, y, scale, colour),
        -1 => flat(c, x, y, scale, colour),
        2 => c.shape("M-3.2 -3.2L3.2 3.2M-3.2 3.2L3.2 -3.2", x, y, scale, &format!(r#"stroke="{colour}" stroke-width="2.2" fill="none""#)),
        -2 => {
            flat(c, x - 3.2 * scale, y, scale, colour);
            flat(c, x + 3.2 * scale, y, scale, colour);
        }
        n => c.text(x, y + 3.5, 10.0, "middle", &fill(colour), &format!("{n:+}")),
    }
}

// ---- what is laid out ------------------------------------------------------------------------------------------------

/// A pitch on the staff.
#[derive(Clone, Copy)]
struct Head {
    /// Its place, 0 for the lowest line.
    place: i32,
    /// Octaves by which it is drawn lower (or higher, below 0) than it is.
    moved: i32,
    pitch: Pitch,
    /// The sign before it, if it is not what the key says, and how many signs stand between.
    sign: Option<i32>,
    sign_at: usize,
    /// Beside its neighbour, on the stem's other side.
    aside: bool,
}

/// A note or rest of one voice.
struct Event<'a> {
    note: Note<'a>,
    voice: usize,
    column: usize,
    heads: Vec<Head>,
    up: bool,
    scale: f64,
    /// To the right of its column, past another voice's heads.
    shift: f64,
    /// More than one voice in the measure.
    crowded: bool,
    x: f64,
    /// Where the stem ends.
    tip: f64,
}

impl Event<'_> {
    fn is_rest(&self) -> bool {
        self.note.is_rest()
    }

    fn colour(&self) -> &'static str {
        COLOURS[self.voice]
    }

    fn low(&self) -> f64 {
        -5.0 * self.heads.iter().map(|head| head.place).min().unwrap_or(4) as f64
    }

    fn high(&self) -> f64 {
        -5.0 * self.heads.iter().map(|head| head.place).max().unwrap_or(4) as f64
    }

    fn has_stem(&self) -> bool {
        !self.is_rest() && !self.heads.is_empty() && !matches!(self.note.duration(), Duration::Breve | Duration::Whole | Duration::WholeBar)
    }

    /// How many flags or beams its value has.
    fn flags(&self) -> usize {
        match self.note.duration() {
            Duration::Eighth => 1,
            Duration::Sixteenth => 2,
            Duration::ThirtySecond => 3,
            Duration::SixtyFourth => 4,
            Duration::HundredTwentyEighth => 5,
            _ => 0,
        }
    }

    fn stem_x(&self) -> f64 {
        if self.up { self.x + 5.4 * self.scale } else { self.x - 5.4 * self.scale }
    }

    /// The height of what is highest.
    fn roof(&self) -> f64 {
        if self.is_rest() { rest_height(self) - 16.0 } else if self.has_stem() { self.high().min(self.tip) } else { self.high() - 5.0 }
    }
}

#[derive(Default)]
struct Column {
    /// How far its signs reach to the left and its dots and flags to the right.
    left: f64,
    right: f64,
    /// The time until the next one, in wholes.
    time: f64,
    x: f64,
}

struct Bar<'a> {
    number: usize,
    measure: Measure<'a>,
    events: Vec<Event<'a>>,
    columns: Vec<Column>,
    /// The events of each column.
    members: Vec<Vec<usize>>,
    /// The key in force before it.
    key: KeySignature,
    /// The meter, where it is not that of the measure before.
    time: Option<TimeSignature>,
    /// An ending runs over it: its passes where it begins; whether it stops here.
    ending: Option<(Option<String>, bool)>,
    /// What stands before the first note, and all of it.
    prefix: f64,
    width: f64,
    x: f64,
}

/// A note's length in wholes.
fn length(note: &Note, time: TimeSignature) -> f64 {
    if note.is_grace() {
        return 0.0;
    }
    let plain = match note.duration() {
        Duration::Longa => 4.0,
        Duration::Breve => 2.0,
        Duration::Whole => 1.0,
        Duration::Half => 1.0 / 2.0,
        Duration::Quarter => 1.0 / 4.0,
        Duration::Eighth => 1.0 / 8.0,
        Duration::Sixteenth => 1.0 / 16.0,
        Duration::ThirtySecond => 1.0 / 32.0,
        Duration::SixtyFourth => 1.0 / 64.0,
        Duration::HundredTwentyEighth => 1.0 / 128.0,
        Duration::WholeBar if time.denominator > 0 && time.numerator > 0 => f64::from(time.numerator) / f64::from(time.denominator),
        Duration::WholeBar => 1.0,
    };
    let dotted = plain * (2.0 - 0.5f64.powi(note.dot_count().into()));
    note.tuplet().filter(|t| t.actual_notes > 0).map_or(dotted, |t| dotted * f64::from(t.normal_notes) / f64::from(t.actual_notes))
}

/// How wide a barline is drawn.
fn bar_width(barline: Barline) -> f64 {
    match barline {
        Barline::Normal => 0.0,
        Barline::Double => 5.0,
        Barline::Final => 7.0,
        Barline::RepeatStart | Barline::RepeatEnd => 15.0,
        Barline::RepeatBoth => 26.0,
    }
}

/// The signs that a key signature has, at most seven.
fn key_width(key: KeySignature) -> f64 {
    match f64::from(key.fifths.unsigned_abs().min(7)) {
        0.0 => 0.0,
        n => 9.0 * n + 7.0,
    }
}

/// A syllable as it is written, and its size in the picture.
const WORDS: f64 = 14.0;

fn head(pitch: Pitch, octave: i32, key: KeySignature) -> Head {
    let step = pitch.step as i32;
    let mut place = 7 * (i32::from(pitch.octave) - octave) + step - 2;
    let mut moved = 0;
    while place > 19 {
        place -= 7;
        moved += 1;
    }
    while place < -11 {
        place += 7;
        moved -= 1;
    }
    let alter = i32::from(pitch.alter);
    Head { place, moved, pitch, sign: (alter != in_key(step, key.fifths)).then_some(alter), sign_at: 0, aside: false }
}

/// Gives the signs of a column their places: those that are close to one another stand side by side.
fn place_signs(events: &mut [Event], members: &[usize]) {
    let mut signs: Vec<(i32, usize, usize)> = Vec::new();
    for i in members {
        signs.extend(events[*i].heads.iter().enumerate().filter(|(_, head)| head.sign.is_some()).map(|(h, head)| (-head.place, *i, h)));
    }
    signs.sort_unstable();
    let mut taken: Vec<Vec<i32>> = Vec::new();
    for (place, i, h) in signs {
        let at = (0..).find(|at| taken.get(*at).is_none_or(|places| places.iter().all(|other| (other - place).abs() > 5))).unwrap_or(0);
        if taken.len() <= at {
            taken.resize(at + 1, Vec::new());
        }
        taken[at].push(place);
        events[i].heads[h].sign_at = at;
    }
}

/// Lays a measure out by itself.
fn bar<'a>(number: usize, measure: Measure<'a>, octave: i32, key: KeySignature, time: Option<TimeSignature>, ending: Option<(Option<String>, bool)>) -> Bar<'a> {
    let now = measure.key_sig().unwrap_or(key);
    let crowded = (1..4).any(|v| measure.voice_len(v) > 0);
    let mut places: BTreeMap<(i64, i64), Vec<usize>> = BTreeMap::new();
    let mut events = Vec::new();
    let mut end = 0.0f64;
    for voice in 0..4 {
        let notes: Vec<Note> = measure.voice(voice).collect();
        // How many graces there are from each note on before the next plain one.
        let mut graces = vec![0i64; notes.len() + 1];
        for (i, note) in notes.iter().enumerate().rev() {
            graces[i] = if note.is_grace() { graces[i + 1] + 1 } else { 0 };
        }
        let mut at = 0.0;
        for (i, note) in notes.iter().enumerate() {
            places.entry(((at * 1e6f64).round() as i64, -graces[i])).or_default().push(events.len());
            at += length(note, measure.time_sig());
            let mut heads: Vec<Head> = note.pitches().map(|pitch| head(pitch, octave, now)).collect();
            heads.sort_by_key(|head| head.place);
            let far = heads.iter().map(|head| head.place - 4).max_by_key(|far| (far.abs(), *far)).unwrap_or(0);
            let up = if crowded { voice % 2 == 0 } else { note.is_grace() || far < 0 };
            events.push(Event { note: *note, voice, column: 0, heads, up, scale: if note.is_grace() { 0.62 } else { 1.0 }, shift: 0.0, crowded, x: 0.0, tip: 0.0 });
        }
        end = end.max(at);
    }
    // Beamed notes have their stems on one side.
    for group in beams(&events) {
        if !crowded {
            let sum: i32 = group.iter().flat_map(|i| &events[*i].heads).map(|head| head.place - 4).sum();
            let up = events[group[0]].note.is_grace() || sum < 0;
            group.iter().for_each(|i| events[*i].up = up);
        }
    }
    for event in &mut events {
        asides(event);
    }
    let mut columns = Vec::new();
    let starts: Vec<f64> = places.keys().map(|(at, _)| *at as f64 / 1e6).collect();
    for (c, members) in places.values().enumerate() {
        let mut column = Column { left: HEAD, right: HEAD + 2.0, time: starts.get(c + 1).map_or(end, |next| *next) - starts[c], x: 0.0 };
        let mut before: Vec<i32> = Vec::new();
        place_signs(&mut events, members);
        for i in members {
            let event = &mut events[*i];
            event.column = c;
            if event.heads.iter().any(|head| before.iter().any(|place| (place - head.place).abs() <= 1)) {
                event.shift = 12.0;
            }
            before.extend(event.heads.iter().map(|head| head.place));
            let signs = event.heads.iter().filter(|head| head.sign.is_some()).map(|head| head.sign_at + 1).max().unwrap_or(0) as f64;
            let wide = if event.heads.iter().any(|head| head.sign.is_some_and(|sign| sign.abs() > 1)) { 8.0 } else { 0.0 };
            let aside = event.heads.iter().any(|head| head.aside);
            let bar_rest = if event.is_rest() && event.note.duration() == Duration::WholeBar { 14.0 } else { 0.0 };
            let left = (HEAD + bar_rest + signs * 10.0 + wide + if aside && !event.up { 11.0 } else { 0.0 }) * event.scale;
            let dots = 7.0 * f64::from(event.note.dot_count());
            let flags = if event.flags() > 0 && event.up && event.note.beam() == BeamState::None { 9.0 } else { 0.0 };
            let cents = if event.heads.iter().any(|head| head.pitch.microtone_cents != 0) { 24.0 } else { 0.0 };
            let right = event.shift + (HEAD + 2.0 + bar_rest + dots + flags + cents + if aside && event.up { 11.0 } else { 0.0 }) * event.scale;
            column.left = column.left.max(left);
            column.right = column.right.max(right);
        }
        columns.push(column);
    }
    let mut prefix = 6.0 + bar_width(measure.barline_left());
    if measure.key_sig().is_some() {
        prefix += key_width(now);
    }
    if time.is_some() {
        prefix += 20.0;
    }
    let members = places.into_values().collect();
    let mut bar = Bar { number, measure, events, columns, members, key, time, ending, prefix, width: 0.0, x: 0.0 };
    bar.space();
    bar
}

impl Bar<'_> {
    /// Gives each column its place and the measure its width.
    fn space(&mut self) {
        let mut sung: BTreeMap<u8, f64> = BTreeMap::new();
        let mut x = self.prefix;
        let mut end = x;
        for c in 0..self.columns.len() {
            if c == 0 {
                x += self.columns[0].left + 4.0;
            } else {
                let last = &self.columns[c - 1];
                let grace = if self.members[c - 1].iter().any(|i| self.events[*i].note.is_grace()) { 0.7 } else { 1.0 };
                let wanted = (16.0 + 9.0 * (last.time * 32.0 + 1.0).log2()) * grace;
                x = last.x + wanted.max(last.right + self.columns[c].left + 3.0);
            }
            for event in self.members[c].iter().map(|i| &self.events[*i]) {
                for lyric in event.note.lyrics() {
                    let half = text_width(lyric.text, WORDS) / 2.0;
                    x = x.max(sung.get(&lyric.verse).map_or(self.prefix.min(4.0), |end| end + 7.0) + half);
                }
            }
            self.columns[c].x = x;
            end = x + self.columns[c].right + if c + 1 == self.columns.len() { 7.0 * (self.columns[c].time * 8.0 + 1.0).log2() } else { 0.0 };
            for event in self.members[c].iter().map(|i| &self.events[*i]) {
                for lyric in event.note.lyrics() {
                    let hyphen = if matches!(lyric.syllabic, Syllabic::Begin | Syllabic::Middle) { 8.0 } else { 0.0 };
                    sung.insert(lyric.verse, x + text_width(lyric.text, WORDS) / 2.0 + hyphen);
                }
            }
        }
        let sung = sung.values().fold(0.0f64, |most, end| most.max(*end));
        let label = 24.0 + self.measure.key_sig().map_or(0.0, |key| text_width(&words::key(&key), 11.0));
        self.width = (end.max(sung) + 6.0 + bar_width(self.measure.barline_right())).max(44.0).max(label);
    }
}

/// Chord notes beside one another's heads.
fn asides(event: &mut Event) {
    let n = event.heads.len();
    let mut last: Option<(i32, bool)> = None;
    for k in 0..n {
        let i = if event.up { k } else { n - 1 - k };
        let place = event.heads[i].place;
        let aside = last.is_some_and(|(before, was)| (place - before).abs() <= 1 && !was);
        event.heads[i].aside = aside;
        last = Some((place, aside));
    }
}

/// The beamed groups of a measure, each of one voice: two notes or more.
fn beams(events: &[Event]) -> Vec<Vec<usize>> {
    let mut out: Vec<Vec<usize>> = Vec::new();
    for voice in 0..4 {
        for grace in [false, true] {
            let mut open: Vec<usize> = Vec::new();
            for (i, event) in events.iter().enumerate().filter(|(_, event)| event.voice == voice && event.note.is_grace() == grace) {
                match event.note.beam() {
                    BeamState::Begin => out.push(std::mem::replace(&mut open, vec![i])),
                    BeamState::Continue => open.push(i),
                    BeamState::End => {
                        open.push(i);
                        out.push(std::mem::take(&mut open));
                    }
                    BeamState::None => out.push(std::mem::take(&mut open)),
                }
            }
            out.push(open);
        }
    }
    out.retain(|group| group.len() > 1 && group.iter().all(|i| events[*i].has_stem()));
    out
}

// ---- drawing ---------------------------------------------------------------------------------------------------------

fn barline(c: &mut Canvas, kind: Barline, x: f64) {
    let dots = |c: &mut Canvas, x: f64| {
        c.dot(x, -15.0, 2.0, "fill=\"#111\"");
        c.dot(x, -25.0, 2.0, "fill=\"#111\"");
    };
    let thin = |c: &mut Canvas, x: f64| c.line(x, -40.0, x, 0.0, 1.2, "#111");
    let thick = |c: &mut Canvas, x: f64| c.rect(x, -40.0, 3.6, 40.0, "fill=\"#111\"");
    match kind {
        Barline::Normal => thin(c, x),
        Barline::Double => {
            thin(c, x - 4.0);
            thin(c, x);
        }
        Barline::Final => {
            thin(c, x - 6.2);
            thick(c, x - 3.6);
        }
        Barline::RepeatEnd => {
            dots(c, x - 12.0);
            thin(c, x - 6.4);
            thick(c, x - 3.6);
        }
        Barline::RepeatStart => {
            thick(c, x);
            thin(c, x + 6.4);
            dots(c, x + 12.0);
        }
        Barline::RepeatBoth => {
            dots(c, x - 12.0);
            thin(c, x - 6.4);
            thick(c, x - 3.6);
            thin(c, x + 2.8);
            dots(c, x + 8.4);
        }
    }
}

fn key_signs(c: &mut Canvas, key: KeySignature, x: f64, colour: &str) {
    let (places, sharps) = if key.fifths > 0 { ([8, 5, 9, 6, 3, 7, 4], true) } else { ([4, 7, 3, 6, 2, 5, 1], false) };
    for (i, place) in places.iter().take(key.fifths.unsigned_abs().into()).enumerate() {
        let (x, y) = (x + 5.0 + 9.0 * i as f64, -5.0 * f64::from(*place));
        if sharps { sharp(c, x, y, 1.0, colour) } else { flat(c, x, y, 1.0, colour) }
    }
}

/// The height of a rest's middle: each voice of several has its own.
fn rest_height(event: &Event) -> f64 {
    let place = if event.crowded { [8, 0, 13, -5][event.voice] } else { 4 };
    -5.0 * f64::from(place)
}

fn rest(c: &mut Canvas, event: &Event) {
    let (x, y, s) = (event.x, rest_height(event), event.scale);
    let solid = fill(event.colour());
    let hidden = format!(r##"fill="#fff" stroke="{FAINT}" stroke-width="1" stroke-dasharray="2 1.6""##);
    let style = if event.note.hidden() { &hidden } else { &solid };
    let lines = format!(r#"fill="none" stroke="{}" stroke-width="1.6"{}"#, if event.note.hidden() { FAINT } else { event.colour() }, if event.note.hidden() { " stroke-dasharray=\"2 1.6\"" } else { "" });
    c.reach(y - 16.0);
    c.reach(y + 16.0);
    match event.note.duration() {
        Duration::WholeBar => {
            c.rect(x - 16.0, y - 2.8, 32.0, 5.6, style);
            c.path(&format!("M{:.1} {:.1}v16M{:.1} {:.1}v16", x - 16.0, y - 8.0, x + 16.0, y - 8.0), &lines);
        }
        Duration::Longa => c.rect(x - 3.0, y - 10.0, 6.0, 20.0, style),
        Duration::Breve => c.rect(x - 3.0, y - 10.0, 6.0, 10.0, style),
        Duration::Whole => {
            c.rect(x - 6.0, y - 10.0, 12.0, 5.0, style);
            if event.crowded {
                c.line(x - 9.0, y - 10.0, x + 9.0, y - 10.0, 1.0, event.colour());
            }
        }
        Duration::Half => {
            c.rect(x - 6.0, y - 5.0, 12.0, 5.0, style);
            if event.crowded {
                c.line(x - 9.0, y, x + 9.0, y, 1.0, event.colour());
            }
        }
        Duration::Quarter => c.shape("M-3 -14L4.5 -4.5C0.5 -1 1 2 5.5 8C-0.5 5.5 -4.5 8 1 14.5C-8 10 -6.5 2.5 1.5 4.5L-4.8 -3.6C-1 -7 -0.6 -9.5 -3 -14Z", x, y, s, style),
        _ => {
            let flags = event.flags();
            let first = -5.0 * flags as f64;
            let (mut d, dot) = (String::new(), |j: usize| (-4.5 - 2.2 * j as f64, first + 9.0 * j as f64));
            for j in 0..flags {
                let (px, py) = dot(j);
                let _ = write!(d, "M{px:.1} {py:.1}q4 6 {:.1} -2", 9.2);
                c.dot(x + px * s, y + py * s, 2.6 * s, style);
            }
            let _ = write!(d, "M4.7 {:.1}L{:.1} {:.1}", first - 2.4, 4.7 - 2.2 * flags as f64 - 2.0, first + 9.0 * flags as f64 + 8.0);
            c.shape(&d, x, y, s, &lines);
        }
    }
    for i in 0..event.note.dot_count() {
        c.dot(x + 11.0 + 6.0 * f64::from(i), y - 4.0, 1.8, &solid);
    }
}

fn heads(c: &mut Canvas, event: &Event) {
    let (s, colour) = (event.scale, event.colour());
    let aside_left = if !event.up && event.heads.iter().any(|head| head.aside) { 11.0 } else { 0.0 };
    for head in &event.heads {
        let y = -5.0 * f64::from(head.place);
        let x = event.x + if !head.aside { 0.0 } else if event.up { 11.0 * s } else { -11.0 * s };
        c.reach(y - 6.0);
        c.reach(y + 6.0);
        let ledgers = (10..=head.place).step_by(2).chain((head.place..=-2).filter(|place| place % 2 == 0));
        for place in ledgers {
            c.line(x - 10.0 * s, -5.0 * f64::from(place), x + 10.0 * s, -5.0 * f64::from(place), 1.0, "#444");
        }
        let ellipse = |c: &mut Canvas, rx: f64, ry: f64, turn: f64, style: &str| {
            let _ = writeln!(c.out, r#"<ellipse rx="{rx:.1}" ry="{ry:.1}" transform="translate({x:.1} {y:.1}) rotate({turn})" {style}/>"#);
        };
        let open = format!(r##"fill="#fff" stroke="{colour}""##);
        match event.note.duration() {
            Duration::Longa | Duration::Breve | Duration::Whole | Duration::WholeBar => {
                ellipse(c, 6.6 * s, 3.7 * s, 0.0, &format!(r#"{open} stroke-width="{:.1}""#, 2.6 * s));
                if matches!(event.note.duration(), Duration::Longa | Duration::Breve) {
                    for dx in [-11.0, 11.0] {
                        c.line(x + dx * s, y - 7.0 * s, x + dx * s, y + 7.0 * s, 1.6, colour);
                    }
                }
            }
            Duration::Half => ellipse(c, 5.3 * s, 3.5 * s, -24.0, &format!(r#"{open} stroke-width="{:.1}""#, 1.9 * s)),
            _ => ellipse(c, 6.1 * s, 4.3 * s, -22.0, &fill(colour)),
        }
        if let Some(sign) = head.sign {
            accidental(c, sign, event.x - event.shift - (13.0 + aside_left + 10.0 * head.sign_at as f64) * s, y, s.max(0.75), colour);
        }
        let dot_y = if head.place % 2 == 0 { y - 5.0 } else { y };
        let dot_x = event.x + (11.0 + if event.up && event.heads.iter().any(|head| head.aside) { 11.0 } else { 0.0 }) * s;
        for i in 0..event.note.dot_count() {
            c.dot(dot_x + 5.5 * f64::from(i) * s, dot_y, 1.9 * s, &fill(colour));
        }
        if head.pitch.microtone_cents != 0 {
            let dots = 5.5 * f64::from(event.note.dot_count());
            c.text(dot_x + dots, y + 3.0, 9.0, "start", &fill(colour), &format!("{:+}c", head.pitch.microtone_cents));
        }
        if head.moved != 0 {
            let below = head.moved < 0;
            let at = if below { y + 20.0 } else { y - 12.0 };
            c.text(x, at, 10.0, "middle", &fill(colour), &format!("{:+} oct.", head.moved));
            c.reach(at + if below { 4.0 } else { -8.0 });
        }
    }
}

/// A stem's end without a beam.
fn free_tip(event: &Event) -> f64 {
    let s = event.scale;
    let long = (STEM + 8.0 * event.flags().saturating_sub(2) as f64) * s;
    if event.up { (event.high() - long).min(if s < 1.0 { 100.0 } else { -20.0 }) } else { (event.low() + long).max(if s < 1.0 { -100.0 } else { -20.0 }) }
}

fn stem(c: &mut Canvas, event: &Event, flags: bool) {
    let (x, s, colour) = (event.stem_x(), event.scale, event.colour());
    let from = if event.up { event.low() - 1.5 } else { event.high() + 1.5 };
    c.line(x, from, x, event.tip, 1.3, colour);
    if !flags {
        return;
    }
    let way = if event.up { 1.0 } else { -1.0 };
    for i in 0..event.flags() {
        let y = event.tip + way * 8.0 * i as f64 * s;
        let d = format!("M0 0C1 {:.1} 10 {:.1} 7.5 {:.1}C9 {:.1} 3 {:.1} 0 {:.1}Z", 7.0 * way, 10.0 * way, 21.0 * way, 14.0 * way, 10.0 * way, 8.0 * way);
        c.shape(&d, x, y, s, &fill(colour));
    }
}

fn draw_beams(c: &mut Canvas, events: &mut [Event], groups: &[Vec<usize>]) {
    for group in groups {
        let (up, s) = (events[group[0]].up, events[group[0]].scale);
        let colour = events[group[0]].colour();
        let way = if up { -1.0 } else { 1.0 };
        let ends = [group[0], group[group.len() - 1]].map(|i| (events[i].stem_x(), if up { events[i].high() } else { events[i].low() }));
        let slope = if ends[1].0 > ends[0].0 { ((ends[1].1 - ends[0].1) / (ends[1].0 - ends[0].0) * 0.6).clamp(-0.22, 0.22) } else { 0.0 };
        let levels = group.iter().map(|i| events[*i].flags()).max().unwrap_or(1).max(1);
        let long = (28.0 + 6.0 * (levels - 1) as f64) * s;
        // The line through which every stem is long enough.
        let at = |x: f64, base: f64| base + slope * (x - ends[0].0);
        let needed = group.iter().map(|i| {
            let event = &events[*i];
            let edge = if up { event.high() } else { event.low() };
            edge + way * long - slope * (event.stem_x() - ends[0].0)
        });
        let base = if up { needed.fold(f64::INFINITY, f64::min) } else { needed.fold(f64::NEG_INFINITY, f64::max) };
        for i in group {
            let x = events[*i].stem_x();
            events[*i].tip = at(x, base);
        }
        let thick = 4.6 * s;
        let piece = |c: &mut Canvas, x1: f64, x2: f64, level: usize| {
            let off = -way * 7.2 * level as f64 * s;
            let (y1, y2) = (at(x1, base) + off, at(x2, base) + off);
            let t = -way * thick;
            c.path(&format!("M{x1:.1} {y1:.1}L{x2:.1} {y2:.1}V{:.1}L{x1:.1} {:.1}Z", y2 + t, y1 + t), &fill(colour));
            c.reach(y1);
            c.reach(y2);
        };
        for level in 0..levels {
            for (k, i) in group.iter().enumerate() {
                let has = |k: usize| events[group[k]].flags() > level || level == 0;
                if !has(k) {
                    continue;
                }
                let x = events[*i].stem_x();
                if k + 1 < group.len() && has(k + 1) {
                    piece(c, x - 0.6, events[group[k + 1]].stem_x() + 0.6, level);
                } else if k == 0 || !has(k - 1) {
                    // Alone at this level: a stub.
                    let (a, b) = if k + 1 < group.len() { (x, x + 9.0 * s) } else { (x - 9.0 * s, x) };
                    piece(c, a, b, level);
                }
            }
        }
    }
}

/// A curve between two points, bulging up or down.
fn curve(c: &mut Canvas, from: (f64, f64), to: (f64, f64), up: bool, heavy: bool, colour: &str) {
    let way = if up { -1.0 } else { 1.0 };
    let width = to.0 - from.0;
    let bulge = way * (4.0 + width.abs().min(240.0) * if heavy { 0.07 } else { 0.11 }).min(if heavy { 13.0 } else { 26.0 });
    let (x1, x2) = (from.0 + width * 0.25, from.0 + width * 0.75);
    let edge = if up { from.1.min(to.1) } else { from.1.max(to.1) };
    let (y1, y2) = ((from.1 + edge) / 2.0 + bulge, (to.1 + edge) / 2.0 + bulge);
    let back = if heavy { 2.6 * way } else { 1.4 * way };
    let d = format!(
        "M{:.1} {:.1}C{x1:.1} {y1:.1} {x2:.1} {y2:.1} {:.1} {:.1}C{x2:.1} {:.1} {x1:.1} {:.1} {:.1} {:.1}Z",
        from.0,
        from.1,
        to.0,
        to.1,
        y2 - back,
        y1 - back,
        from.0,
        from.1
    );
    c.path(&d, &format!(r#"fill="{colour}" stroke="{colour}" stroke-width="0.6""#));
    c.reach(edge + bulge);
}

/// A note in its place: which system, which measure of it, which event.
type Place = (usize, usize, usize);

/// Where a curve begins and ends.
struct Curve {
    from: Option<Place>,
    to: Option<Place>,
    tie: bool,
}

/// Ties and slurs of a part: each begins where the reading says so and ends at the next end in its voice. An end or a beginning without the other is drawn open.
fn curves(systems: &[Vec<Bar>]) -> Vec<Curve> {
    let mut out = Vec::new();
    for voice in 0..4 {
        let (mut tie, mut slurs): (Option<Place>, Vec<Place>) = (None, Vec::new());
        for (s, bars) in systems.iter().enumerate() {
            for (b, bar) in bars.iter().enumerate() {
                for (e, event) in bar.events.iter().enumerate().filter(|(_, event)| event.voice == voice) {
                    let here = (s, b, e);
                    if event.note.tie_end() {
                        out.push(Curve { from: tie.take(), to: Some(here), tie: true });
                    }
                    if event.note.tie_start() {
                        out.extend(tie.replace(here).map(|from| Curve { from: Some(from), to: None, tie: true }));
                    }
                    // A slur may begin and end at one note: the end is of an earlier one.
                    if event.note.slur_end() {
                        out.push(Curve { from: slurs.pop(), to: Some(here), tie: false });
                    }
                    if event.note.slur_start() {
                        slurs.push(here);
                    }
                }
            }
        }
        out.extend(tie.map(|from| Curve { from: Some(from), to: None, tie: true }));
        out.extend(slurs.into_iter().map(|from| Curve { from: Some(from), to: None, tie: false }));
    }
    out
}

/// The height at which a curve meets a note, and on which side.
fn meets(event: &Event, tie: bool) -> (f64, bool) {
    let up = if event.crowded { event.voice.is_multiple_of(2) } else { !event.up };
    let y = if event.is_rest() {
        rest_height(event) + if up { -14.0 } else { 14.0 }
    } else if up {
        let edge = if event.up && event.has_stem() && !tie { event.tip } else { event.high() };
        edge - if tie { 6.0 } else { 8.0 }
    } else {
        let edge = if !event.up && event.has_stem() && !tie { event.tip } else { event.low() };
        edge + if tie { 6.0 } else { 8.0 }
    };
    (y, up)
}

fn draw_curves(c: &mut Canvas, system: usize, systems: &[Vec<Bar>], all: &[Curve]) {
    let at = |place: Place| &systems[place.0][place.1].events[place.2];
    let bounds = |s: usize| (systems[s][0].x + systems[s][0].prefix, systems[s].last().map_or(RIGHT, |bar| bar.x + bar.width));
    for Curve { from, to, tie } in all {
        let here = |place: &Option<Place>| place.filter(|place| place.0 == system);
        let (gap, open) = if *tie { (4.0, 22.0) } else { (0.0, 26.0) };
        match (here(from), here(to)) {
            (Some(from), Some(to)) => {
                let (a, b) = (at(from), at(to));
                let held: Vec<i32> = a.heads.iter().map(|head| head.place).filter(|place| b.heads.iter().any(|head| head.place == *place)).collect();
                if *tie && held.len() > 1 {
                    // A chord's notes each have a tie, the lower half below.
                    for (i, place) in held.iter().enumerate() {
                        let up = 2 * i + 1 > held.len() || (2 * i + 1 == held.len() && !a.up);
                        let y = -5.0 * f64::from(*place) + if up { -3.0 } else { 3.0 };
                        curve(c, (a.x + 8.0, y), (b.x - 8.0, y), up, true, a.colour());
                    }
                    continue;
                }
                let (ya, up) = meets(a, *tie);
                let (yb, _) = meets(b, *tie);
                // Both ends on the first one's side.
                let yb = if meets(b, *tie).1 == up { yb } else if up { b.roof() - 6.0 } else { b.low() + 8.0 };
                curve(c, (a.x + gap, ya), (b.x - gap, yb), up, *tie, a.colour());
            }
            (Some(from), None) => {
                let a = at(from);
                let (y, up) = meets(a, *tie);
                // To the end of the line where it goes on, a short open one where it does not end.
                let end = if to.is_some() { bounds(system).1 } else { a.x + open };
                curve(c, (a.x + gap, y), (end.max(a.x + 14.0), y), up, *tie, a.colour());
            }
            (None, Some(to)) => {
                let b = at(to);
                let (y, up) = meets(b, *tie);
                let start = if from.is_some() { bounds(system).0 - 4.0 } else { b.x - open };
                curve(c, (start.min(b.x - 14.0), y), (b.x - gap, y), up, *tie, b.colour());
            }
            (None, None) => {}
        }
    }
}

/// Brackets over the tuplets of a measure, each voice's own; one that goes over a barline is open there.
fn tuplets(c: &mut Canvas, events: &[Event]) {
    for voice in 0..4 {
        let mine: Vec<&Event> = events.iter().filter(|event| event.voice == voice && !event.note.is_grace()).collect();
        let mut open: Vec<&Event> = Vec::new();
        let mut draw = |group: &[&Event]| {
            let (Some(first), Some(last)) = (group.first(), group.last()) else { return };
            let below = first.crowded && voice % 2 == 1;
            let starts = matches!(first.note.tuplet_boundary(), Some(TupletBoundary::Start | TupletBoundary::StartStop));
            let stops = matches!(last.note.tuplet_boundary(), Some(TupletBoundary::Stop | TupletBoundary::StartStop));
            let y = if below {
                group.iter().map(|event| event.low().max(event.tip) + 12.0).fold(14.0, f64::max)
            } else {
                group.iter().map(|event| event.roof() - 9.0).fold(-50.0, f64::min)
            };
            let (x1, x2) = (first.x - 7.0, last.x + 7.0);
            let hook = if below { -5.0 } else { 5.0 };
            let info = first.note.tuplet().map_or(String::new(), |t| format!("{}:{}", t.actual_notes, t.normal_notes));
            let (middle, half) = ((x1 + x2) / 2.0, text_width(&info, 11.0) / 2.0 + 2.0);
            let colour = first.colour();
            let mut d = String::new();
            let _ = if starts { write!(d, "M{x1:.1} {:.1}V{y:.1}", y + hook) } else { write!(d, "M{x1:.1} {y:.1}") };
            let _ = write!(d, "H{:.1}M{:.1} {y:.1}H{x2:.1}", (middle - half).max(x1), (middle + half).min(x2));
            if stops {
                let _ = write!(d, "V{:.1}", y + hook);
            }
            c.path(&d, &format!(r#"fill="none" stroke="{colour}" stroke-width="1""#));
            c.text(middle, y + 4.0, 11.0, "middle", &format!(r#"{} font-style="italic""#, fill(colour)), &info);
            c.reach(y - 5.0);
            c.reach(y + 8.0);
        };
        for event in mine {
            let boundary = event.note.tuplet_boundary();
            if event.note.tuplet().is_none() || matches!(boundary, Some(TupletBoundary::Start | TupletBoundary::StartStop)) {
                draw(&std::mem::take(&mut open));
            }
            if event.note.tuplet().is_some() {
                open.push(event);
            }
            if matches!(boundary, Some(TupletBoundary::Stop | TupletBoundary::StartStop)) {
                draw(&std::mem::take(&mut open));
            }
        }
        draw(&open);
    }
}

/// A syllable in its place.
struct Sung<'a> {
    x: f64,
    lyric: Lyric<'a>,
}

/// The verses below a system.
fn lyrics(c: &mut Canvas, bars: &[Bar], verses: &[u8], end: f64) {
    let first = c.bottom.max(8.0) + 20.0;
    let is_sung = |verse: u8| bars.iter().any(|bar| bar.measure.notes().any(|note| note.lyrics().any(|lyric| lyric.verse == verse)));
    for (row, verse) in verses.iter().filter(|verse| is_sung(**verse)).enumerate() {
        let y = first + 18.0 * row as f64;
        let mut sung: Vec<Sung> = Vec::new();
        let mut notes: Vec<f64> = Vec::new();
        for event in bars.iter().flat_map(|bar| &bar.events).filter(|event| event.voice == 0 && !event.is_rest()) {
            notes.push(event.x);
            sung.extend(event.note.lyrics().filter(|lyric| lyric.verse == *verse).map(|lyric| Sung { x: event.x, lyric }));
        }
        if verses.len() > 1 {
            c.text(LEFT + 16.0, y, 11.0, "end", &fill(FAINT), &format!("{verse}."));
        }
        for (i, Sung { x, lyric }) in sung.iter().enumerate() {
            let half = text_width(lyric.text, WORDS) / 2.0;
            c.text(*x, y, WORDS, "middle", "fill=\"#111\"", lyric.text);
            let next = sung.get(i + 1).map_or(end, |next| next.x - text_width(next.lyric.text, WORDS) / 2.0);
            if matches!(lyric.syllabic, Syllabic::Begin | Syllabic::Middle) {
                c.text((x + half + next) / 2.0, y, WORDS, "middle", "fill=\"#111\"", "-");
            }
            if lyric.extend {
                // Held on until the note before the next syllable.
                let next_x = sung.get(i + 1).map_or(f64::INFINITY, |next| next.x);
                let last = notes.iter().copied().filter(|note| *note < next_x).fold(*x, f64::max) + HEAD;
                let stop = last.max(x + half + 10.0).min(next - 2.0);
                c.line(x + half + 2.0, y + 1.0, stop.max(x + half + 6.0), y + 1.0, 1.1, "#111");
            }
        }
        c.reach(y + 4.0);
    }
}

/// What stands before the first measure of a system: the G and the key in force.
fn opening(key: KeySignature, first: bool) -> f64 {
    24.0 + if first { 0.0 } else { key_width(key) }
}

/// Breaks the measures of a part into systems and gives each its place.
fn systems(bars: Vec<Bar>) -> Vec<Vec<Bar>> {
    let mut out: Vec<Vec<Bar>> = Vec::new();
    let mut used = 0.0;
    for bar in bars {
        let begins = out.is_empty() || used + bar.width > RIGHT - LEFT;
        if begins {
            used = opening(bar.key, out.is_empty());
            out.push(Vec::new());
        }
        used += bar.width;
        if let Some(last) = out.last_mut() {
            last.push(bar);
        }
    }
    let count = out.len();
    for (s, bars) in out.iter_mut().enumerate() {
        let start = LEFT + opening(bars[0].key, s == 0);
        let wide: f64 = bars.iter().map(|bar| bar.width).sum();
        let fixed: f64 = bars.iter().map(|bar| bar.prefix).sum();
        let factor = (RIGHT - start - fixed) / (wide - fixed);
        // The last line is not drawn out, and a lone long measure is pressed together no further than it has to be.
        let factor = if s + 1 == count && factor > 1.35 { 1.0f64.max(factor.min(1.12)) } else { factor.max(1.0) };
        let mut x = start;
        for bar in bars {
            bar.x = x;
            for column in &mut bar.columns {
                column.x = x + bar.prefix + (column.x - bar.prefix) * factor;
            }
            bar.width = bar.prefix + (bar.width - bar.prefix) * factor;
            for event in &mut bar.events {
                event.x = bar.columns[event.column].x + event.shift;
            }
            // A rest for the whole bar stands in its middle.
            for event in &mut bar.events {
                if event.note.duration() == Duration::WholeBar && event.note.kind() != Kind::Note && bar.measure.voice_len(event.voice) == 1 {
                    event.x = x + (bar.prefix + bar.width) / 2.0;
                }
            }
            x += bar.width;
        }
    }
    out
}

/// Draws one system; its canvas has the lowest line at height 0.
fn system(at: usize, all: &mut [Vec<Bar>], ties: &[Curve], octave: i32, verses: &[u8]) -> (Canvas, f64) {
    let mut c = Canvas::new();
    let end = all[at].last().map_or(RIGHT, |bar| bar.x + bar.width);
    for line in 0..5 {
        c.line(LEFT + 20.0, -10.0 * f64::from(line), end, -10.0 * f64::from(line), 0.8, "#666");
    }
    c.text(LEFT + 16.0, -6.5, 11.0, "end", &format!(r#"{} font-style="italic""#, fill(FAINT)), &format!("G{octave}"));
    if at > 0 {
        key_signs(&mut c, all[at][0].key, LEFT + 24.0, FAINT);
    }
    let lefts: Vec<Barline> = all[at].iter().map(|bar| bar.measure.barline_left()).skip(1).collect();
    let mut before = None;
    for (b, bar) in all[at].iter_mut().enumerate() {
        let mut x = bar.x;
        let left = bar.measure.barline_left();
        // What both measures say of one barline is drawn once; a repeat that ends where the next begins shares its thick line.
        if (before, left) == (Some(Barline::RepeatEnd), Barline::RepeatStart) {
            c.line(x + 2.8, -40.0, x + 2.8, 0.0, 1.2, "#111");
            c.dot(x + 8.4, -15.0, 2.0, "fill=\"#111\"");
            c.dot(x + 8.4, -25.0, 2.0, "fill=\"#111\"");
        } else if left != Barline::Normal && before != Some(left) {
            let in_front = match left {
                Barline::RepeatBoth => 14.0,
                Barline::Double => 4.0,
                Barline::Final => 7.0,
                Barline::RepeatEnd => 15.0,
                _ => 0.0,
            };
            barline(&mut c, left, x + in_front);
        }
        x += 4.0 + bar_width(left);
        if let Some(key) = bar.measure.key_sig() {
            key_signs(&mut c, key, x, "#111");
            x += key_width(key);
        }
        if let Some(time) = bar.time {
            for (y, number) in [(-22.5, time.numerator), (-2.5, time.denominator)] {
                c.text(x + 8.0, y, 22.0, "middle", r##"font-weight="bold" fill="#111""##, &number.to_string());
            }
        }
        let right = bar.measure.barline_right();
        let end = bar.x + bar.width;
        let next = lefts.get(b).copied();
        if right != Barline::Normal || next.is_none_or(|left| left == Barline::Normal) {
            barline(&mut c, right, if right == Barline::RepeatStart { end - 15.0 } else if right == Barline::RepeatBoth { end - 12.0 } else { end });
        }
        before = Some(right);
        let groups = beams(&bar.events);
        for event in &mut bar.events {
            event.tip = free_tip(event);
        }
        draw_beams(&mut c, &mut bar.events, &groups);
        let mut beamed = vec![false; bar.events.len()];
        groups.iter().flatten().for_each(|i| beamed[*i] = true);
        for (i, event) in bar.events.iter().enumerate() {
            if event.is_rest() {
                rest(&mut c, event);
                continue;
            }
            if event.has_stem() {
                stem(&mut c, event, !beamed[i]);
            }
            heads(&mut c, event);
            if event.note.is_grace() && !beamed[i] && event.has_stem() {
                // A grace note that stands alone has a stroke through its stem.
                let (x, y) = (event.stem_x(), (event.tip + if event.up { event.high() } else { event.low() }) / 2.0);
                c.line(x - 5.0, y + 3.0, x + 6.0, y - 4.0, 1.0, event.colour());
            }
        }
        tuplets(&mut c, &bar.events);
    }
    draw_curves(&mut c, at, all, ties);
    let bars = &all[at];
    // Above all that: endings, then the measures' numbers and keys.
    let mut row = c.top - 8.0;
    if bars.iter().any(|bar| bar.ending.is_some()) {
        row = row.min(-58.0);
        for bar in bars {
            let Some((passes, stops)) = &bar.ending else { continue };
            let (x1, x2) = (bar.x + 2.0, bar.x + bar.width - if *stops { 3.0 } else { 0.0 });
            let mut d = String::new();
            let _ = if passes.is_some() { write!(d, "M{x1:.1} {:.1}V{:.1}H{x2:.1}", row + 6.0, row - 10.0) } else { write!(d, "M{:.1} {:.1}H{x2:.1}", bar.x, row - 10.0) };
            if *stops {
                let _ = write!(d, "V{:.1}", row + 6.0);
            }
            c.path(&d, r##"fill="none" stroke="#111" stroke-width="1.2""##);
            if let Some(passes) = passes {
                c.text(x1 + 5.0, row + 3.0, 12.0, "start", r##"font-weight="bold" fill="#111""##, &format!("{passes}."));
            }
        }
        row -= 16.0;
    }
    for bar in bars {
        c.text(bar.x + 3.0, row, 10.0, "start", &fill(FAINT), &bar.number.to_string());
        if let Some(key) = bar.measure.key_sig() {
            let x = bar.x + 8.0 + text_width(&bar.number.to_string(), 10.0);
            c.text(x, row, 11.0, "start", r##"fill="#111" font-style="italic""##, &words::key(&key));
        }
    }
    c.reach(row - 10.0);
    lyrics(&mut c, bars, verses, end);
    (c, end)
}

/// The octave whose G the second line is, so that most notes of the part are near the staff.
fn octave(part: &Part) -> i32 {
    let mut places: Vec<i32> = part.pitches().map(|pitch| 7 * i32::from(pitch.octave) + pitch.step as i32).collect();
    places.sort_unstable();
    let middle = places.get(places.len() / 2).copied().unwrap_or(34);
    4 + (f64::from(middle - 34) / 7.0).round() as i32
}

/// A part's picture below a height, and how low and wide it is.
fn part(number: usize, part: &Part, y: f64) -> (String, f64, f64) {
    let octave = octave(part);
    let mut key = KeySignature { fifths: 0, mode: sindvaelo::Mode::Major };
    let (mut time, mut ending): (Option<TimeSignature>, bool) = (None, false);
    let mut bars = Vec::new();
    for (i, measure) in part.measures().enumerate() {
        let changed = (time != Some(measure.time_sig())).then_some(measure.time_sig());
        time = Some(measure.time_sig());
        let volta = measure.volta();
        let begins = volta.filter(|volta| volta.kind != VoltaKind::End).map(|volta| words::passes(&volta));
        let stops = volta.is_some_and(|volta| volta.kind != VoltaKind::Begin);
        let over = (begins.is_some() || stops || ending).then_some((begins.clone(), stops));
        ending = (begins.is_some() || ending) && !stops;
        bars.push(bar(i + 1, measure, octave, key, changed, over));
        key = measure.key_sig().unwrap_or(key);
    }
    let mut verses: Vec<u8> = part.lyrics().map(|lyric| lyric.verse).collect();
    verses.sort_unstable();
    verses.dedup();
    let mut out = String::new();
    let mut y = y;
    let _ = writeln!(out, r##"<text x="{LEFT}" y="{:.1}" font-size="16" font-weight="bold" fill="#111">part {number}</text>"##, y + 16.0);
    y += 24.0;
    let mut all = systems(bars);
    let ties = curves(&all);
    let (mut last, mut wide) = ((LEFT, y), RIGHT);
    for at in 0..all.len() {
        let (c, end) = system(at, &mut all, &ties, octave, &verses);
        let line = y - c.top + 4.0;
        let _ = writeln!(out, "<g transform=\"translate(0 {line:.1})\">\n{}</g>", c.out);
        last = (end, line);
        wide = wide.max(end);
        y = line + c.bottom + 18.0;
    }
    let counts = words::count(part);
    let rows = [("measures", counts.measures), ("sounded", counts.sounded), ("rests", counts.rests), ("syllables", counts.syllables)];
    let top = if all.is_empty() { y + 30.0 } else { last.1 - 32.0 };
    for (i, (name, number)) in rows.iter().enumerate() {
        let row = top + 15.0 * i as f64;
        let _ = writeln!(out, r##"<text x="{:.1}" y="{row:.1}" font-size="13" fill="#111">{name}</text>"##, last.0 + 18.0);
        let _ = writeln!(out, r##"<text x="{:.1}" y="{row:.1}" font-size="13" font-weight="bold" text-anchor="end" fill="#111">{number}</text>"##, last.0 + 138.0);
    }
    (out, y.max(top + 60.0), wide + WIDTH - RIGHT)
}

/// The whole picture.
pub fn picture(reading: &Reading<&[u8]>, edition: Edition) -> String {
    let mut body = String::new();
    let (mut y, mut wide) = (10.0, WIDTH);
    for (i, each) in reading.parts().enumerate() {
        let (out, end, reaches) = part(i + 1, &each, y);
        body += &out;
        wide = wide.max(reaches);
        y = end + 14.0;
    }
    let mut legend = String::from("numbers above: measures. thick curves: ties; thin ones: slurs. small: grace notes. dashed: hidden rests. ");
    for (voice, colour) in COLOURS.iter().enumerate().skip(1) {
        if reading.parts().any(|part| part.measures().any(|measure| measure.voice_len(voice) > 0)) {
            let _ = write!(legend, "<tspan fill=\"{colour}\">overlay {voice}</tspan> ");
        }
    }
    let _ = writeln!(body, r#"<text x="{LEFT}" y="{:.1}" font-size="11" fill="{FAINT}">{legend}</text>"#, y + 8.0);
    let _ = writeln!(body, r##"<text x="{LEFT}" y="{:.1}" font-size="12" fill="#111">{}</text>"##, y + 26.0, escape(&words::read_by(edition)));
    y += 40.0;
    format!(
        "<?xml version=\"1.0\" encoding=\"UTF-8\"?>\n<svg xmlns=\"http://www.w3.org/2000/svg\" width=\"{wide:.0}\" height=\"{y:.0}\" viewBox=\"0 0 {wide:.0} {y:.0}\" \
         font-family=\"Georgia, 'DejaVu Serif', 'Times New Roman', serif\">\n<rect width=\"100%\" height=\"100%\" fill=\"#fff\"/>\n{body}</svg>\n"
    )
}
