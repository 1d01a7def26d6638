//! A thousand small tunes as people write them: a header, one to four voices, measures that fill their meter, repeats with endings, chord names, and lyrics in a third of them.
use oracle::rng::Rng;

pub const COUNT: usize = 1_000;
/// The bytes of the shortest and the longest.
pub const SHORTEST: usize = 139;
pub const LONGEST: usize = 3_030;

const TITLES: &[&str] = &["The Old Mill", "Morning Reel", "Lament for a Friend", "Polka from the Valley", "Wedding March", "Sailor's Farewell", "Spring Song", "The Long Road Home"];
const KEYS: &[&str] = &["C", "G", "D", "A", "F", "Bb", "Am", "Em", "Dm", "Bm", "Ddor", "Amix", "Edor", "Gmaj", "F#m", "Eb"];
const CHORDS: &[&str] = &["C", "G", "D", "Am", "Em", "D7", "G7", "F", "Bm", "A7"];
const SYLLABLES: &[&str] = &["la", "oh", "the", "sun", "ris-es", "mor-ning", "a-way", "sea", "love", "gone", "hal-le", "lu-jah,", "and", "I", "will", "go", "*", "_"];
/// Steps from two octaves, so that a walk over them is a melody.
const NOTES: &[&str] = &["G,", "A,", "B,", "C", "D", "E", "F", "G", "A", "B", "c", "d", "e", "f", "g", "a", "b", "c'"];

struct Tune<'a> {
    r: &'a mut Rng,
    /// Eighths to a measure.
    eighths: usize,
    chord_names: bool,
    place: usize,
}

impl Tune<'_> {
    fn note(&mut self) -> String {
        let next = self.place + self.r.below(5);
        self.place = next.saturating_sub(2).clamp(0, NOTES.len() - 1);
        let sign = if self.r.chance(6) { self.r.pick(&["^", "_", "="]) } else { "" };
        format!("{sign}{}", NOTES[self.place])
    }

    /// A measure and how many syllables can be sung to it.
    fn measure(&mut self) -> (String, usize) {
        let (mut out, mut left, mut sung) = (String::new(), self.eighths, 0);
        if self.chord_names {
            out += &format!("\"{}\"", self.r.pick(CHORDS));
        }
        while left > 0 {
            let (piece, eighths, notes) = match self.r.below(20) {
                0 | 1 if left >= 4 => (format!("{}4", self.note()), 4, 1),
                2..=6 if left >= 2 => (format!("{}2", self.note()), 2, 1),
                7 if left >= 3 => (format!("{}3", self.note()), 3, 1),
                8 if left >= 2 => (format!("z{}", self.r.pick(&["2", ""])), 2, 0),
                9 if left >= 2 => (format!("(3{}{}{}", self.note(), self.note(), self.note()), 2, 3),
                10 | 11 if left >= 2 => (format!("{}{}{}", self.note(), self.r.pick(&[">", "<"]), self.note()), 2, 2),
                12 if left >= 2 => (format!("[{}{}{}]2", self.note(), self.note(), self.note()), 2, 1),
                13 => (format!("{}/{}/", self.note(), self.note()), 1, 2),
                14 if left >= 2 => (format!("({}{})", self.note(), self.note()), 2, 2),
                15 if self.r.chance(30) => (format!("{{{}}}{}", self.note(), self.note()), 1, 1),
                16 if self.r.chance(30) => (format!("{}{}", self.r.pick(&["!trill!", "~", ".", "!fermata!"]), self.note()), 1, 1),
                _ => (self.note(), 1, 1),
            };
            out += &piece;
            left -= eighths;
            sung += notes;
            if left > 0 && left.is_multiple_of(2) && left < self.eighths {
                out.push(' ');
            }
        }
        (out, sung)
    }

    /// A line of measures with its barlines, and its lyric line if it has one.
    fn line(&mut self, measures: usize, repeat: bool, endings: bool, words: bool) -> String {
        let (mut out, mut sung) = (String::from(if repeat { "|:" } else { "" }), 0);
        for at in 0..measures {
            let (measure, notes) = self.measure();
            sung += notes;
            let last = at + 1 == measures;
            out += &match (last, repeat, endings) {
                (true, true, true) => {
                    let (second, more) = self.measure();
                    sung += more;
                    format!("[1 {measure}:|[2 {second}|]")
                }
                (true, true, false) => format!("{measure}:|"),
                (true, false, _) => format!("{measure}{}", self.r.pick(&["|", "||", "|]"])),
                _ => format!("{measure}|"),
            };
        }
        out.push('\n');
        if words {
            out += "w:";
            while sung > 0 {
                let word = self.r.pick(SYLLABLES);
                sung = sung.saturating_sub(1 + word.matches('-').count());
                out += &format!(" {word}");
            }
            out.push('\n');
        }
        out
    }
}

/// Tune `index` as it comes, whatever its length.
fn draft(index: u64, attempt: u64) -> String {
    let mut r = Rng::of(0x7e5 + attempt, index);
    let (meter, eighths) = r.one(&[("4/4", 8), ("4/4", 8), ("6/8", 6), ("3/4", 6), ("2/4", 4), ("C|", 8), ("9/8", 9)]);
    let mut out = format!("X:{}\nT:{} No. {}\n", index + 1, r.pick(TITLES), 1 + r.below(99));
    if r.chance(60) {
        out += r.pick(&["C:Trad.\n", "R:reel\n", "O:Ireland\n", "Q:1/4=120\n", "Z:by ear\n", "N:from memory\n"]);
    }
    out += &format!("M:{meter}\nL:1/8\n");
    let voices = r.one(&[1, 1, 1, 1, 1, 2, 2, 3, 4]);
    let sung = index.is_multiple_of(3);
    // The voices that are declared before the key, as editors write them.
    let declared = voices > 1 && r.chance(40);
    for voice in 1..=voices {
        if declared {
            out += &format!("V:{voice} name=\"Voice {voice}\"{}\n", if voice == voices { " clef=bass" } else { "" });
        }
    }
    out += &format!("K:{}\n", r.pick(KEYS));
    // A few are long.
    let lines = (1 + r.below(9) / voices + r.below(2)) * if r.chance(4) { 3 } else { 1 };
    let mut tune = Tune { eighths, chord_names: r.chance(50), place: 8, r: &mut r };
    for _ in 0..lines {
        let (measures, repeat, endings) = (tune.r.one(&[3, 4, 4, 4, 5, 8]), tune.r.chance(40), tune.r.chance(40));
        for voice in 1..=voices {
            if voices > 1 {
                out += &format!("V:{voice}\n");
            }
            out += &tune.line(measures, repeat, endings, sung && voice == 1);
        }
    }
    out
}

/// The thousand.
pub fn all() -> Vec<String> {
    (0..COUNT as u64).map(|index| (0..).map(|attempt| draft(index, attempt)).find(|tune| (SHORTEST..=LONGEST).contains(&tune.len())).expect("a draft fits")).collect()
}
