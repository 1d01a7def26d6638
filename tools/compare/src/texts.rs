//! The texts of the benchmark. Most are adversarial: each has one thing in every byte that it can have it, so that no part of the reader hides behind the others.
//! The same bytes on every machine; tools/figures.tsv holds what each of them takes.
use crate::tunes;
use oracle::generate;

/// How long a text is that may have any length.
pub const USUAL: usize = 20_000;

pub struct Text {
    pub name: &'static str,
    pub about: &'static str,
    /// A text of about so many bytes; none if it has the one length.
    pub longer: Option<fn(usize) -> String>,
    make: fn() -> Vec<String>,
}

impl Text {
    /// The texts measured as one: one, but for the tunes.
    pub fn texts(&self) -> Vec<String> {
        (self.make)()
    }
}

fn head(fields: &str) -> String {
    format!("X:1\n{fields}K:C\n")
}

/// `lines` over and over, to about the usual length and at most 10,000 lines.
fn repeated(head: String, lines: &str) -> String {
    sized(head, lines, USUAL)
}

fn sized(head: String, lines: &str, bytes: usize) -> String {
    let each = lines.matches('\n').count();
    let most = (10_000 - head.matches('\n').count()) / each.max(1);
    let wanted = bytes.saturating_sub(head.len()).div_ceil(lines.len());
    head + &lines.repeat(if each == 0 { wanted } else { wanted.min(most) })
}

const STEPS: &str = "ABCDEFGabcdefg";

/// Each step with a sharp, `marks` octave marks behind it: commas behind capitals, else by `small`.
fn sharps(marks: usize, capital: &str, small: &str) -> String {
    STEPS.chars().map(|step| format!("^{step}{}", if step.is_uppercase() { capital } else { small }.repeat(marks))).collect()
}

/// One measure with an accidental on each step of many octaves, then notes that have to look for theirs.
fn chain(octaves: usize, notes: usize) -> String {
    let signs: String = (0..octaves).map(|octave| sharps(octave, ",", "'")).collect();
    format!("{}{signs}{}\n", head(""), "A".repeat(notes))
}

/// 112 accidentals, eight octaves of them.
fn octaves() -> String {
    (0..4).map(|marks| sharps(marks, ",", ",")).chain((1..5).map(|marks| sharps(marks, "'", "'"))).collect()
}

/// A note of each of the forty written values under the unit 1/8, the longest first.
fn forty() -> String {
    let note = |(i, step): (usize, char)| {
        let (value, dots) = (i / 4, 3 - i % 4);
        // In 1024ths of a whole note, of which the unit has 128: a power of 2 is all that they share.
        let size: u32 = (4096 >> (value + dots)) * ((2 << dots) - 1);
        let shared = size.trailing_zeros().min(7);
        format!("{step}{}/{}", size >> shared, 128 >> shared)
    };
    STEPS.chars().cycle().take(40).enumerate().map(note).collect()
}

fn lyrics(bytes: usize) -> String {
    sized("X:1\nL:1/8\nK:D\n".into(), "ABcd efga|\nw: la la hal-le lu-jah oh day\nw: eins zwei drei vier fünf sechs sie-ben\nw: un deux trois _ * qua-tre\n", bytes)
}

fn lines(bytes: usize) -> String {
    sized("X:1\nL:1/8\nK:D\n".into(), "A|\n", bytes)
}

/// As far as 100,000 notes go.
fn plain(bytes: usize) -> String {
    let tune = "|:G2 BG dGBG|A2 cA eAcA|B2 gB d2 ^cd|e2 dB A3 z|\nG2 BG dGBG|A2 cA eAcA|(3Bcd g2 fdcA|G4 G2:|\n";
    sized("X:1\nT:Plain\nM:4/4\nL:1/8\nK:G\n".into(), tune, bytes.min(150_000))
}

/// Voices in turn, a line of music each, so many lines in all.
fn voices(count: usize, lines: usize, name: impl Fn(usize) -> String) -> String {
    (0..lines).fold(head(""), |text, i| text + &format!("V:{}\nA|\n", name(i % count)))
}

/// All music of two voices first, then all of their lyrics.
fn apart() -> String {
    let lines = 120;
    let music = |voice| format!("V:{voice}\n{}", "ABcd efga|\n".repeat(lines));
    let words = |voice| format!("V:{voice}\n{}", "ABcd|\nw: la le li lo\n".repeat(lines) + &"w: eins zwei drei vier fuenf\n".repeat(lines));
    format!("{}{}{}{}{}", head("L:1/8\n"), music(1), music(2), words(1), words(2))
}

fn one(text: String) -> Vec<String> {
    vec![text]
}

fn big(kind: &str, bytes: usize) -> String {
    generate::big(kind, bytes).expect("a kind of big tune")
}

/// Texts whose bytes are passed over, most of them: what the contract has cleared for each byte is more than the Rust does with it.
pub const PASSED_OVER: &[&str] = &["foreign", "title", "comment", "comments"];

/// Every text, the plain tune first.
pub const TEXTS: &[Text] = &[
    Text { name: "plain", about: "a reel, one voice", longer: Some(plain), make: || one(plain(USUAL)) },
    Text { name: "tunes", about: "1,000 small tunes, each a call", longer: None, make: tunes::all },
    Text { name: "a", about: "four voices with lyrics", longer: Some(|n| big("a", n)), make: || one(big("a", USUAL)) },
    Text { name: "b", about: "one line of notes", longer: Some(|n| big("b", n)), make: || one(big("b", USUAL)) },
    Text { name: "c", about: "one voice of many lines", longer: Some(|n| big("c", n)), make: || one(big("c", USUAL)) },
    Text { name: "d", about: "one line of chords", longer: Some(|n| big("d", n)), make: || one(big("d", USUAL)) },
    Text { name: "lyrics", about: "three lyric lines for each of music", longer: Some(lyrics), make: || one(lyrics(USUAL)) },
    Text { name: "lines", about: "short lines", longer: Some(lines), make: || one(lines(USUAL)) },
    Text { name: "letters", about: "one line of bare letters", longer: None, make: || one(repeated(head(""), "CDEFGABcdefgab") + "\n") },
    Text { name: "lengths", about: "notes with lengths", longer: None, make: || one(repeated(head(""), "A3/2B/c7/4d// e2f3/8g15/8a/4|") + "\n") },
    Text { name: "values", about: "each of the forty written values", longer: None, make: || one(repeated(head(""), &(forty() + "|")) + "\n") },
    Text { name: "odd", about: "lengths between two values, for which all forty are tried", longer: None, make: || one(repeated(head(""), "A5B9c5d9e5f9g5a9|") + "\n") },
    Text { name: "rests", about: "rests of each kind", longer: None, make: || one(repeated(head(""), "zz2x/z3/2 Zx4zX|") + "\n") },
    Text { name: "units", about: "L lines, each with a line of music", longer: None, make: || one(repeated(head(""), "L:1/16\nA2B|\nL:1/4\nc/d|\n")) },
    Text {
        name: "beside",
        about: "chord names, decorations, grace notes, ties and slurs",
        longer: None,
        make: || one(repeated(head(""), "\"Am\"A!trill!B{ga}c~d|(e>f g)a-|a.b \"^text\"!p!c(3def|") + "\n"),
    },
    Text { name: "chain20", about: "20 octaves of accidentals in a measure, then notes", longer: None, make: || one(chain(20, 6_000)) },
    Text { name: "chain", about: "60 octaves of accidentals in a measure, then notes", longer: None, make: || one(chain(60, 30_000)) },
    Text { name: "signs2", about: "112 accidentals over and over, one measure", longer: None, make: || one(head("") + &octaves().repeat(100) + "\n") },
    Text {
        name: "overlaid",
        about: "many accidentals in each of four voices of a measure",
        longer: None,
        make: || one(repeated(head(""), &(0..4).map(|v| octaves()[..150 + v].to_string() + "A & ").collect::<String>()) + "A|\n"),
    },
    Text { name: "overlays", about: "overlays, decorations, endings", longer: None, make: || one(head("") + &"ABcd & efga|\"Am\"A!trill!B {g}c ~d|A2B2 & z4|[1 ABcd:|[2 A2B2|]\n".repeat(400)) },
    Text { name: "fields", about: "inline K, M and L in each line", longer: None, make: || one(head("") + &"[K:G]ABcd efga|[M:3/4]ABcd [L:1/16]efga|[1 ABcd:|[2 A2B2|]\n".repeat(400)) },
    Text { name: "verses40", about: "40 verses to each line of music", longer: None, make: || one(head("") + &("ABcd|\n".to_string() + &"w:a b c d\n".repeat(40)).repeat(243)) },
    Text { name: "verses400", about: "400 lyric lines to one line of music", longer: None, make: || one(format!("{}{}\n{}", head(""), "ABcd".repeat(25), format!("w:{}\n", " a".repeat(100)).repeat(400))) },
    Text { name: "apart", about: "two voices, their lyrics behind all music", longer: None, make: || one(apart()) },
    Text { name: "voices32", about: "32 voices in turn, a line each", longer: None, make: || one(voices(32, 4_990, |i| i.to_string())) },
    Text { name: "voices1", about: "the same lines in one voice", longer: None, make: || one(voices(1, 4_990, |i| i.to_string())) },
    Text { name: "named", about: "32 voices whose long names begin alike", longer: None, make: || one(voices(32, 320, |i| format!("{}{i} name=\"Voice {i}\" clef=treble", "x".repeat(60)))) },
    Text { name: "spaces", about: "spaces between two notes", longer: None, make: || one(repeated(head("") + "A", " ") + "B\n") },
    Text { name: "skipped", about: "bytes in music that mean nothing", longer: None, make: || one(repeated(head("") + "A", "y$#*;@?") + "\n") },
    Text { name: "bars", about: "one note, then barlines", longer: None, make: || one(repeated(head("") + "A", "|") + "\n") },
    Text { name: "chord", about: "one chord of thousands of pitches", longer: None, make: || one(repeated(head("") + "[", STEPS) + "]\n") },
    Text { name: "empty", about: "empty chords", longer: None, make: || one(repeated(head("") + "A", "[]") + "\n") },
    Text { name: "tuplets", about: "tuplet marks, each in the place of the one before", longer: None, make: || one(repeated(head(""), "(3") + "A\n") },
    Text { name: "keys", about: "inline keys, no music between them", longer: None, make: || one(repeated(head(""), "[K:G]") + "A\n") },
    Text { name: "unsung", about: "lyric lines behind one note", longer: None, make: || one(repeated(head("") + "A|\n", "w: la la la la la la la\n")) },
    Text { name: "graces", about: "grace notes, and lyric lines that go past them", longer: None, make: || one(repeated(head("") + "{" + &"cdefgab".repeat(100) + "}A {c}B|\n", "w: la la\n")) },
    Text { name: "moves", about: "lyric lines of bars", longer: None, make: || one(repeated(head("") + &"ABcd|".repeat(100) + "\n", "w: la | la la | _ | * |\n")) },
    Text { name: "slashes", about: "slashes in a row, up to 31", longer: None, make: || one(repeated(head(""), &format!("A//B///[CE]//z////c{}|", "/".repeat(31))) + "\n") },
    Text { name: "accents", about: "a lyric line of letters beyond ASCII", longer: None, make: || one(repeated(head("") + "A\nw: ", "é") + "\n") },
    Text { name: "foreign", about: "a title of characters beyond ASCII", longer: None, make: || one(repeated("X:1\nT:".into(), "é日") + "\nK:C\nA\n") },
    Text { name: "title", about: "one long title", longer: None, make: || one(repeated("X:1\nT:".into(), "x") + "\nK:C\nA\n") },
    Text { name: "comment", about: "one long comment", longer: None, make: || one(repeated(head("") + "A %", "x") + "\n") },
    Text { name: "comments", about: "lines of comment", longer: None, make: || one(repeated(head("") + "A\n", "% nothing that is read stands here, and so on to the end\n")) },
    Text { name: "tiny", about: "one note", longer: None, make: || one(head("") + "A\n") },
    Text { name: "tally", about: "document 01's tally", longer: None, make: || one("X:1\nL:1/8\nK:G\nFA (3GAB|c2 z2|]\nw: one two-three\n".into()) },
];
