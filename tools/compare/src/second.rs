//! Texts rich in what the second edition reads otherwise than the first: keys, default tuplets and empty parts, slashes in a row, voices named before K, grace notes and bars under lyrics.
use crate::kinds::change;
use oracle::generate::{self, Blocks, Pieces};
use oracle::literal::{self, Edition, LiteralAnswer};
use oracle::rng::Rng;

/// Whether a piece may hold what the editions read differently.
#[derive(Clone, Copy, PartialEq)]
pub enum Taste {
    Any,
    Shared,
}

// ---- keys -----------------------------------------------------------------------------------------------------------

const MODES: [&str; 9] = ["major", "ionian", "minor", "aeolian", "dorian", "phrygian", "lydian", "mixolydian", "locrian"];
/// Clef words, words with an equals sign, and others that look like them.
const WORDS: [&str; 20] = [
    "treble", "bass", "ALTO", "Tenor", "soprano", "mezzosoprano", "baritone", "clef=bass", "x=y", "octave=-1", "=", "m=", "treble-8", "bas", "exp", "^f", "_b", "perc", "m", "Dor",
];

/// The value of a K field; few are refused.
fn key(r: &mut Rng) -> String {
    let is_read = |key: &String| matches!(literal::answer(format!("K:{key}\nA").as_bytes(), Edition::Abc21), LiteralAnswer::Reading { .. });
    let key = any_key(r);
    if is_read(&key) || r.chance(10) { key } else { (0..).map(|_| any_key(r)).find(is_read).unwrap_or_default() }
}

/// The value of a K field.
pub fn any_key(r: &mut Rng) -> String {
    let tonic = if r.chance(90) { r.one(b"ABCDEFG") as char } else { r.one(b"HaghmM_ ") as char };
    let sign = r.pick(&["", "", "", "#", "b", "#", "b", "##", "bb"]);
    let gap = r.pick(&["", "", "", " ", " ", "  ", "\t", "\u{b}"]);
    let mut key = format!("{tonic}{sign}");
    if r.chance(12) {
        key = format!("{key} {}", r.pick(&WORDS));
    }
    key = format!("{key}{gap}{}", mode(r));
    if r.chance(15) {
        key = format!("{} {key}", r.pick(&WORDS));
    }
    if r.chance(20) {
        key = format!("{key} {}", r.pick(&WORDS));
    }
    if r.chance(3) {
        let middle = r.pick(&["middle=B", "middle=", "middle=d "]);
        key = if r.chance(50) { format!("{key} {middle}") } else { format!("{middle} {key}") };
    }
    if r.chance(3) { r.pick(&["", "none", "Hp", "HP", "exp ^f", "bass", " "]).to_string() } else { key }
}

/// A mode: whole, cut, in any case, with something behind it; or an m.
fn mode(r: &mut Rng) -> String {
    match r.below(10) {
        0..=1 => String::new(),
        2..=5 => {
            let whole = r.pick(&MODES);
            let length = if r.chance(30) { 1 + r.below(whole.len()) } else { r.one(&[3, whole.len()]) };
            let mode = whole[..length].chars().map(|c| if r.chance(25) { c.to_ascii_uppercase() } else { c }).collect::<String>();
            mode + r.pick(&["", "", "", "x", "7", " m"])
        }
        6..=7 => format!("{}{}", r.pick(&["m", "M"]), r.pick(&["", "", "a", "Z", "7", "#", " ", " i", "-", "b", "in", "aj", "IN", "Ix"])),
        8 => r.pick(&["mi", "ma", "mm", "MM", "do", "lo", "majmin", "minmaj", "omin", "#m", "bm", "b", "#"]).to_string(),
        _ => r.ascii(5, "minajdorphlyxceoMINAJ "),
    }
}

/// One of the thirty names, as both editions read it.
fn plain_key(r: &mut Rng) -> String {
    const MAJORS: [&str; 15] = ["Cb", "Gb", "Db", "Ab", "Eb", "Bb", "F", "C", "G", "D", "A", "E", "B", "F#", "C#"];
    const MINORS: [&str; 15] = ["Ab", "Eb", "Bb", "F", "C", "G", "D", "A", "E", "B", "F#", "C#", "G#", "D#", "A#"];
    let name = if r.chance(60) {
        format!("{}{}", r.pick(&MAJORS), r.pick(&["", "", "", "maj", " maj", " Major", "MAJ"]))
    } else {
        format!("{}{}", r.pick(&MINORS), r.pick(&["m", "m", " m", "min", " minor", " MIN", "Minor"]))
    };
    match r.below(6) {
        0 => format!("{name} {}", r.pick(&["treble", "bass", "clef=alto", "octave=1"])),
        1 => format!("{} {name}", r.pick(&["TENOR", "x=y", "clef=bass"])),
        _ => name,
    }
}

// ---- tuplets --------------------------------------------------------------------------------------------------------

/// The three compound ones, some that might be taken for one, and others.
const METERS: [&str; 32] = [
    "6/8", "9/8", "12/8", "+6/8", " 9 / 8 ", "012/08", "3/4", "3/8", "6/4", "9/4", "12/16", "15/8", "18/8", "0/0", "0/8", "8/6", "268/8", "6/264", "6", "4/4", "2/4", "C", "C|", "5/8", "7/8", "1/3", "255/4", "256/4", "none",
    "15/16", "", "4/6",
];

pub fn meter(r: &mut Rng) -> String {
    if r.chance(80) { r.pick(&METERS).to_string() } else { format!("{}/{}", r.below(20), 1 << r.below(5)) }
}

/// `(p`, and perhaps q and r, each written or empty.
pub fn tuplet(r: &mut Rng, taste: Taste) -> String {
    let number = |r: &mut Rng| match r.below(12) {
        0..=7 => (1 + r.below(9)).to_string(),
        8 => format!("0{}", r.below(4)),
        _ => r.pick(&["0", "255", "256", "18446744073709551615", "18446744073709551616", "007"]).to_string(),
    };
    if taste == Taste::Shared {
        let p = r.one(&[2, 3, 4, 10, 11, 12, 255]);
        return match r.below(4) {
            0..=1 => format!("({p}"),
            2 => format!("({}:{}", 2 + r.below(11), 1 + r.below(9)),
            _ => format!("({}:{}:{}", 2 + r.below(11), 1 + r.below(9), 1 + r.below(9)),
        };
    }
    let p = if r.chance(90) { r.below(13).to_string() } else { r.pick(&["254", "255", "256", "05", "0007", "13", ""]).to_string() };
    let (q, rest) = (number(r), number(r));
    match r.below(20) {
        0..=8 => format!("({p}"),
        9..=10 => format!("({p}:"),
        11..=12 => format!("({p}::"),
        13..=14 => format!("({p}:{q}"),
        15..=16 => format!("({p}:{q}:"),
        17..=18 => format!("({p}::{rest}"),
        _ => format!("({p}:{q}:{rest}"),
    }
}

// ---- lengths --------------------------------------------------------------------------------------------------------

/// Two slashes or more: mostly few, at times as many as may halve, hardly ever more, which are refused.
fn slashes(r: &mut Rng) -> String {
    let count = match r.below(500) {
        0..=399 => 2 + r.below(3),
        400..=497 => 2 + r.below(30),
        498 => 31,
        _ => 32 + r.below(9),
    };
    "/".repeat(count)
}

/// Slashes and digits behind a length that is over: they are skipped, however many there are.
fn skipped(r: &mut Rng) -> String {
    match r.below(6) {
        0 => "/".into(),
        1 => "/2".into(),
        2 => "//".into(),
        3 => format!("//{}", r.below(9)),
        4 => format!("/{}/3//", r.below(20)),
        _ => "/".repeat(1 + r.below(40)),
    }
}

/// A length as it stands behind a note, a chord or a rest, and what is skipped behind it. Of any taste it may have slashes in a row behind its numerator, with digits behind them.
pub fn length(r: &mut Rng, taste: Taste) -> String {
    let numerator = |r: &mut Rng| r.pick(&["", "", "", "", "2", "3", "7", "0", "16", "2147483648", "4294967296"]);
    let denominator = |r: &mut Rng| r.pick(&["2", "2", "4", "8", "3", "0", "007", "4294967295", "4294967296"]);
    match r.below(40) {
        0..=23 => String::new(),
        24..=29 => r.pick(&["2", "3", "4"]).to_string(),
        30..=32 => format!("{}/", numerator(r)),
        33..=34 => format!("{}/{}", numerator(r), denominator(r)),
        35 => format!("{}/{}{}", numerator(r), denominator(r), skipped(r)),
        _ if taste == Taste::Shared => format!("{}/{}", numerator(r), denominator(r)),
        36..=38 => format!("{}{}", numerator(r), slashes(r)),
        _ => format!("{}{}{}{}", numerator(r), slashes(r), denominator(r), if r.chance(50) { skipped(r) } else { String::new() }),
    }
}

/// Ties and slur ends.
fn behind(r: &mut Rng) -> &'static str {
    r.pick(&["", "", "", "", "", "-", ")"])
}

// ---- music ----------------------------------------------------------------------------------------------------------

/// What a music line may hold.
#[derive(Clone, Copy)]
pub struct Line {
    pub taste: Taste,
    pub graces: bool,
    /// Inline M and L.
    pub inline: bool,
}

fn note(r: &mut Rng, taste: Taste) -> String {
    let letter = r.one(b"ABCDEFGabcdefg") as char;
    format!("{}{letter}{}{}{}", r.pick(&["", "", "", "", "", "^", "_", "="]), r.pick(&["", "", "", "", "", "", ",", "'", ",,"]), length(r, taste), behind(r))
}

fn notes(r: &mut Rng, most: usize, taste: Taste) -> String {
    (0..r.below(most + 1)).map(|_| note(r, taste)).collect()
}

/// Measures of notes, rests, graces and tuplets, with fields between them.
pub fn music(r: &mut Rng, line: Line) -> String {
    let taste = line.taste;
    let mut out = r.pick(&["", " ", "|", "|: ", "[1 "]).to_string();
    for _ in 0..1 + r.below(5) {
        for _ in 0..r.below(6) {
            out += &match r.below(24) {
                0..=9 => note(r, taste),
                10 => format!("{}{}{}", r.pick(&["z", "z", "x", "Z", "X"]), length(r, taste), behind(r)),
                11..=13 if line.graces => format!("{{{}{}", notes(r, 3, taste), r.pick(&["}", "}", "}", "}", "z}", ""])),
                14..=17 if taste == Taste::Any => tuplet(r, taste) + &notes(r, 4, taste),
                // Right behind it a colon would make an empty part.
                14..=17 => tuplet(r, taste) + &note(r, taste) + &notes(r, 3, taste),
                // Between its brackets no length is read.
                18 if r.chance(20) => format!("[{}]{}{}", r.pick(&["", "", "x", "C//E///4", "^c////////////////////////////////"]), length(r, taste), behind(r)),
                18 => format!("[{}{}]{}{}", note(r, taste), note(r, taste), length(r, taste), behind(r)),
                19 => r.pick(&["&", " & ", ">", "<", "(", "}", "\"x\"", "!f!", "[]", "\"A//\"", " // ", " /2//"]).to_string(),
                20 if line.inline => format!("[M:{}]", meter(r)),
                21 if line.inline => r.pick(&["[L:1/16]", "[L:1/4]", "[M:6/8]", "[M:4/4]"]).to_string(),
                22 if r.chance(50) => format!("[K:{}]", if taste == Taste::Any { key(r) } else { plain_key(r) }),
                _ => " ".to_string(),
            };
        }
        out += r.pick(&["|", "|", "|", "|", "| ", "||", ":|", "|:", "::", "|]", ":|]", "|[1", "|[2", ""]);
    }
    out
}

// ---- lyrics ---------------------------------------------------------------------------------------------------------

/// A lyric line: syllables, skips, holds and, of any taste, bars.
pub fn lyric(r: &mut Rng, taste: Taste) -> String {
    let mut out = String::from("w:");
    for _ in 0..r.below(12) {
        out += match r.below(20) {
            0..=7 => r.pick(&["a", "b", "la", "hal-le-lu", "b-c", "x-", "-y", "é"]),
            8..=12 if taste == Taste::Any => "|",
            13..=14 => "*",
            15..=16 => "_",
            17 => r.pick(&["-", "--", "~", "a~b"]),
            18 => r.pick(&["a|b", "|a", "||", "a|", "|-|", "*a", "__", "|_"]),
            _ => "c",
        };
        out += if r.chance(96) { " " } else { r.pick(&["  ", "\t", "\u{a0}", "\u{2003}", "\u{3000}"]) };
    }
    out
}

// ---- whole texts ----------------------------------------------------------------------------------------------------

fn header(r: &mut Rng, out: &mut String, voices: usize, taste: Taste) {
    if r.chance(60) {
        *out += "X:1\n";
    }
    if r.chance(60) {
        *out += &format!("M:{}\n", meter(r));
    }
    if r.chance(30) {
        *out += r.pick(&["L:1/8\n", "L:1/4\n", "L:1/16\n"]);
    }
    if taste == Taste::Any {
        for voice in 1..=voices {
            if r.chance(70) {
                *out += &format!("V:{voice}\n");
            }
        }
        if r.chance(15) {
            *out += "X:2\n";
        }
        if r.chance(20) {
            *out += &format!("V:{}\n", 1 + r.below(voices + 1));
        }
    }
    *out += &format!("K:{}\n", if taste == Taste::Any { key(r) } else { plain_key(r) });
}

fn body(r: &mut Rng, out: &mut String, voices: usize, taste: Taste, graces: bool, lyrics: bool) {
    for _ in 0..1 + r.below(2 * voices + 2) {
        if voices > 0 && r.chance(80) {
            *out += &format!("V:{}\n", 1 + r.below(voices));
        }
        for _ in 0..1 + r.below(2) {
            match r.below(20) {
                0 => *out += &format!("M:{}\n", meter(r)),
                1 => *out += &format!("K:{}\n", if taste == Taste::Any { key(r) } else { plain_key(r) }),
                2 if lyrics => *out += &(lyric(r, taste) + "\n"),
                _ => {}
            }
            *out += &(music(r, Line { taste, graces, inline: true }) + "\n");
            while lyrics && r.chance(50) {
                *out += &(lyric(r, taste) + "\n");
            }
        }
    }
}

/// A text of all of these; one in five has a few bytes changed.
pub fn text(r: &mut Rng) -> Vec<u8> {
    let mut out = String::new();
    let voices = r.one(&[0, 0, 1, 2, 3]);
    header(r, &mut out, voices, Taste::Any);
    body(r, &mut out, voices, Taste::Any, true, true);
    let mut text = out.into_bytes();
    if r.chance(20) {
        change(r, &mut text);
    }
    text
}

/// A generated text, some of its keys replaced, with music and lyric lines of these put in.
pub fn mixed(r: &mut Rng) -> Vec<u8> {
    let text = generate::text(r);
    let mut out = Vec::new();
    for line in text.split_inclusive(|byte| *byte == b'\n') {
        if line.starts_with(b"K:") && r.chance(80) {
            out.extend(format!("K:{}\n", key(r)).bytes());
        } else if line.starts_with(b"w:") && r.chance(50) {
            out.extend((lyric(r, Taste::Any) + "\n").bytes());
        } else {
            out.extend(line);
        }
        if out.ends_with(b"\n") && r.chance(15) {
            let more = if r.chance(60) { music(r, Line { taste: Taste::Any, graces: true, inline: true }) } else { lyric(r, Taste::Any) };
            out.extend((more + "\n").bytes());
        }
    }
    if r.chance(30) {
        change(r, &mut out);
    }
    out
}

/// A text that both editions read alike: no modes, no keys but the thirty names, no default tuplets of 5 to 9, no empty parts, no slashes in a row behind a numerator, no grace notes under lyrics, no bars in them, no voice
/// named before K.
pub fn shared(r: &mut Rng) -> Vec<u8> {
    let mut out = String::new();
    let (voices, lyrics) = (r.one(&[0, 0, 1, 2, 3]), r.chance(60));
    header(r, &mut out, voices, Taste::Shared);
    body(r, &mut out, voices, Taste::Shared, !lyrics, lyrics);
    out.into_bytes()
}

/// A text under the conditions of demand 3, of the same pieces.
pub fn blocks(r: &mut Rng) -> Blocks {
    generate::blocks_of(
        r,
        &Pieces { music: |r| music(r, Line { taste: Taste::Any, graces: true, inline: false }), lyric: |r| lyric(r, Taste::Any), key },
    )
}

// ---- every rule -----------------------------------------------------------------------------------------------------

/// Small texts, one or more for each rule of the second edition and for what stands beside it.
pub fn rules() -> Vec<Vec<u8>> {
    let mut texts: Vec<String> = Vec::new();
    // Keys: the modes in any case, an m with and without a letter behind it, signs, no name, words that leave, keys beyond seven and just within.
    for key in [
        "C", "Cmaj", "Cion", "Cmin", "Caeo", "Cdor", "Cphr", "Clyd", "Cmix", "Cloc", "C MAJOR", "CIonian", "CmInOr", "C\tAEO", "CDorx", "C  PHRYGIAN", "CLYDian", "CmIXed", "CLocrian7", "Cm", "CM", "C m", "C M", "Cm7", "Cm#", "CMb",
        "Cmi", "Cma", "Cmm", "Cm m", "Cm in", "C do", "CmajM", "Cminmaj", "A b", "A bm", "Ab m", "Abm", "B b", "Bb", "C##", "Cbb", "F#m", "g", "Hp", "none", "", "exp ^f", "D exp _b", "m", "min", "_", "D bass m", "D baritone m", "D MezzoSoprano m", "bass Gm",
        "clef=alto G TREBLE mix octave=-1", "D treble-8 m", "A=m", "x=y E", "G#", "G#m", "Fb", "Fb lyd", "F#lyd", "C#lyd", "Bbloc", "Ebloc", "Cbmix", "Cb", "C#", "A#m", "A#", "D#m", "D#dor", "E#loc", "E#m", "B#loc", "B#phr", "Abm", "Gbphr",
        "Gbaeo", "Fbm", "G# middle=B", "middle=B G#", "Fb middle=C loc", "G# middle=B min", "bass clef=x G# middle=B", "bass middle=B G#", "G# bass",
    ] {
        texts.push(format!("K:{key}\nABCDEFG"));
    }
    for key in ["Ador", "GM", "Em", "E phrygian", "G#", "G#m", "Bbloc", "g", "middle=d Fb", "Fb middle=d"] {
        texts.push(format!("K:C\nA[K:{key}]BF|F"));
        texts.push(format!("X:1\nK:Eb\nA|\nK:{key}\nBF|F"));
        texts.push(format!("K:Eb\nK:{key}\nBF"));
    }
    for text in ["K:C\n[0A[K:G#]", "K:C\nA[K:G#][0", "K:G# é\nA", " [K:G#]\nK:C\nA", "K:C\n\"[K:G#]\"A", "K:C\nV:\nK:G#", "K:G#"] {
        texts.push(text.into());
    }
    // The header's key.
    for lines in ["V:1\nV:2\n", "V:1\nV:2\nV:1\n", "V:1\nV:2\nX:1\n", "", "V:2\n", "V:1\nV:2\nV:3\n"] {
        texts.push(format!("{lines}K:Bb\nBE\nV:1\nBE\nV:2\nBE\nV:4\nBE"));
        texts.push(format!("{lines}K:Amix\nV:2\nK:D\nFC\nV:1\n[K:F]BF\nV:2\nFC|F"));
    }
    // Tuplets: defaults by the meter in force, empty parts, bad ones.
    for meter in ["4/4", "3/4", "3/8", "6/8", "9/8", "12/8", "6/4", "15/8", "18/8", "12/16", "0/0", "C", "C|", "0/4", "7/8", "+06/8", "268/8", "6/264"] {
        texts.push(format!("M:{meter}\nK:C\n(2A (3A (4A (5A (6A (7A (8A (9A (10A (11A (12A (255A (256A (1A (0A"));
    }
    for music in [
        "(5A[M:6/8](5B", "(5[M:6/8]AB", "(5A|B[M:3/4](7c|(9d\n(9e", "[M:9/8](5:A[M:2/2](5::B", "(3::A", "(3:A", "(3:2:A", "(3:4:A", "(5::3ABcdef", "(2::1A", "(2:ABcd", "(3:5:ABcd", "A(3:|A", "A(3:2:|A", "A(3::|A", "A(3:::|A", "(3:0A",
        "(3::0A", "(3:2:0A", "(3:256A", "(:2A", "(3:2:18446744073709551616A", "(2::18446744073709551615ABc", "(9:::A", "(5:4A", "(5:4:2ABc", "(5:[M:3/4]A", "((5A", "(5(5A",
    ] {
        texts.push(format!("K:C\n{music}"));
    }
    texts.push("V:1\nV:2\nK:C\nV:1\n(5A\nV:2\nM:6/8\n(5B\nV:1\n(5c|(5d".into());
    // Slashes: as many as halve, digits behind them, what is skipped, ties and slurs behind them; behind notes, chords, rests and the empty chord.
    for music in [
        "A A3 A/ A/4 A3/ A3/2 A/0 A/4294967296", "A// A/// A//// A///// A//////", "A3// A7/// A0// A16//// A4294967296//", "A//4 A//0 A//1 A3//8 A///2 A//4294967296", "A/4// A/2/2 A/4/ A/0// A//3// A/2/2/2/2 A/4294967296//",
        "A/-B/2-c//-d///)e", "A/2/2-B//3-c//4)d/2//-e-//f)//g", "[CE]//[CE]3//[CE]//4-[CE]//-[CE]/2//", "z// z3/// z/4// z//2 z//-A", "x// x///4 X//A Z//-B Z3//2 X/2//A", "[]//A[]///2B[]3//c[x]//-d", "^c''//_B,,///=A'3//^/F//",
        "A//>B//c<d///e//>>f", "(3A//B//c {d//e///}f// & g//|[CE]//", "\"A//\"B// !f!c// //d /2//e//f", "[C//E]//[C//E///4] [^G//", "A//\n//B\n/ c// %//", "^//A _/B//^ //c", "[L:1/1]A//B///[L:1/16]c//[M:6/8](5d//e",
    ] {
        texts.push(format!("K:C\n{music}"));
    }
    texts.push("L:1/4\nK:C\nA//B2//\nL:1/2\nA//B2//\nw:a | b".into());
    // 31, 32 and more; where they would not halve, and where no length is read; beside other refusals.
    let (most, many) = ("/".repeat(31), "/".repeat(32));
    for sound in ["A", "g''", "z", "x", "Z", "X", "[CE]", "[]"] {
        texts.extend([format!("K:C\n{sound}{most}B"), format!("K:C\nB|\n{sound}{many}B")]);
    }
    for music in [
        format!("A2147483648{most} B1073741824{most} c4294967295{most}"), format!("A3{most}-B{most}4-c{most})d"), format!("A3{many}"), format!("A{many}2-B"), format!("A/{many}"), format!("A{most}/"), format!("A{}", "/".repeat(288)),
        format!("A/2{many}////////"), format!("A//2{many}"), format!("A{most}2{many}-B"), format!("A{most} /"), format!("A-{many}B){many}"), format!("A\n{many}"), format!("A{most}%/"), format!("\"A{many}\"B"), format!("[A{many}C]/"), format!("[A{many}"),
        format!("{many}A ^{many}B"), format!("A\nw:{many}"), format!("{{A{many}}}B"), format!("A{}{many}", ",".repeat(133)), format!("[A{}]{many}", ",".repeat(133)), format!("A{many}B{}", ",".repeat(133)), format!("[0A{many}"), format!("A{many}[0"),
        format!("[K:G#]A{many}"), format!("A{many}[K:G#]"), format!("A{many}é"), format!("A{many}\nX:1"),
    ] {
        texts.push(format!("K:C\n{music}"));
    }
    // Lyrics: bars, graces, holds, what runs on and what lapses.
    for words in [
        "a | b", "| a", "a b | c", "a b c | d", "a | | b", "* * * | x", "a | | | b", "a _ _ | x", "| | a", "| | | a", "| * b", "| _ b", "a b | _ c", "a | _ c", "a b c d e | f", "a b c d e _ | f", "a b c d e | _", "a - | c", "|a | b", "|| a",
        "a-| b", "a|b", "~ | b-c d", "é\u{2003}|\u{a0}b", "|", "", "_ | _ | _",
    ] {
        texts.push(format!("K:C\nAB|cd|z|e\nw:{words}"));
    }
    for text in [
        "{A}B\nw:a", "A|{B}z|c\nw:a | b", "{A}B{c}d\nw:a b", "{A}B{c}de\nw:a _ b", "{AB}\nc\nw:a", "A{B}\nc\nw:a", "{A}|{B}c\nw:| a", "A{B}|{c}d\nw:| a", "{A\nB}c\nw:a", "{[Ace]}[Bdf]\nw:a", "{A}\nw:a", "{A}\nw:a\nB", "{z}A\nw:a",
        "A|\n|z\nw:| a\nB|c", "A|\n{B}\nw:| a\nc|d", "AB|\nc\nw:a | b\nd|e", "AB|\nw:a | b\ncd", " A:|]B|c\nw:a | b", "A||:B|c\nw:a | b", "A&B|&c|d\nw:a | b", "A|B|z2|Z|c\nw:a | b | c", "[Ace]2|(3Bcd|e\nw:a | b c | d",
        "AB|c\nw:a | b\nw:| x\nw:p q r", "A|B\nw:a | b | c\nd|e\nw:| x", "A\nw:a b | d\nB|c\nw:| _", "A\nw:a b\nB", "A\nw:a _", "A\nw:a | _", "w:| a\nA|B", "w:a | b\n{A}B|c", "A|B|\nw:a | b | c\nw:| x\nC|D",
        "A|\nV:2\nB|c\nw:a | b\nV:1\nd|e\nw:| x", "A\nw:a\nw:| b\nw:c | d\nB|c",
    ] {
        texts.push(format!("K:C\n{text}"));
    }
    // All of it together, and what both editions share.
    texts.push("X:1\nM:6/8\nL:1/8\nV:1\nV:2\nK:D mix\nV:1\n|:{g}f>e (5dcBAG|F3 (7:::[Ad]2:|\nw: one | two-three _\nw: | eins\nV:2\nK:Em\n(9DEF z|[K:C#]c2 & (6e/|]\nw: * | low\n".into());
    texts.push("X:1\nL:1/8\nK:G\nFA (3GAB|c2 z2|]\nw: one two-three\n".into());
    texts.extend(["", " \n", "K:C\nw:a", "K:C\nX:1", "K:C\n[33A", "K:C\nA/0 A0 A5 A7 A/32"].map(String::from));
    texts.into_iter().map(String::into_bytes).collect()
}
