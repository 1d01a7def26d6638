//! The values of fields.
use super::{Piece, ascii_pairs, put, put_into, spoiled};
use oracle::rng::Rng;

pub fn pieces() -> [Piece; 5] {
    [
        Piece { name: "meters", edges: meters, random: |r| field(r, &METER_FRAMES, meter) },
        Piece { name: "units", edges: units, random: |r| field(r, &UNIT_FRAMES, unit) },
        Piece { name: "keys", edges: keys, random: |r| field(r, &KEY_FRAMES, key) },
        Piece { name: "voice identifiers", edges: voices, random: two_voices },
        Piece { name: "inline fields", edges: inlines, random: |r| field(r, &["L:1/16\nM:7/8\nK:C\n[@]A"], inline) },
    ]
}

fn field(r: &mut Rng, frames: &[&str], value: fn(&mut Rng) -> String) -> Vec<u8> {
    let value = value(r);
    put(r.pick(frames), value.as_bytes())
}

const GAPS: [&str; 8] = ["", "", " ", " ", "  ", "\t", "\u{b}", "\u{1c}"];

/// In the header, in the body, inline; behind another meter, so that a field that sets is told from one that leaves all as it was.
const METER_FRAMES: [&str; 3] = ["M:7/9\nM:@\nK:C\nA|B", "K:C\nA|\nM:@\nB|c", "M:201/203\nK:C\nA[M:@]B|c|d"];

const METERS: [&str; 40] = [
    "", "C", "C|", "c|", "c", "|", "C||", "C |", "C|C", "4", "0", "3", "6", "8", "12", "255", "256", "00255", "+3", "-3", "+", "++3", "3+", "3.", "1e1", "none", "2+3", "(2+3)", "9999999999999999999999",
    "18446744073709551617", " 3", "3 ", "\t3\t", "3 3", "\u{b}3", "\u{1c}3", "x", "0x3", "3/", "\0",
];

fn meters() -> Vec<Vec<u8>> {
    let mut texts = Vec::new();
    let mut add = |value: String| texts.extend(put_into(&METER_FRAMES, value));
    for top in METERS {
        add(top.into());
        add(format!(" {top} "));
        for bottom in METERS {
            add(format!("{top}/{bottom}"));
            add(format!("{top} /\t{bottom} "));
            add(format!("{top}//{bottom}"));
            add(format!("{top}{bottom}"));
        }
    }
    for n in 0..300 {
        add(format!("{n}/{}", 299 - n));
    }
    texts
}

fn meter(r: &mut Rng) -> String {
    let mut text = String::new();
    for part in 0..r.one(&[1, 2, 2, 2, 2, 3]) {
        if part > 0 {
            text.push('/');
        }
        text += r.pick(&GAPS);
        text += &if r.chance(60) { r.digits() } else { r.pick(&METERS).to_string() };
        text += r.pick(&GAPS);
    }
    spoiled(r, text, "C|c/+0123456789 ")
}

/// A line and an inline field, behind another unit; notes of many lengths show what the unit is.
const UNIT_FRAMES: [&str; 3] = [
    "L:1/77\nL:@\nK:C\nA A3 A64 A4096 A262144 A16777216 A1073741824 A4294967295",
    "L:1/1234567\nK:C\n[L:@]A A3 A64 A4096 A262144 A16777216 A1073741824 A4294967295",
    "K:C\nA\nL:@\nA A3 A64 A4096",
];

const UNITS: [&str; 28] = [
    "", "1", "0", "4", "8", "16", "+4", "-4", "+", "+-4", " 4", "4 ", "4 x", "x", "4294967294", "4294967295", "4294967296", "+4294967295", "+4294967296", "04", "00000000000004294967295", "99999999999999999999",
    "1.5", "\t8", "8\t", "8\u{1c}", "0x8", "++8",
];

fn units() -> Vec<Vec<u8>> {
    let mut texts = Vec::new();
    let mut add = |value: String| texts.extend(put_into(&UNIT_FRAMES, value));
    for a in UNITS {
        add(a.into());
        for b in UNITS {
            add(format!("{a}/{b}"));
            add(format!(" {a}/{b} "));
            add(format!("{a}/ {b}"));
            for c in ["", "2", "x", "+"] {
                add(format!("{a}/{b}/{c}"));
            }
        }
    }
    texts
}

fn unit(r: &mut Rng) -> String {
    let mut text = r.pick(&GAPS).to_string();
    for part in 0..r.one(&[1, 2, 2, 2, 2, 2, 3]) {
        if part > 0 {
            text.push('/');
        }
        if r.chance(10) {
            text += r.pick(&GAPS);
        }
        text += &if r.chance(70) { r.digits() } else { r.pick(&UNITS).to_string() };
    }
    text += r.pick(&GAPS);
    spoiled(r, text, "/+0123456789 ]")
}

/// Every letter sounds, so that the accidentals of the key show.
const KEY_FRAMES: [&str; 3] = ["K:@\nABCDEFG|A", "K:D\nA[K:@]ABCDEFG|A", "K:Eb\nA|\nK:@\nABCDEFG|A"];

const TONICS: [&str; 30] = [
    "C", "G", "D", "A", "E", "B", "F#", "C#", "F", "Bb", "Eb", "Ab", "Db", "Gb", "Cb", "G#", "D#", "A#", "E#", "B#", "Fb", "H", "c", "f#", "bb", "C##", "Cbb", "", "m", "M",
];
const MODES: [&str; 28] = [
    "", "", "", "m", "m", "min", "minor", "Min", "MIN", "maj", "major", "Maj", "MAJ", "dor", "mix", "lyd", "phr", "M", "mm", "dominant", "mi", "ma", "mimin", "mmaj", "majmin", "minmaj",
    "omin", "#m",
];
const WORDS: [&str; 38] = [
    "treble", "bass", "alto", "tenor", "soprano", "mezzosoprano", "baritone", "Treble", "BASS", "treble-8", "treble8", "clef=treble", "clef=g", "clef=x", "clef=", "=", "a=b", "octave=-1",
    "transpose=2", "g", "g2", "f", "f4", "c3", "c4", "exp", "^f", "_b", "perc", "none", "trebl", "basso", "middle=B", "middle=", "Middle=B", "xmiddle=d", "clef=middle=C", "HP",
];

fn keys() -> Vec<Vec<u8>> {
    let mut texts = Vec::new();
    let mut add = |value: &[u8]| texts.extend(put_into(&KEY_FRAMES[..2], value));
    for tonic in TONICS {
        for mode in &MODES[2..] {
            for gap in ["", " ", "  ", "\t"] {
                add(format!("{tonic}{gap}{mode}").as_bytes());
                add(format!(" {tonic}{gap}{mode} ").as_bytes());
            }
        }
        for word in WORDS {
            for mode in ["", "m", " m", "min", " maj"] {
                add(format!("{tonic}{mode} {word}").as_bytes());
                add(format!("{word} {tonic}{mode}").as_bytes());
                add(format!("{tonic} {word} {mode}").as_bytes());
                add(format!("{tonic}{mode}{word}").as_bytes());
            }
        }
    }
    // every value of up to two characters, and of three and four of the letters that matter
    for a in 0..128u8 {
        add(&[a]);
    }
    for pair in ascii_pairs() {
        add(&pair);
    }
    let letters = b"ACGm#bnijMN =\0";
    for a in letters {
        for b in letters {
            for c in letters {
                add(&[*a, *b, *c]);
                for d in letters {
                    add(&[*a, *b, *c, *d]);
                }
            }
        }
    }
    texts
}

fn key(r: &mut Rng) -> String {
    let mut text = String::new();
    if r.chance(20) {
        text += r.pick(&WORDS);
        text += " ";
    }
    text += r.pick(&TONICS);
    text += r.pick(&GAPS);
    text += r.pick(&MODES);
    for _ in 0..r.one(&[0, 0, 1, 1, 2, 3]) {
        text += r.pick(&GAPS);
        text += r.pick(&WORDS);
    }
    if r.chance(5) {
        text = r.ascii(10, "minMINajAJ CGb#=\t");
    }
    spoiled(r, text, "minMINajAJ CGb#=\t")
}

/// Other voices beside it: how many parts there are tells whether two identifiers are one.
const VOICE_FRAMES: [&str; 2] = ["V:@\nV:1\nK:C\nA\nV:T1\nB\nV:x\nc\nV:12\nd", "K:C\nV:1\nA\nV:@\nB"];

fn voices() -> Vec<Vec<u8>> {
    let mut texts = Vec::new();
    for before in ["", " ", "\t ", "\u{b}\u{c}\r", "\u{1c}"] {
        for id in ["", "1", "T1", "Tenor", "V:1", "|", "middle=B", "name=\"a b\"", "=", "\0", "\u{1f}", "%"] {
            for after in ["", " ", " clef=bass", "\tname=x", "\u{1c}x", " 1", "\n2"] {
                texts.extend(put_into(&VOICE_FRAMES, format!("{before}{id}{after}")));
                texts.push(format!("K:C\nV:{before}{id}{after}\nA\nV:{id}\nB").into_bytes());
            }
        }
    }
    for [a, b] in ascii_pairs() {
        texts.push([b"K:C\nV:", &[a, b][..], b"x\nA\nV:x\nB\nV:", &[b], b"x\nc"].concat());
        texts.push([b"K:C\nV:", &[a, b][..], b"x\nA\nV:", &[a], b"\nB"].concat());
    }
    texts
}

/// The second identifier is often a part of the first one's line.
fn two_voices(r: &mut Rng) -> Vec<u8> {
    let value = voice(r);
    if r.chance(30) {
        return put(r.pick(&VOICE_FRAMES), value.as_bytes());
    }
    let from = r.below(value.len() + 1);
    let to = from + r.below(value.len() + 1 - from);
    format!("K:C\nV:{value}\nA\nV:{}\nB", &value[from..to]).into_bytes()
}

fn voice(r: &mut Rng) -> String {
    let mut text = r.pick(&GAPS).to_string();
    for _ in 0..r.below(4) {
        text += &r.ascii(5, "12TSAB|=:\"-");
        text += r.pick(&GAPS);
    }
    spoiled(r, text, "1T \t=")
}

fn inlines() -> Vec<Vec<u8>> {
    let frames = ["L:1/16\nM:7/8\nK:C\n[@]ABCDEFG|A", "K:D\nA[@]ABCDEFG|A|B", "K:C\nA[@"];
    let mut texts = Vec::new();
    for name in ["L", "M", "K", "V", "Q", "l", "m", "k", "", " L", "L ", "LL", "MK", "|", "\"L", "r", "I", "CE"] {
        for value in [
            "", ":", "1/4", " 1/4 ", "1/x", "1/", "/4", "1", "3/4", "C", "C|", "c|", "6/8/4", "G", "Gm", "F#m", "Bb maj", "treble", "G middle=B", "middle=", "Amin clef=bass", "1/4294967296", "0/0", "203/201", "201/203",
            "1/77", "a:b", "L:1/4",
        ] {
            texts.extend(put_into(&frames, format!("{name}:{value}")));
        }
    }
    for a in 0..128u8 {
        for value in ["1/4", "3/4", "G"] {
            texts.push(put(frames[0], &[&[a, b':'], value.as_bytes()].concat()));
        }
    }
    texts.extend(ascii_pairs().map(|[a, b]| put(frames[0], &[a, b, b':', b'C'])));
    texts
}

fn inline(r: &mut Rng) -> String {
    let mut text = r.pick(&["L:", "L:", "M:", "M:", "K:", "K:", "V:", "l:", " L:", "LM:", ""]).to_string();
    text += &match r.below(4) {
        0 => unit(r),
        1 => meter(r),
        2 => key(r),
        _ => voice(r),
    };
    spoiled(r, text, "LMK:/ 4")
}
