//! What the second edition reads otherwise than the first.
use super::{Piece, all_of, put, put_into};
use crate::second::{self, Line, Taste};
use oracle::rng::Rng;

pub fn pieces() -> [Piece; 5] {
    [
        Piece { name: "modes", edges: keys, random: key },
        Piece { name: "tuplets by the meter", edges: tuplets, random: tuplet },
        Piece { name: "bars and graces under lyrics", edges: lyrics, random: lyric },
        Piece { name: "header keys", edges: headers, random: header },
        Piece { name: "runs of slashes", edges: runs, random: run },
    ]
}

/// Every letter sounds, so that the accidentals of the key show; in the header, inline, in the body.
const KEY_FRAMES: [&str; 3] = ["K:@\nABCDEFG|A", "K:D\nA[K:@]ABCDEFG|A", "K:Eb\nA|\nK:@\nABCDEFG|A"];

fn keys() -> Vec<Vec<u8>> {
    // Every value of up to four of the letters that matter.
    let letters = ["A", "G", "H", "a", "m", "M", "i", "n", "#", "b", " "];
    let mut texts: Vec<Vec<u8>> = (0..=4).flat_map(|length| all_of(&letters, length)).flat_map(|value| put_into(&KEY_FRAMES[..2], value)).collect();
    let mut add = |value: String| texts.extend(put_into(&KEY_FRAMES, value));
    let modes = [
        "", "m", "M", "maj", "ion", "min", "aeo", "dor", "phr", "lyd", "mix", "loc", "MAJ", "Ion", "mIN", "aEO", "DOr", "pHR", "Lyd", "MiX", "LOC", "major", "ionian", "minor", "aeolian", "dorian", "phrygian", "lydian",
        "mixolydian", "locrian", "ma", "mi", "io", "ae", "do", "ph", "ly", "lo", "mm", "m7", "M-", "ma7", "mij", "dorm", "m m", "m i", "exp", "none",
    ];
    for letter in "ABCDEFGHa".chars() {
        for sign in ["", "#", "b", "##", "bb", "#b"] {
            for mode in modes {
                for gap in ["", " ", "\t "] {
                    add(format!("{letter}{sign}{gap}{mode}"));
                }
            }
        }
    }
    // Words before, between and behind; 10 and 21 in one field.
    for tonic in ["C", "F#", "G#", "Fb", "D#", "Bb", "H", ""] {
        for mode in ["", "m", "lyd", "loc", "M", "x"] {
            for word in ["bass", "TREBLE", "alto", "Tenor", "soprano", "mezzosoprano", "baritone", "clef=alto", "x=y", "m=", "middle=B", "middle=", "treble-8", "m", "dor"] {
                add(format!("{word} {tonic} {mode}"));
                add(format!("{tonic} {word} {mode}"));
                add(format!("{tonic}{mode} {word}"));
                add(format!("{tonic}{word} {mode}"));
                add(format!("bass {word} {tonic} middle=c {mode}"));
            }
        }
    }
    texts
}

fn key(r: &mut Rng) -> Vec<u8> {
    let value = second::any_key(r);
    put(r.pick(&KEY_FRAMES), value.as_bytes())
}

/// As many notes behind it as a count can tell from another.
const NOTES: &str = "ABcdABcdABcd";

fn tuplets() -> Vec<Vec<u8>> {
    // Every tuplet of up to five of these signs behind its bracket, under two meters.
    let all = (0..=5).flat_map(|length| all_of(&["2", "3", "5", ":", "0", "A"], length));
    let mut texts: Vec<Vec<u8>> = all.flat_map(|tuplet| put_into(&["M:4/4\nK:C\nA(@BcdABcd", "M:6/8\nK:C\nA(@BcdABcd"], tuplet)).collect();
    let numbers = ["", "0", "1", "2", "3", "7", "255", "256", "0000000000000000000000002", "18446744073709551615", "18446744073709551616"];
    // Every meter that a reading can have.
    for top in 0..=255 {
        for bottom in 0..=255 {
            texts.push(format!("M:{top}/{bottom}\nK:C\n(5A(7B(9c").into_bytes());
        }
    }
    for p in (0..=13).chain([254, 255, 256, 300]) {
        for meter in ["4/4", "3/4", "6/8", "9/8", "12/8", "3/8", "6/4", "18/8", "12/16", "C|", "0/0", "7/8", "255/4", "268/8", "6/264", "x"] {
            texts.push(format!("M:{meter}\nK:C\n({p}{NOTES}").into_bytes());
            texts.push(format!("M:5/4\nK:C\n({p}A[M:{meter}]({p}B\n({p}c").into_bytes());
            texts.push(format!("V:1\nV:2\nK:C\nV:1\n({p}A\nV:2\nM:{meter}\nB({p}c\nV:1\n({p}d").into_bytes());
        }
        for q in numbers {
            for meter in ["4/4", "9/8"] {
                texts.extend(["", "|", "A", " "].map(|tail| format!("M:{meter}\nK:C\nA({p}:{q}{tail}{NOTES}").into_bytes()));
                for r in numbers {
                    texts.extend(["", ":", "|"].map(|tail| format!("M:{meter}\nK:C\nA({p}:{q}:{r}{tail}{NOTES}").into_bytes()));
                }
            }
        }
    }
    texts
}

/// Tuplets of one line with meters between them; or of two voices, with an M line in the other's block.
fn tuplet(r: &mut Rng) -> Vec<u8> {
    let line = |r: &mut Rng| -> String {
        let mut line = r.pick(&["", " ", "A|"]).to_string();
        for _ in 0..1 + r.below(6) {
            line += &match r.below(6) {
                0..=2 => second::tuplet(r, Taste::Any),
                3 => format!("[M:{}]", second::meter(r)),
                4 => r.pick(&["|", ":|", "|:", "&", "z", "{c}", "[CE]", ":", "(", "\n"]).to_string(),
                _ => String::new(),
            };
            line += &NOTES[..r.below(8)];
        }
        line
    };
    let meter = second::meter(r);
    let (a, b, other) = (line(r), line(r), second::meter(r));
    match r.below(3) {
        0 => format!("M:{meter}\nK:C\n{a}\n{b}"),
        1 => format!("V:1\nV:2\nM:{meter}\nK:C\nV:1\n{a}\nV:2\nM:{other}\n{b}\nV:1\n{b}"),
        _ => format!("K:C\n{a}\nM:{meter}\n{b}"),
    }
    .into_bytes()
}

/// Every lyric line of up to five of these words, under music with barlines, rests and graces.
fn lyrics() -> Vec<Vec<u8>> {
    let words = ["a ", "| ", "* ", "_ ", "b-c ", "- "];
    let music = ["AB|cd|z|e", "{A}B{c}d|{e}z|{f}g", "A|B|c|d|e", " A:|]B&c|z&d|ef", "z|{A}|B\nw:x y z\n{c}|d|z|e", "A\nw:@\nB|{c}d|e", "A||:B|[1c|[2d"];
    let mut texts = Vec::new();
    for length in 0..=5 {
        for line in all_of(&words, length) {
            texts.extend(music.map(|music| put(&format!("K:C\n{music}\nw:@"), line.as_bytes())));
        }
    }
    // Two verses, and a line that another of the same verse writes over.
    for first in all_of(&words, 3) {
        for second in all_of(&words, 2) {
            texts.push(format!("K:C\nAB|{{c}}d|z|e\nw:{first}\nw:{second}\nf|g\nw:{second}").into_bytes());
            texts.push(format!("K:C\nw:{first}\nA|B\nw:{second}\nw:{first}\nc|d").into_bytes());
        }
    }
    texts
}

fn lyric(r: &mut Rng) -> Vec<u8> {
    let mut text = String::from("K:C\n");
    for _ in 0..1 + r.below(4) {
        if r.chance(10) {
            text += &(second::lyric(r, Taste::Any) + "\n");
        }
        for _ in 0..1 + r.below(12) {
            text += r.pick(&["A", "B", "c", "d2", "{e}", "{fg}", "{", "}", "z", "|", "|", "|", "||", ":|]", "&", " ", "[CE]", "(3"]);
        }
        text += "|\n";
        for _ in 0..r.below(4) {
            text += &(second::lyric(r, Taste::Any) + "\n");
        }
    }
    text.into_bytes()
}

/// Every header of up to five lines that name voices, with X lines among them, and music for three voices.
fn headers() -> Vec<Vec<u8>> {
    let mut texts = Vec::new();
    for length in 0..=5 {
        for lines in all_of(&["V:1\n", "V:2\n", "X:1\n"], length) {
            for body in ["FB\nV:1\nFB\nV:2\nFB", "V:2\nFB\nV:1\nFB\nV:3\nFB", "V:1\nK:A\nFB\nV:2\n[K:Eb]FB\nV:1\nFB|F"] {
                texts.extend(["G", "Bb", "Adorian", "G#"].map(|key| format!("{lines}K:{key}\n{body}").into_bytes()));
            }
        }
    }
    texts
}

fn header(r: &mut Rng) -> Vec<u8> {
    let mut text = String::new();
    for _ in 0..r.below(7) {
        text += &match r.below(5) {
            0..=3 => format!("V:{}\n", 1 + r.below(4)),
            _ => "X:1\n".to_string(),
        };
    }
    text += &format!("K:{}\n", second::any_key(r));
    for _ in 0..1 + r.below(6) {
        if r.chance(70) {
            text += &format!("V:{}\n", 1 + r.below(5));
        }
        if r.chance(20) {
            text += &format!("K:{}\n", second::any_key(r));
        }
        text += &(second::music(r, Line { taste: Taste::Shared, graces: false, inline: false }) + "\n");
    }
    text.into_bytes()
}

/// What has a length: notes with and without marks, chords, the empty one, every rest.
const SOUNDS: [&str; 10] = ["A", "^c'", "_B,,", "[CE]", "[^c'E,]", "A[]", "z", "x", "Z", "X"];

fn runs() -> Vec<Vec<u8>> {
    let mut texts = Vec::new();
    // Every suffix of up to six of these signs.
    for suffix in (0..=6).flat_map(|length| all_of(&["/", "2", "-", "0"], length)) {
        texts.extend(["A", "[CE]", "z", "Z", "A[]"].map(|sound| format!("K:C\n{sound}{suffix}B").into_bytes()));
    }
    // Every run of up to 40 slashes and some around 256, with digits before and behind it, and what stands behind these.
    for slashes in (0..=40).chain([255, 256, 257, 287, 288]).map(|count| "/".repeat(count)) {
        for sound in SOUNDS {
            for numerator in ["", "0", "3", "2147483648", "4294967296"] {
                for tail in ["", "2", "0", "4294967296", "-", ")-", "2-", "2/", "2/2)", "2////////////////////////////////-", " /", "]"] {
                    texts.push(format!("K:C\n{sound}{numerator}{slashes}{tail}B").into_bytes());
                }
            }
            // Digits between slashes: one with digits, and then as many.
            texts.extend(["", "2", "/2", "//2", "3/2"].map(|before| format!("L:1/4\nK:C\n{sound}{before}/2{slashes}-B").into_bytes()));
        }
        // Where no length is read; other refusals on either side, and the line of the first.
        for frame in [
            "K:C\n\"A@\"B", "K:C\n\"A@", "K:C\n!A@!B", "K:C\n[A@C]B", "K:C\n[A@", "K:C\n@A", "K:C\nA @B", "K:C\nA-@B", "K:C\nA|@B", "K:C\nA\n@B", "K:C\nA%@", "K:C\n^@A", "K:C\n=@A", "K:C\n(3@A", "K:C\n{A@}B", "K:C\nA>B@",
            "K:C\n[r:A@]B", "A@\nK:C\nA", "K:C\nA\nw:a@", "K:C\nA\nT:A@", "K:C\nA@[0B", "K:C\n[0A@", "K:C\nA@[K:G#]", "K:C\n[K:G#]A@", "K:C\nA@\nX:1", "K:C\nX:1\nA@", "V:1\nV:2\nK:C\nV:1\nA\nV:2\nB\nc@\nV:1\nd@",
        ] {
            texts.push(put(frame, slashes.as_bytes()));
        }
        for marks in [123, 124, 132, 133] {
            for (sound, mark) in [("C", "'"), ("C", ","), ("[CE", "'")] {
                let end = if sound == "C" { "" } else { "]" };
                texts.push(format!("K:C\n{sound}{}{end}{slashes}B", mark.repeat(marks)).into_bytes());
            }
        }
    }
    texts
}

/// Sounds with lengths that are rich in slashes; few texts have a run that is refused.
fn run(r: &mut Rng) -> Vec<u8> {
    let mut text = format!("L:1/{}\nK:C\n", r.one(&[1, 4, 8, 8, 16, 64]));
    for _ in 0..1 + r.below(8) {
        text += r.pick(&SOUNDS);
        text += &match r.below(6) {
            0 => second::length(r, Taste::Any),
            1 => r.ascii(6, "/////22340-)"),
            2 => format!("{}{}", r.below(9), "/".repeat(r.below(6))),
            3 => format!("{}{}", "/".repeat(r.below(32)), r.pick(&["", "2", "-", "2-", "0/", " "])),
            4 if r.chance(20) => format!("{}{}", r.digits(), "/".repeat(r.below(41))),
            _ => format!("{}/{}{}", r.digits(), r.digits(), "/".repeat(r.below(4))),
        };
        text += r.pick(&["", "", "-", ")", " ", "|", ">", "\n"]);
    }
    text.into_bytes()
}
