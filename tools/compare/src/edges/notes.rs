//! Notes and chords: letters, accidentals, octave marks, what stands behind a note.
use super::{Piece, music, put_into};
use oracle::rng::Rng;

pub fn pieces() -> [Piece; 3] {
    [
        Piece { name: "notes", edges: notes, random: note },
        Piece { name: "ties and slurs behind a note", edges: annotations, random: annotation },
        Piece { name: "chords", edges: chords, random: chord },
    ]
}

const LETTERS: [&str; 14] = ["A", "B", "C", "D", "E", "F", "G", "a", "b", "c", "d", "e", "f", "g"];

/// Runs of accidentals and octave marks around the ends of 8 bits.
fn notes() -> Vec<Vec<u8>> {
    let mut texts: Vec<Vec<u8>> = LETTERS.map(music).into();
    let frames = ["K:C\n@", "K:C\nG@", "K:E\n@ABcd"];
    for before in ["", "^", "_", "=", "^/", "_/", "=/", "^^", "__", "==", "^^/", "__/", "^_", "_^", "^=", "=^", "_=", "/", "^//", "^ ", "^2", "^[", "^|"] {
        for letter in ["", "A", "g", "C", "c", "H", "z", "%"] {
            for behind in ["", ",", "'", ",,''", "'',,", "2", "/2", "-", ")", "-)-)", ",'3/4-)(", " -", "&"] {
                texts.extend(put_into(&frames, format!("{before}{letter}{behind}")));
            }
        }
    }
    for count in [1, 2, 126, 127, 128, 129, 130, 255, 256, 257, 1000] {
        for sign in ["^", "_", "="] {
            for behind in ["A", "/A", "", "z"] {
                texts.push(music(sign.repeat(count) + behind));
            }
        }
    }
    for letter in ["C", "c", "B", "b"] {
        for down in [0, 1, 4, 5, 127, 128, 131, 132, 133, 134, 255, 256, 260, 261, 1000] {
            for up in [0, 1, 122, 123, 124, 127, 128, 251, 252, 254, 255, 256, 257, 258, 1000] {
                for again in ["", ",", "2"] {
                    texts.push(music(format!("{letter}{}{}{again}", ",".repeat(down), "'".repeat(up))));
                }
            }
        }
    }
    texts
}

fn signs(r: &mut Rng) -> String {
    match r.below(12) {
        0..=4 => String::new(),
        5..=8 => r.pick(&["^", "_", "=", "^^", "__", "^/", "_/"]).to_string(),
        9 => r.pick(&["^", "_", "="]).repeat(r.below(6)) + r.pick(&["", "/"]),
        10 => {
            let count = r.below(6);
            r.pieces(count, &["^", "_", "=", "/"])
        }
        _ => r.pick(&["^", "_"]).repeat(120 + r.below(20)),
    }
}

fn octaves(r: &mut Rng) -> String {
    match r.below(12) {
        0..=5 => String::new(),
        6..=8 => ",".repeat(r.below(4)) + &"'".repeat(r.below(4)),
        9 => {
            let count = r.below(8);
            r.pieces(count, &[",", "'"])
        }
        10 => ",".repeat(125 + r.below(12)) + &"'".repeat(r.below(4)),
        _ => ",".repeat(r.below(140)) + &"'".repeat(r.below(300)),
    }
}

fn note(r: &mut Rng) -> Vec<u8> {
    let mut text = r.ascii(3, "AGz ^_=|[");
    text += &signs(r);
    if r.chance(90) {
        text += r.pick(&LETTERS);
    }
    text += &octaves(r);
    if r.chance(30) {
        text += &r.digits();
    }
    if r.chance(20) {
        text.push('/');
    }
    let count = r.one(&[0, 0, 1, 2, 4]);
    text += &r.pieces(count, &["-", ")", "-", ")", "(", " "]);
    text += &r.ascii(3, "AGz^_,'-)2/");
    music(text)
}

fn annotations() -> Vec<Vec<u8>> {
    ["", "-", ")", "--", "))", "-)", ")-", "- )", ") -", "(-", "-(", "-)x-)", "A-)", "-\u{0}", ")\u{7f}"]
        .iter()
        .flat_map(|text| (0..=text.len()).flat_map(|at| put_into(&["K:C\n(A@", "K:C\n(A@B|c", "K:C\n([CE]2@B|c", "K:C\n(z@B"], &text[at..])))
        .collect()
}

fn annotation(r: &mut Rng) -> Vec<u8> {
    let before = r.pick(&["A", "A2", "[CE]", "(A", "(AB/", "z", "&A", ""]);
    music(format!("{before}{}", r.ascii(12, "-))--(A2 |")))
}

fn chords() -> Vec<Vec<u8>> {
    let mut texts = Vec::new();
    for inside in [
        "", "A", "CEG", "^A", "_/A", "^^/A", "=^A", "^/^A", "^ z2A", "^/", "^", "A,'", "A',", "|A", "\"Am\"CEG", "A2B/3", "=", "==A", "_^A", "^_A", "^=A", "_/=A",
        "^//A",
    ] {
        for close in ["]", "", "]2", "]]", "] A"] {
            texts.extend(put_into(&["K:C\n[@", "K:C\nA[@", "K:E\n[@ABcd"], format!("{inside}{close}")));
        }
    }
    for count in [126, 127, 128, 129, 130, 255, 256, 300] {
        for sign in ["^", "_"] {
            for before in ["", "^", "_", "=", "^/", "_/"] {
                texts.push(music(format!("[{before}{}A]", sign.repeat(count))));
            }
        }
    }
    for down in [0, 1, 132, 133, 134] {
        for up in [0, 1, 122, 123, 124, 255, 256] {
            for letter in ["C", "c"] {
                texts.push(music(format!("[E{letter}{}{}]", ",".repeat(down), "'".repeat(up))));
            }
        }
    }
    texts
}

fn chord(r: &mut Rng) -> Vec<u8> {
    let mut text = r.ascii(2, "AG[z ") + "[";
    for _ in 0..r.one(&[0, 1, 1, 2, 2, 3, 3, 4, 6]) {
        text += &signs(r);
        if r.chance(10) {
            text += r.pick(&["z", "2", " ", "\"", "|", "/", ":", "-"]);
        }
        if r.chance(95) {
            text += r.pick(&LETTERS);
        }
        text += &octaves(r);
    }
    if r.chance(90) {
        text.push(']');
    }
    text += &r.ascii(3, "AG2/]");
    music(text)
}
