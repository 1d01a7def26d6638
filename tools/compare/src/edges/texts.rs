//! Text: UTF-8, white space, lines and their classes.
use super::{Piece, all_of, ascii_pairs, put, put_into};
use oracle::rng::Rng;

pub fn pieces() -> [Piece; 5] {
    [
        Piece { name: "UTF-8", edges: sequences, random: broken },
        Piece { name: "blank texts", edges: blanks, random: blank },
        Piece { name: "white space", edges: characters, random: words },
        Piece { name: "line ends", edges: ends, random: end },
        Piece { name: "classes of lines", edges: heads, random: head },
    ]
}

const SPACES: [&str; 25] = [
    "\t", "\n", "\u{b}", "\u{c}", "\r", " ", "\u{85}", "\u{a0}", "\u{1680}", "\u{2000}", "\u{2001}", "\u{2002}", "\u{2003}", "\u{2004}",
    "\u{2005}", "\u{2006}", "\u{2007}", "\u{2008}", "\u{2009}", "\u{200a}", "\u{2028}", "\u{2029}", "\u{202f}", "\u{205f}", "\u{3000}",
];

/// Look like white space, or start with its bytes, and are none.
const NO_SPACES: [&str; 24] = [
    "\u{0}", "\u{8}", "\u{e}", "\u{1c}", "\u{1f}", "!", "\u{7f}", "\u{80}", "\u{84}", "\u{86}", "\u{9f}", "\u{a1}", "\u{167f}", "\u{1681}", "\u{180e}",
    "\u{1fff}", "\u{200b}", "\u{2027}", "\u{202a}", "\u{2060}", "\u{205e}", "\u{2fff}", "\u{3001}", "\u{feff}",
];

/// Alone, where a blank text is refused; inside a word of a lyric line; at the end of a music line, where white space is cut off.
const FRAMES: [&str; 3] = ["@", "K:C\nABcd\nw:x@y", "K:C\nA@"];

/// Every byte, every pair of bytes, and of three and four bytes those at the ends of each range.
fn sequences() -> Vec<Vec<u8>> {
    let edges = [0x00, 0x20, 0x41, 0x7f, 0x80, 0x85, 0x8a, 0x8f, 0x90, 0x9a, 0x9f, 0xa0, 0xaf, 0xbf, 0xc0, 0xc2, 0xdf, 0xe0, 0xe2, 0xf0, 0xff];
    let heads = [0xc1, 0xc2, 0xdf, 0xe0, 0xe1, 0xe2, 0xe3, 0xec, 0xed, 0xee, 0xef, 0xf0, 0xf1, 0xf3, 0xf4, 0xf5, 0xff, 0x41, 0x80];
    let mut texts = put_into(&FRAMES, "");
    for a in 0..=255u8 {
        texts.extend(put_into(&FRAMES, [a]));
        for b in 0..=255u8 {
            texts.extend(put_into(&FRAMES[..2], [a, b]));
        }
    }
    for a in heads {
        for b in edges {
            for c in edges {
                texts.extend(put_into(&FRAMES, [a, b, c]));
                for d in [0x20, 0x80, 0xbf, 0xc0] {
                    texts.extend(put_into(&FRAMES[..2], [a, b, c, d]));
                }
            }
        }
    }
    texts
}

fn character(r: &mut Rng) -> char {
    let code = match r.below(6) {
        0 => r.below(0x80),
        1 => r.below(0x800),
        2 => r.below(0x1_0000),
        3 => r.below(0x11_0000),
        4 => r.one(&[0x7f, 0x80, 0x7ff, 0x800, 0xd7ff, 0xe000, 0xffff, 0x1_0000, 0x10_ffff]),
        _ => return r.pick(&SPACES).chars().next().unwrap(),
    };
    char::from_u32(code as u32).unwrap_or('?')
}

fn some(r: &mut Rng, most: usize) -> String {
    let count = r.below(most + 1);
    (0..count).map(|_| character(r)).collect()
}

/// Characters; then, more often than not, a byte changed, put in, or left out, or the end cut off.
fn broken(r: &mut Rng) -> Vec<u8> {
    let mut text = some(r, 7).into_bytes();
    for _ in 0..r.one(&[0, 1, 1, 2]) {
        let at = r.below(text.len() + 1);
        let byte = if r.chance(50) { r.below(256) as u8 } else { r.one(&[0x7f, 0x80, 0x9f, 0xa0, 0xbf, 0xc0, 0xc2, 0xe0, 0xed, 0xf0, 0xf4]) };
        match r.below(4) {
            0 => text.insert(at, byte),
            1 if at < text.len() => text[at] = byte,
            2 if at < text.len() => drop(text.remove(at)),
            _ => text.truncate(at),
        }
    }
    put(r.pick(&FRAMES), &text)
}

/// Up to two characters that are or look like white space.
fn blanks() -> Vec<Vec<u8>> {
    let all = [&SPACES[..], &NO_SPACES[..]].concat();
    (0..=2).flat_map(|length| all_of(&all, length)).flat_map(|text| put_into(&FRAMES, text)).collect()
}

fn blank(r: &mut Rng) -> Vec<u8> {
    let count = r.below(8);
    let mut text = r.pieces(count, &SPACES);
    if r.chance(50) {
        text += r.pick(&NO_SPACES);
        let count = r.below(3);
        text += &r.pieces(count, &SPACES);
    }
    text.into_bytes()
}

/// Every character there is, between the letters of a lyric line: white space parts them. Those of ASCII one to a text, the others by sixteens.
fn characters() -> Vec<Vec<u8>> {
    let mut texts: Vec<Vec<u8>> = (0..128u8).flat_map(|c| put_into(&FRAMES, [c])).collect();
    let all: Vec<char> = (0x80..=0x10_ffff).filter_map(char::from_u32).collect();
    for some in all.chunks(16) {
        let words: String = some.iter().flat_map(|c| ['a', *c]).collect();
        texts.push(put("K:C\nABcdABcdABcdABcd\nw:@z", words.as_bytes()));
    }
    texts
}

fn words(r: &mut Rng) -> Vec<u8> {
    let count = 1 + r.below(9);
    let words: String = (0..count)
        .map(|_| match r.below(4) {
            0 => r.pick(&NO_SPACES).to_string(),
            1 => r.pick(&["a", "b-", "-", "_", "*", "~", "|", "\\", "é", "日本"]).to_string(),
            _ => character(r).to_string(),
        })
        .collect();
    put(r.pick(&["K:C\nABcdABcd\nw:@z", "K:C\nABcd|ef\nw:@\nw: x@", "w:@\nK:C\nAB\nw:@\nw:a"]), words.as_bytes())
}

/// A `V:` line without identifier at the end is refused with its number, which tells how many lines there are.
const LINE_FRAMES: [&str; 4] = ["K:C\nA@B\nV:", "K:C\nABcd\nw:a@b\nw:c", "K:C\n@A", "@\nV:"];

/// All texts of up to three characters that matter, and all of six of five of them.
fn ends() -> Vec<Vec<u8>> {
    let marks = ["A", "%", "\n", "\r", " ", "\t", "\u{85}", "\u{a0}", "\u{1680}", "\u{2003}", "\u{2028}", "\u{205f}", "\u{3000}", "\u{200b}", "é", "\u{2027}", "\u{3001}", "\u{1681}", "\u{c}", "\u{1c}", "\u{0}"];
    let mut all: Vec<String> = (0..=3).flat_map(|length| all_of(&marks, length)).collect();
    all.extend(all_of(&["A", "%", "\n", "\r", "\u{2003}"], 6));
    all.iter().flat_map(|text| put_into(&LINE_FRAMES, text)).collect()
}

fn end(r: &mut Rng) -> Vec<u8> {
    let mut text = String::new();
    for _ in 0..r.below(4) {
        text += &some(r, 5);
        if r.chance(30) {
            text += r.pick(&["%", "%%", "A%"]);
        }
        let count = r.one(&[0, 0, 1, 2, 5]);
        text += &r.pieces(count, &SPACES);
        if r.chance(20) {
            text += r.pick(&NO_SPACES);
        }
        text += r.pick(&["\n", "\n", "\n", "\r\n", "\r", "\n\n", ""]);
    }
    put(r.pick(&LINE_FRAMES), text.as_bytes())
}

/// A line in the header, and in the body between music and a lyric line.
const HEAD_FRAMES: [&str; 2] = ["@\nK:G\nA", "K:G\nAB|\n@\nc\nw:x y z"];

/// Every two bytes of ASCII, with nothing and something behind them.
fn heads() -> Vec<Vec<u8>> {
    let mut texts: Vec<Vec<u8>> = ["", "é", "é:", "V\u{ff1a}1"].iter().flat_map(|head| put_into(&HEAD_FRAMES, head)).collect();
    texts.extend((0..128u8).flat_map(|a| put_into(&HEAD_FRAMES, [a])));
    for [a, b] in ascii_pairs() {
        texts.extend(put_into(&HEAD_FRAMES, [a, b]));
        texts.extend(put_into(&HEAD_FRAMES, [a, b, b'C']));
    }
    texts
}

fn head(r: &mut Rng) -> Vec<u8> {
    let mut text = r.pick(&["", "", "", " ", "\u{feff}", "|", "é"]).to_string();
    text.push(r.one(b"VKLMXTCQwvklmxzAGIrsNZ|:1 ") as char);
    text += r.pick(&[":", ":", ":", ":", "", " :", "::", "|"]);
    text += &r.ascii(6, "VKLM1/4 Cmin:|");
    put(r.pick(&HEAD_FRAMES), text.as_bytes())
}
