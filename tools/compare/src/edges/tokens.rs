//! Music lines: tokens beside one another.
use super::{Piece, ascii_pairs, music, put};
use oracle::rng::Rng;

pub fn pieces() -> [Piece; 1] {
    [Piece { name: "tokens", edges: lines, random: line }]
}

const TOKENS: [&str; 101] = [
    "A", "B", "c", "g", "A2", "B/", "c/2", "g3/2", "A//", "A0", "A/0", "A'", "A,", "c''", "C,,2", "A-", "A)", "A-)", "A)-2", "^A", "_A", "=A", "^^A", "__B", "^/A", "_/c", "^", "_", "=", "^^/A", "^2", "^ ", "^[", "^|",
    "^\"", "z", "x", "Z", "X", "z2", "x/", "Z4", "X2", "|", "||", "|:", ":|", "::", "|]", ":", ":|]", "||]", "|1", "[|", "[CE]", "[C2E2]2", "[]", "[]2", "[^CE-]", "[A", "[|]", "[A:B]", "[K:G]", "[K:Am]", "[L:1/4]", "[L:1/16]",
    "[L:1/x]", "[M:3/4]", "[M:]", "[V:2]", "[r:x]", "[K:G middle=B]", "[1", "[2,3", "[1-3", "[0", "[1,", "[3-1", "[\"Am\"CEG]", "[\"K:G\"]", "\"Am\"", "\"", "\"\"", "!f!", "+f+", "!", "+", "!!", "(", "(3", "(3:2", "(3:2:4", "(1", "(3:",
    ")", "{", "}", "{A}", ">", "<", ">>",
];

fn lines() -> Vec<Vec<u8>> {
    let mut texts = Vec::new();
    for a in TOKENS {
        texts.push(music(a));
        for b in TOKENS {
            texts.push(music(format!("{a}{b}")));
            texts.push(music(format!("A{a} {b}]c")));
        }
    }
    texts.extend((0..128u8).map(|a| music([a])));
    for pair in ascii_pairs() {
        texts.push(music(pair));
        texts.push(put("K:C\n[@]A", &pair));
    }
    for count in [1, 2, 3, 4, 127, 128, 254, 255, 256, 257, 300, 511, 512] {
        for sign in [">", "<"] {
            for before in ["", "A", "^", "\"", "!A"] {
                for after in ["", "B", ">", "<", "!"] {
                    texts.push(music(format!("{before}{}{after}", sign.repeat(count))));
                }
            }
        }
    }
    for count in [122, 123, 124, 131, 132, 133, 134] {
        for mark in [",", "'"] {
            for (before, after) in [("C", ""), ("c", "2"), ("[Ec", "G]"), ("\"C", "\""), ("z", ""), ("!C", "!"), ("[K:C", "]"), ("[C", "")] {
                texts.push(music(format!("{before}{}{after}", mark.repeat(count))));
            }
        }
    }
    texts
}

fn line(r: &mut Rng) -> Vec<u8> {
    let unit = if r.chance(80) { r.one(&[1, 2, 4, 8, 16, 32]) } else { r.number(24) };
    let mut text = format!("L:1/{unit}\nK:C\n");
    for _ in 0..1 + r.below(9) {
        match r.below(20) {
            0..=13 => text += r.pick(&TOKENS),
            14 => text += " ",
            15 => text += "&",
            16 => text += &r.digits(),
            17 => text += &r.ascii(4, "ABcg^_=[]|:\"!+(){}<>-',/0123456789zxZX& KLM"),
            18 => text.push(r.below(128) as u8 as char),
            _ => text += &r.pick(&[">", "<", ",", "'", "^", "_"]).repeat(r.below(300)),
        }
    }
    text.into_bytes()
}
