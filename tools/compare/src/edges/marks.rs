//! Barlines, tuplets, pass lists.
use super::{Piece, all_of, ascii_pairs, music, put, put_into};
use oracle::rng::Rng;

pub fn pieces() -> [Piece; 3] {
    [
        Piece { name: "barlines", edges: bars, random: bar },
        Piece { name: "tuplets", edges: tuplets, random: tuplet },
        Piece { name: "pass lists", edges: lists, random: list },
    ]
}

/// Every two bytes between notes, and all of up to five of `|:]` and another.
fn bars() -> Vec<Vec<u8>> {
    let mut texts: Vec<Vec<u8>> = (0..128u8).map(|a| put("K:C\nA@B", &[a])).collect();
    texts.extend(ascii_pairs().map(|pair| put("K:C\nA@B", &pair)));
    for length in 0..=5 {
        for bars in all_of(&["|", ":", "]", "A"], length) {
            texts.extend(put_into(&["K:C\n@", "K:C\nA@B", "K:C\n[1A@"], bars));
        }
    }
    texts
}

fn bar(r: &mut Rng) -> Vec<u8> {
    let mut text = r.pick(&["", "A", "[1A", "A&B"]).to_string();
    for _ in 0..1 + r.below(4) {
        text += &r.ascii(8, "||::]A[1 ");
        text += r.pick(&["", "A", "B2", " "]);
    }
    music(text)
}

fn tuplets() -> Vec<Vec<u8>> {
    let numbers = [
        "", "0", "1", "2", "3", "4", "5", "9", "10", "00", "01", "002", "0003", "254", "255", "256", "257", "999", "4294967295", "4294967296",
        "18446744073709551614", "18446744073709551615", "18446744073709551616", "99999999999999999999999", "0000000000000000000000000000003",
        "00000000000000000000000018446744073709551615", "00000000000000000000000018446744073709551616", "+3", "-3", " 3",
    ];
    // As many notes behind it as a count can tell from another.
    let frame = "K:C\n@ ABcdABcdABcd";
    let mut texts = Vec::new();
    for p in numbers {
        texts.extend(put_into(&["K:C\n(@", "K:C\nA(@BABcdABcdABcd"], p));
        for q in numbers {
            texts.push(put(frame, format!("({p}:{q}").as_bytes()));
            texts.push(put(frame, format!("({p}:{q}|").as_bytes()));
            for r in numbers {
                texts.extend(["", ":", "A", ":4"].map(|tail| put(frame, format!("({p}:{q}:{r}{tail}").as_bytes())));
            }
        }
    }
    texts
}

fn tuplet(r: &mut Rng) -> Vec<u8> {
    let mut text = r.ascii(2, "A((3") + "(";
    for part in 0..r.one(&[1, 1, 2, 2, 3, 3, 3, 4]) {
        if part > 0 {
            text.push(':');
        }
        if r.chance(95) {
            text += &r.digits();
        }
    }
    text += &r.ascii(3, "A3:|(");
    for _ in 0..r.below(24) {
        text += r.pick(&["A", "B", "c2", "z", "[CE]", "|", " ", "&", "(3", "-", ")"]);
    }
    music(text)
}

/// Every list of up to five of `0 1 2 , -`, and lists around 32.
fn lists() -> Vec<Vec<u8>> {
    let frames = ["K:C\n[@A|B", "K:C\nA|[@B|c"];
    let mut texts = Vec::new();
    for length in 0..=5 {
        for list in all_of(&["0", "1", "2", ",", "-"], length) {
            texts.extend(put_into(&frames, list));
        }
    }
    let numbers = ["0", "1", "2", "3", "9", "10", "31", "32", "33", "99", "032", "255", "256", "257", "4294967297", "18446744073709551617", ""];
    for a in numbers {
        for b in numbers {
            for c in numbers {
                texts.extend(["-", ","].map(|x| music(format!("[{a}{x}{b},{c}A"))));
                texts.extend(["-", ","].map(|x| music(format!("[{a},{b}{x}{c}|A"))));
            }
        }
    }
    let all: Vec<String> = (1..=32).map(|n| n.to_string()).collect();
    texts.extend([",", "-"].map(|x| music(format!("[{}A", all.join(x)))));
    texts
}

fn list(r: &mut Rng) -> Vec<u8> {
    let mut text = String::new();
    let mut low = 0;
    for item in 0..1 + r.below(5) {
        if item > 0 {
            text.push(',');
        }
        low += 1 + r.below(6);
        text += &low.to_string();
        if r.chance(30) {
            low += 1 + r.below(4);
            text += &format!("-{low}");
        }
    }
    if r.chance(30) {
        let at = r.below(text.len() + 1);
        text.insert(at, r.one(b"0123456789,-") as char);
    }
    if r.chance(20) {
        text = text.split_off(r.below(text.len() + 1));
    }
    text += &r.ascii(2, "A|] ");
    put(r.pick(&["K:C\n[@A|B", "K:C\nA|[@B|c", "K:C\n[1A:|[@B|]c"]), text.as_bytes())
}
