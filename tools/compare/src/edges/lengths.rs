//! Lengths: the suffix, the written value, broken rhythm.
use super::{Piece, music, put_into};
use oracle::rng::Rng;

pub fn pieces() -> [Piece; 3] {
    [
        Piece { name: "length suffixes", edges: suffixes, random: suffix },
        Piece { name: "written values", edges: values, random: value },
        Piece { name: "broken rhythm", edges: pairs, random: chain },
    ]
}

/// What takes a suffix: a note, rests, a chord, the empty chord.
const SOUNDS: [&str; 5] = ["K:C\nA@", "K:C\nz@", "K:C\nZ@", "K:C\n[CE]@", "K:C\nA[]@"];

fn suffixes() -> Vec<Vec<u8>> {
    let numbers = [
        "", "0", "1", "00", "2", "9", "10", "007", "255", "256", "65536", "2147483647", "2147483648", "4294967294", "4294967295",
        "4294967296", "4294967297", "42949672950", "9999999999", "18446744073709551615", "18446744073709551616",
        "99999999999999999999999999999999999999999", "00000000000000000000000000000000000004294967295",
        "00000000000000000000000000000000000004294967296",
    ];
    let mut texts = Vec::new();
    for num in numbers {
        for den in numbers {
            for tail in ["", "/", "/2", " ", "A"] {
                texts.extend(put_into(&SOUNDS, format!("{num}/{den}{tail}")));
            }
        }
        for text in [num.to_string(), format!("{num}//"), format!("{num}///3"), format!("{num} /2"), format!("{num}:3"), format!("{num}.5")] {
            texts.extend(put_into(&SOUNDS, &text));
            texts.push(music(text));
        }
    }
    texts
}

fn suffix(r: &mut Rng) -> Vec<u8> {
    let mut text = r.ascii(3, "AGc^,'zZ] ");
    text += r.pick(&["A", "c'", "z", "[CE]", ""]);
    if r.chance(80) {
        text += &r.digits();
    }
    for _ in 0..r.one(&[0, 0, 1, 1, 1, 2, 3]) {
        text.push('/');
        if r.chance(70) {
            text += &r.digits();
        }
    }
    text += &r.ascii(4, "0123456789/ABc'|");
    music(text)
}

/// Numbers of units, numerators and denominators.
const NUMBERS: [u32; 52] = [
    0, 1, 2, 3, 4, 5, 6, 7, 8, 9, 10, 11, 12, 13, 14, 15, 16, 17, 24, 28, 30, 31, 32, 48, 56, 60, 62, 63, 64, 120, 127, 128, 129, 255, 256, 1023,
    1024, 1025, 4096, 65535, 65536, 8388608, 16777216, 33554432, 67108864, 134217728, 1 << 30, (1 << 31) - 1, 1 << 31, (1 << 31) + 1,
    u32::MAX - 1, u32::MAX,
];

/// Document 01's domain of equality.
fn in_domain(unit: u32, den: u32) -> bool {
    u64::from(den) * u64::from(unit.max(1)) <= 1 << 57
}

/// One text for each unit and numerator, with a note for each denominator.
fn values() -> Vec<Vec<u8>> {
    let mut texts = Vec::new();
    for unit in NUMBERS {
        for num in NUMBERS {
            let notes: String = NUMBERS.iter().filter(|den| in_domain(unit, **den)).map(|den| format!("A{num}/{den} ")).collect();
            texts.push(format!("L:1/{unit}\nK:C\n{notes}").into_bytes());
        }
    }
    texts
}

/// Texts outside the domain of equality, and one that is read alike: such a length is a plain quarter (docs/DECISIONS.md, 22).
pub fn outside() -> Vec<[Vec<u8>; 2]> {
    let mut texts = Vec::new();
    for unit in NUMBERS {
        for den in NUMBERS.into_iter().filter(|den| !in_domain(unit, *den)) {
            let notes: String = NUMBERS.iter().map(|num| format!("A{num}/{den} ")).collect();
            texts.push([format!("L:1/{unit}\nK:C\n{notes}"), format!("L:1/4\nK:C\n{}", "A ".repeat(NUMBERS.len()))].map(String::into_bytes));
        }
    }
    texts
}

pub fn outside_at_random(r: &mut Rng) -> [Vec<u8>; 2] {
    loop {
        let (unit, den) = (r.number(32) as u32, r.number(32) as u32);
        if !in_domain(unit, den) {
            return [format!("L:1/{unit}\nK:C\nA{}/{den}", r.number(32)), "L:1/4\nK:C\nA".into()].map(String::into_bytes);
        }
    }
}

/// Numerators and denominators from 0 to this, over units from 1 to that: every such length.
pub const MOST: u64 = 300;
pub const UNITS: u64 = 64;

/// How many texts have them all: one for each unit and numerator.
pub fn small() -> u64 {
    UNITS * (MOST + 1)
}

/// Text number i of these, with a note for each denominator.
pub fn small_text(i: u64) -> Vec<u8> {
    let (unit, num) = (1 + i / (MOST + 1), i % (MOST + 1));
    let notes: String = (0..=MOST).map(|den| format!("A{num}/{den} ")).collect();
    format!("L:1/{unit}\nK:C\n{notes}").into_bytes()
}

/// Any unit, numerator and denominator; or ones of a length close to one of the forty.
fn numbers(r: &mut Rng) -> (u64, u64, u64) {
    if r.chance(40) {
        (r.number(32), r.number(32), r.number(32))
    } else {
        // value × (2^(dots+1) − 1) / 2^dots = num / (den × unit), each side times the same
        let (value, dots) = (r.below(10), r.below(4));
        let size = (4096u64 >> (value + dots)) * ((2 << dots) - 1);
        let unit = 1u64 << r.below(12);
        let (den, scale) = (1 + r.number(20), 1 + r.number(8));
        let (num, den) = (size * den * unit / 1024 * scale, den * scale);
        let mut near = |n: u64| n.saturating_add(r.one(&[0, 0, 0, 1, 2])).saturating_sub(r.one(&[0, 0, 0, 1, 2])).min(u64::from(u32::MAX));
        (near(unit), near(num), near(den))
    }
}

fn value(r: &mut Rng) -> Vec<u8> {
    let (unit, num, den) = numbers(r);
    format!("L:1/{unit}\nK:C\nA{num}/{den}").into_bytes()
}

/// How many lengths a text of `several` has.
pub const SEVERAL: u64 = 20;

/// Lengths of the domain of equality, each under its own unit.
pub fn several(r: &mut Rng) -> Vec<u8> {
    let mut text = String::from("K:C\n");
    for _ in 0..SEVERAL {
        let (unit, num, den) = loop {
            let (unit, num, den) = numbers(r);
            if in_domain(unit as u32, den as u32) {
                break (unit, num, den);
            }
        };
        text += &format!("[L:1/{unit}]A{num}/{den}");
    }
    text.into_bytes()
}

/// A note of one of the forty values under L:1/1; the eleventh is a whole bar.
fn written(value: u32, dots: u32) -> String {
    if value == 10 { "Z".into() } else { format!("A{}/{}", 4 * ((2 << dots) - 1), 1 << (value + dots)) }
}

/// Every count and sign between two notes of one value. No text makes more than three dots.
fn pairs() -> Vec<Vec<u8>> {
    let mut texts = Vec::new();
    for value in 0..11 {
        for dots in 0..4 {
            let note = written(value, dots);
            for count in 1..256 {
                texts.extend([">", "<"].map(|sign| format!("L:1/1\nK:C\n{note}{}{note}", sign.repeat(count)).into_bytes()));
            }
        }
    }
    texts
}

/// Notes with signs between them, so that one note takes dots or halves from both sides.
fn chain(r: &mut Rng) -> Vec<u8> {
    let mut text = String::from("L:1/1\nK:C\n");
    for _ in 0..2 + r.below(4) {
        text += &written(r.below(11) as u32, r.below(4) as u32);
        let count = if r.chance(60) { r.below(14) } else { r.below(257) };
        text += &r.pick(&[">", "<"]).repeat(count);
        if r.chance(15) {
            text += r.pick(&[" ", "[CE]", "z", "[]2", "[]/", "|", "&", "\"Am\"", "(3", "{", "}"]);
        }
    }
    text.into_bytes()
}
