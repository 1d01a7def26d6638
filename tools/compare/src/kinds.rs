//! The kinds of texts that programs of this package try: text i of a kind depends on the seed and i only. tools/compare/README.md has the list.
use crate::texts::{TEXTS, Text};
use crate::{edges, second, tunes};
use oracle::generate;
use oracle::rng::Rng;

/// Some texts of one kind.
pub struct Texts<'a> {
    pub name: &'a str,
    pub count: u64,
    pub text: &'a (dyn Fn(u64) -> Vec<u8> + Sync),
    /// With every so manieth, stores of lengths around those that just fit are tried.
    pub around: u64,
    /// With the others, none but those that fit.
    pub once: bool,
}

/// All kinds whose names are wanted, one after the other; `count` is that of generated texts.
pub fn for_each(count: u64, seed: u64, wanted: impl Fn(&str) -> bool, mut visit: impl FnMut(Texts)) {
    let mut kind = |name: &str, count: u64, around: u64, text: &(dyn Fn(u64) -> Vec<u8> + Sync)| {
        if wanted(name) {
            visit(Texts { name, count, text, around, once: false });
        }
    };
    let probes = probes();
    kind("probes", probes.len() as u64, 1, &|i| probes[i as usize].clone());
    for (name, text) in &limits() {
        kind(&format!("limit: {name}"), 1, 1, &|_| text.clone());
    }
    for length in 0..=4 {
        kind(&format!("lines: all of {length} bytes"), lines_of(length), u64::MAX, &|i| line(length, i));
    }
    for (at, piece) in edges::pieces().iter().enumerate() {
        let name = format!("edges: {}", piece.name);
        let texts = if wanted(&name) { (piece.edges)() } else { Vec::new() };
        kind(&name, texts.len() as u64, 16, &|i| texts[i as usize].clone());
        let seed = seed ^ (0xed6e << 16 | at as u64);
        kind(&format!("random: {}", piece.name), count / 20, 16, &|i| (piece.random)(&mut Rng::of(seed, i)));
    }
    kind("generated", count, 16, &|i| generate::text(&mut Rng::of(seed, i)));
    kind("mutated", count / 4, 16, &|i| mutated(&mut Rng::of(seed ^ 0x5eed, i)));
    kind("bytes", count / 4, 16, &|i| noise(&mut Rng::of(seed ^ 0xb17e5, i)));
    kind("texts of 2.1", count / 2, 16, &|i| second::text(&mut Rng::of(seed ^ 0x2_0001, i)));
    kind("texts of 2.1, mixed", count / 4, 16, &|i| second::mixed(&mut Rng::of(seed ^ 0x2_0002, i)));
    let tunes = tunes::all();
    kind("tunes", tunes::COUNT as u64, 16, &|i| tunes[i as usize].clone().into_bytes());
    let whole: Vec<String> = TEXTS.iter().filter(|text| text.name != "tunes").flat_map(Text::texts).collect();
    kind("adversarial: whole", whole.len() as u64, 16, &|i| whole[i as usize].clone().into_bytes());
    kind("adversarial: pieces", count / 20, 16, &|i| adversarial(&mut Rng::of(seed ^ 0xad7e, i), &whole));
    let mut many = |name: &str, count: u64, text: &(dyn Fn(u64) -> Vec<u8> + Sync)| {
        if wanted(name) {
            visit(Texts { name, count, text, around: 64, once: true });
        }
    };
    many(&format!("pass lists: all of up to {} bytes", edges::passes::LONGEST), edges::passes::runs(), &edges::passes::run);
    many("pass lists: longer", count, &|i| edges::passes::run_at_random(&mut Rng::of(seed ^ 0x9a55, i)));
    many(&format!("lengths: all to {}, units to {}", edges::lengths::MOST, edges::lengths::UNITS), edges::lengths::small(), &edges::lengths::small_text);
    many("lengths: many at random", count / edges::lengths::SEVERAL, &|i| edges::lengths::several(&mut Rng::of(seed ^ 0x1e97, i)));
}

pub fn probes() -> Vec<Vec<u8>> {
    let rows = include_str!("../../oracle/probes.tsv").lines();
    rows.map(|row| oracle::unescape(row.split('\t').next().unwrap())).collect()
}

/// Document 01's bars that are run only, and the other limits.
pub fn limits() -> Vec<(&'static str, Vec<u8>)> {
    let line = |music: &str| format!("L:1/8\nK:C\n{music}").into_bytes();
    let lines = |n: usize| format!("K:C\nA\n{}", "B\n".repeat(n - 2)).into_bytes();
    let notes = |n: usize| line(&"A".repeat(n));
    let voices = |n: usize| (0..n).fold("K:C\n".to_string(), |text, i| text + &format!("V:{i}\nA\n")).into_bytes();
    let long = |n: usize| line(&format!("A{}", " ".repeat(n - 2))).into_iter().chain(*b"B").collect::<Vec<u8>>();
    vec![
        ("(255", line("(255ABC")),
        ("(256", line("(256ABC")),
        ("130 _ before A", line(&format!("{}A", "_".repeat(130)))),
        ("130 ^ before A", line(&format!("{}A", "^".repeat(130)))),
        ("10,000 lines", lines(10_000)),
        ("10,001 lines", lines(10_001)),
        ("100,000 notes", notes(100_000)),
        ("100,001 notes", notes(100_001)),
        // In the second edition 22 comes before 11.
        ("100,001 notes and 32 slashes", line(&format!("{}{}", "A".repeat(100_001), "/".repeat(32)))),
        ("255 >", line(&format!("A{}B", ">".repeat(255)))),
        ("256 >", line(&format!("A{}B", ">".repeat(256)))),
        ("32 voices", voices(32)),
        ("33 voices", voices(33)),
        ("a line of 1,048,576 bytes", long(1_048_576)),
        ("a line of 1,048,577 bytes", long(1_048_577)),
        ("octave 127", line(&format!("C{}", "'".repeat(123)))),
        ("octave 128", line(&format!("C{}", "'".repeat(124)))),
        ("octave -128", line(&format!("C{}", ",".repeat(132)))),
        ("octave -129", line(&format!("C{}", ",".repeat(133)))),
        ("pass 32", line("[32A")),
        ("pass 33", line("[33A")),
        ("33 verses", line(&format!("A\n{}", (0..33).map(|i| format!("w:v{i}\n")).collect::<String>()))),
        ("a numerator of 32 bits", line("A4294967295 A4294967296")),
        ("a count of 64 bits", line("(3:2:18446744073709551615A (3:2:18446744073709551616A")),
    ]
}

/// Bytes of music lines that mean something, one of each kind.
const ALPHABET: &[u8] = b"Ac^_=,'2/z|:[]()13>&{-\" ";

fn lines_of(length: u32) -> u64 {
    (ALPHABET.len() as u64).pow(length)
}

/// Music line number i of this length.
fn line(length: u32, mut i: u64) -> Vec<u8> {
    let mut text = b"K:G\n".to_vec();
    for _ in 0..length {
        text.push(ALPHABET[(i % ALPHABET.len() as u64) as usize]);
        i /= ALPHABET.len() as u64;
    }
    text
}

/// Two generated texts cut and joined, with a few bytes changed.
fn mutated(r: &mut Rng) -> Vec<u8> {
    let (a, b) = (generate::text(r), generate::text(r));
    // At an ASCII byte, so that most texts stay UTF-8.
    let cut = |text: &[u8], from: usize| (from..text.len()).find(|i| text[*i] < 128).unwrap_or(text.len());
    let (i, j) = (cut(&a, r.below(a.len() + 1)), cut(&b, r.below(b.len() + 1)));
    let mut text = [&a[..i], &b[j..]].concat();
    change(r, &mut text);
    text
}

/// Changes a few bytes.
pub fn change(r: &mut Rng, text: &mut Vec<u8>) {
    for _ in 0..r.below(6) {
        if text.is_empty() {
            break;
        }
        let at = r.below(text.len());
        match r.below(4) {
            _ if text[at] > 127 => {}
            0 => text[at] = ALPHABET[r.below(ALPHABET.len())],
            1 => text.insert(at, ALPHABET[r.below(ALPHABET.len())]),
            2 => drop(text.remove(at)),
            _ => text[at] = r.next() as u8 & 0x7f,
        }
    }
}

/// Up to three pieces of the benchmark's texts, mostly of one of them, behind a header, with a few bytes changed: small, as the whole texts take long.
fn adversarial(r: &mut Rng, texts: &[String]) -> Vec<u8> {
    let mut text = b"X:1\nL:1/8\nK:D\n".to_vec();
    let mut from = r.below(texts.len());
    for _ in 0..1 + r.below(3) {
        if r.chance(20) {
            from = r.below(texts.len());
        }
        let whole = &texts[from];
        let at = whole.floor_char_boundary(r.below(whole.len() + 1));
        let most = r.one(&[20, 100, 400]);
        let end = whole.floor_char_boundary((at + r.below(most)).min(whole.len()));
        text.extend(whole[at..end].bytes());
    }
    change(r, &mut text);
    text
}

/// Bytes of fields, music and lyrics.
const SIGNS: &[u8] = b"\n\n\r\t %:KLMVwX[]|ABCcdefg12/>-~*_";

/// Bytes: any, or ones of UTF-8, or ones of music.
fn noise(r: &mut Rng) -> Vec<u8> {
    let length = r.below(80);
    let kind = r.below(3);
    let mut text = if r.chance(60) { b"K:C\n".to_vec() } else { Vec::new() };
    for _ in 0..length {
        match kind {
            0 => text.push(r.next() as u8),
            1 => {
                let c = char::from_u32(r.below(0x3100) as u32).unwrap_or('~');
                text.extend(c.to_string().bytes());
            }
            _ => text.push(SIGNS[r.below(SIGNS.len())]),
        }
    }
    text
}
