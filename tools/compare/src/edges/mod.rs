//! Texts about one piece of the notation each: at its limits (edges), and at random around them. tools/compare/README.md has the list.
use oracle::rng::Rng;

mod fields;
pub mod lengths;
mod marks;
mod notes;
pub mod passes;
mod second;
mod texts;
mod tokens;

pub use lengths::{outside, outside_at_random};

pub struct Piece {
    pub name: &'static str,
    pub edges: fn() -> Vec<Vec<u8>>,
    pub random: fn(&mut Rng) -> Vec<u8>,
}

pub fn pieces() -> Vec<Piece> {
    let mut pieces = Vec::new();
    pieces.extend(lengths::pieces());
    pieces.extend(notes::pieces());
    pieces.extend(marks::pieces());
    pieces.extend(fields::pieces());
    pieces.extend(tokens::pieces());
    pieces.extend(texts::pieces());
    pieces.extend(second::pieces());
    pieces
}

/// A piece put into each of these texts, where `@` stands.
fn put_into(frames: &[&str], piece: impl AsRef<[u8]>) -> Vec<Vec<u8>> {
    frames.iter().map(|frame| put(frame, piece.as_ref())).collect()
}

fn put(frame: &str, piece: &[u8]) -> Vec<u8> {
    frame.split('@').map(str::as_bytes).collect::<Vec<_>>().join(piece)
}

/// A music line under `K:C`.
fn music(line: impl AsRef<[u8]>) -> Vec<u8> {
    put("K:C\n@", line.as_ref())
}

/// At times with a character more, and at times cut at the front.
fn spoiled(r: &mut Rng, mut text: String, often: &str) -> String {
    if r.chance(20) {
        let at = r.below(text.len() + 1);
        text.insert(at, if r.chance(70) { r.one(often.as_bytes()) } else { r.below(128) as u8 } as char);
    }
    if r.chance(85) { text } else { text.split_off(r.below(text.len() + 1)) }
}

/// All texts of `length` of these signs.
fn all_of(signs: &[&str], length: usize) -> Vec<String> {
    let mut texts = vec![String::new()];
    for _ in 0..length {
        texts = texts.iter().flat_map(|text| signs.iter().map(move |next| format!("{text}{next}"))).collect();
    }
    texts
}

/// Every two bytes of ASCII.
fn ascii_pairs() -> impl Iterator<Item = [u8; 2]> {
    (0..128u8).flat_map(|a| (0..128u8).map(move |b| [a, b]))
}
