//! Runs of digits, commas and hyphens behind a `[`: read, or refused for their shape (14), a number out of 1 to 32 (17) or their order (18).
use super::put;
use oracle::rng::Rng;

/// Digits first: a run begins with one of them.
const SIGNS: &[u8] = b"01239,-";
const DIGITS: u64 = 5;
pub const LONGEST: u32 = 7;

/// How many runs of up to `LONGEST` of these signs begin with a digit.
pub fn runs() -> u64 {
    (0..LONGEST).map(|more| DIGITS * (SIGNS.len() as u64).pow(more)).sum()
}

/// A text with run number i of them, shorter ones first.
pub fn run(mut i: u64) -> Vec<u8> {
    let signs = SIGNS.len() as u64;
    let (mut more, mut count) = (0, DIGITS);
    while i >= count {
        i -= count;
        more += 1;
        count *= signs;
    }
    let mut text = vec![SIGNS[(i % DIGITS) as usize]];
    i /= DIGITS;
    for _ in 0..more {
        text.push(SIGNS[(i % signs) as usize]);
        i /= signs;
    }
    put("K:C\n[@A", &text)
}

/// A text with a longer run, at times with another list before or behind it.
pub fn run_at_random(r: &mut Rng) -> Vec<u8> {
    let run = if r.chance(25) { any(r) } else { list(r) };
    let frames = ["K:C\n[@A", "K:C\n[@A|B", "K:C\nA|[@ B:|c", "K:C\n[@]A", "K:C\n[@", "K:C\n[@A[01", "K:C\n[@A[0", "K:C\n[@A[3-1", "K:C\n[2A:|[@B|]c", "K:C\nA\n[@B\n[@c"];
    put(r.pick(&frames), run.as_bytes())
}

/// Up to twenty digits, commas and hyphens, a digit first.
fn any(r: &mut Rng) -> String {
    let first = r.one(b"0123456789") as char;
    (0..r.below(20)).fold(first.to_string(), |text, _| text + &(r.one(b"0123456789,-") as char).to_string())
}

/// Numbers out of 1 to 32, and some that 8, 32 or 64 bits would bring back into it.
const OUT: [&str; 14] = [
    "0", "33", "34", "40", "99", "100", "256", "257", "288", "4294967297", "4294967328", "18446744073709551617", "18446744073709551648", "99999999999999999999999",
];

/// A list that rises from 1 to 32 at the most, with up to three faults.
fn list(r: &mut Rng) -> String {
    let mut low = r.below(3);
    let mut numbers = Vec::new();
    for _ in 0..1 + r.below(6) {
        low += 1 + r.below(5);
        numbers.push(low.to_string());
    }
    for _ in 0..r.one(&[0, 0, 1, 1, 2, 3]) {
        let (at, other) = (r.below(numbers.len()), r.below(numbers.len()));
        match r.below(7) {
            0 => numbers[at].insert(0, '0'),
            1 | 2 => numbers[at] = r.pick(&OUT).to_string(),
            3 | 4 => numbers.swap(at, other),
            _ => numbers[at] = numbers[other].clone(),
        }
    }
    let mut text = numbers[0].clone();
    let mut range = false;
    for number in &numbers[1..] {
        // A second hyphen in a piece now and then.
        range = r.chance(if range { 2 } else { 40 });
        text.push(if range { '-' } else { ',' });
        text += number;
    }
    if r.chance(8) {
        text.insert(1 + r.below(text.len()), r.one(b",-") as char);
    }
    text
}
