//! `abc_played` and `abc_is_whole` beside the second implementation (tools/oracle, src/played.rs): `tools/differential-walks --help`.
use compare::{Options, Sum};
use oracle::played::{self, Bar, NoList, reading_of};
use oracle::rng::Rng;
use oracle::{Answer, answer, generate};
use sindvaelo::{Reading, is_whole, list_bytes, played_measures};
use std::io::Write;

/// Where the second implementation stops: every list of a longer store is cut here.
const LONGEST: usize = 200_000;

/// What document 02 says of a call: the answer, and the store.
fn meant(list: &Result<Vec<u32>, NoList>, length: usize) -> (Result<usize, u8>, Vec<u8>) {
    let refused = |number| (Err(number), vec![0; length]);
    match list {
        Err(NoList::NoSuchPart) => refused(19),
        Ok(list) if list_bytes(list.len()) <= length => {
            let mut store = (list.len() as u32).to_le_bytes().to_vec();
            store.extend(list.iter().flat_map(|n| n.to_le_bytes()));
            let used = store.len();
            store.resize(length, 0);
            (Ok(used), store)
        }
        Ok(_) => refused(20),
        Err(NoList::Longer) => {
            assert!(length < list_bytes(LONGEST + 1), "the second implementation was not asked for as much");
            refused(20)
        }
    }
}

/// One thread's sums.
struct Run {
    sum: Sum,
    noise: u64,
    /// The negative control: one byte of what the library gives is changed, or its answer.
    spoil: bool,
}

impl Run {
    fn differs(&mut self, reading: &[u8], words: String) {
        let cut = if reading.len() > 600 { " .." } else { "" };
        let shown = || format!("{words}\n    {} bytes: {}{cut}", reading.len(), oracle::hex(&reading[..reading.len().min(600)]));
        self.sum.differences.push(if self.sum.differences.len() < 3 { shown() } else { String::new() });
    }

    fn count(&mut self, answer: &str) {
        self.sum.calls += 1;
        self.sum.count(answer);
    }

    /// One call of `abc_played`, its store full of noise before.
    fn call(&mut self, reading: &[u8], part: u32, list: &Result<Vec<u32>, NoList>, length: usize) {
        let mut store = vec![0; length];
        for chunk in store.chunks_mut(8) {
            self.noise = self.noise.wrapping_mul(6364136223846793005).wrapping_add(1442695040888963407);
            chunk.copy_from_slice(&(self.noise ^ self.noise >> 29).to_le_bytes()[..chunk.len()]);
        }
        let before = reading.to_vec();
        let mut given = played_measures(reading, part, &mut store).map_err(|refusal| (refusal.number(), refusal.line()));
        if self.spoil {
            match store.len() {
                0 => given = Ok(1),
                n => store[self.noise as usize % n] ^= 1,
            }
        }
        let (meant, meant_store) = meant(list, length);
        self.count(match meant {
            Ok(_) => "listed",
            Err(19) => "19",
            Err(_) => "20",
        });
        if given != meant.map_err(|number| (number, None)) {
            self.differs(reading, format!("part {part}, a store of {length}: answer {given:?}, meant {meant:?}"));
        } else if let Some(at) = (0..length).find(|at| store[*at] != meant_store[*at]) {
            self.differs(reading, format!("part {part}, a store of {length}: answer {given:?}, byte {at} is {}, meant {}", store[at], meant_store[at]));
        } else if before != reading {
            self.differs(reading, format!("part {part}, a store of {length}: the reading was written to"));
        }
    }

    /// A reading, or bytes that are none: whole or not, and each part's list, in a store that just does and in one that does not; with `around` set in stores of every length around these. Also of
    /// parts that it does not have.
    fn reading(&mut self, reading: &[u8], around: bool) {
        self.sum.inputs += 1;
        let whole = played::is_whole(reading);
        let given = is_whole(reading) ^ self.spoil;
        self.count(if whole { "whole" } else { "not whole" });
        if given != whole {
            self.differs(reading, format!("abc_is_whole: {given}, meant {whole}"));
        }
        let count = reading.first_chunk().map_or(0, |count| u32::from_le_bytes(*count));
        // Of bytes that are no reading the count may be anything.
        let parts = if whole { count } else { count.min(3) };
        for part in (0..=parts).chain([count.wrapping_add(1), u32::MAX]) {
            let list = played::played(reading, part, LONGEST);
            let needed = list_bytes(list.as_ref().map_or(0, Vec::len));
            self.call(reading, part, &list, needed);
            self.call(reading, part, &list, needed - 4);
            if around {
                for length in [0, 1, 2, 3, 4, 5, 8, needed - 1, needed + 1, needed + 4, needed + 37, 2 * needed] {
                    self.call(reading, part, &list, length);
                }
            }
        }
        if around && whole {
            self.views(reading);
        }
    }

    /// bindings/rust lists each part as the second implementation does, with a limit that just does and with one that does not.
    fn views(&mut self, reading: &[u8]) {
        let Some(view) = Reading::from_bytes(reading) else { return };
        for (number, part) in (1..).zip(view.into_parts()) {
            let Ok(list) = played::played(reading, number, LONGEST) else { continue };
            self.count("Part::played");
            let short = list.len().checked_sub(1).map(|most| part.played(most).map_err(|refusal| refusal.number()));
            if part.played(list.len()).as_ref() != Ok(&list) || short.is_some_and(|short| short != Err(20)) || self.spoil {
                self.differs(reading, format!("Part::played of part {number}"));
            }
        }
    }
}

// ---- codes ----------------------------------------------------------------------------------------------------------

/// Every code of a measure over these barlines, voltas and passes.
fn all_bars(lefts: &[u8], rights: &[u8], voltas: &[(u8, u32)]) -> Vec<Bar> {
    let both = lefts.iter().flat_map(|left| rights.iter().map(move |right| (*left, *right)));
    both.flat_map(|(left, right)| voltas.iter().map(move |(volta, passes)| Bar { left, right, volta: *volta, passes: *passes })).collect()
}

/// Reading number i of this many of these measures, in one part.
fn codes_at(bars: &[Bar], measures: u32, mut i: u64) -> Vec<u8> {
    let mut part = Vec::new();
    for _ in 0..measures {
        part.push(bars[(i % bars.len() as u64) as usize]);
        i /= bars.len() as u64;
    }
    reading_of(&[part])
}

/// Passes: a few bits low down, none, the highest, any.
fn passes(r: &mut Rng) -> u32 {
    match r.below(10) {
        0..=4 => 1 << r.below(4),
        5..=6 => r.below(16) as u32,
        7 => r.one(&[0, 1 << 31, 1 << 31 | 1, u32::MAX, 1 << 30]),
        8 => 1 << r.below(32),
        _ => r.next() as u32 & r.next() as u32,
    }
}

/// Measures with well-formed voltas, a sixth of them then changed somewhere; now and then a code that is none.
fn bars_at_random(r: &mut Rng) -> Vec<Bar> {
    let count = r.below(13);
    let mut inside = false;
    let mut bars: Vec<Bar> = (0..count)
        .map(|i| {
            let left = if r.chance(60) { 0 } else { r.below(6) as u8 };
            let right = if r.chance(45) { 0 } else { r.one(&[2, 2, 2, 3, 1, 4, 5]) };
            let last = i + 1 == count;
            let volta = match (inside, r.below(10)) {
                (true, _) if last => 2,
                (true, 0..=3) => 2,
                (true, _) => 0,
                (false, 0..=2) => 3,
                (false, 3..=4) if !last => 1,
                (false, _) => 0,
            };
            inside = volta == 1 || inside && volta != 2;
            Bar { left, right, volta, passes: passes(r) }
        })
        .collect();
    if r.chance(17) && !bars.is_empty() {
        let at = r.below(bars.len());
        match r.below(4) {
            0 => bars[at].volta = r.below(5) as u8,
            1 => bars[at].left = r.below(8) as u8,
            2 => bars[at].right = r.below(8) as u8,
            _ => bars.truncate(at),
        }
    }
    bars
}

/// A part of `count` measures or two more and many sections, most of them begun inside what an earlier one walked: few left barlines, many right ones, spans of one to three measures with
/// passes from low to high.
fn sections_at_random(r: &mut Rng, count: usize) -> Vec<u8> {
    let (opens, closes, greatest) = (r.one(&[0, 3, 15]), r.one(&[30, 50, 90]), r.one(&[2, 3, 4, 8, 32]));
    let mut bars: Vec<Bar> = Vec::new();
    while bars.len() < count {
        let length = r.one(&[0, 0, 1, 1, 1, 2, 3]);
        let passes = (0..1 + r.below(3)).fold(0, |passes, _| passes | 1 << r.below(greatest));
        for i in 0..length.max(1) {
            let volta = match (length, i) {
                (0, _) => 0,
                (1, _) => 3,
                (_, 0) => 1,
                (_, i) if i + 1 == length => 2,
                _ => 0,
            };
            let (left, right) = (if r.chance(opens) { r.one(&[1, 3]) } else { 0 }, if r.chance(closes) { r.one(&[2, 3]) } else { 0 });
            bars.push(Bar { left, right, volta, passes });
        }
    }
    reading_of(&[bars])
}

fn codes_at_random(r: &mut Rng) -> Vec<u8> {
    let parts: Vec<Vec<Bar>> = (0..r.one(&[0, 1, 1, 1, 1, 2, 3])).map(|_| bars_at_random(r)).collect();
    reading_of(&parts)
}

// ---- texts ----------------------------------------------------------------------------------------------------------

/// The reading of a text by the Rust; none if it is refused.
fn reading(text: &[u8]) -> Option<Vec<u8>> {
    match answer(text) {
        Answer::Reading { bytes, .. } => Some(bytes),
        _ => None,
    }
}

/// A text of repeats and endings, with chords, rests, overlays and lyrics, in up to three voices.
fn repeats(r: &mut Rng) -> Vec<u8> {
    let voices = r.one(&[1, 1, 2, 3]);
    let mut text = String::from("X:1\nL:1/8\n");
    if voices > 1 {
        (1..=voices).for_each(|voice| text += &format!("V:{voice}\n"));
    }
    text += "K:G\n";
    for _ in 0..voices + r.below(2) {
        if voices > 1 {
            text += &format!("V:{}\n", 1 + r.below(voices));
        }
        text += " ";
        for _ in 0..r.below(12) {
            match r.below(10) {
                0..=2 => text += r.pick(&["[1 ", "[2 ", "[1", "[2", "[3 ", "[1,3 ", "[2,4 ", "[1-3 ", "[32 ", "[5 ", "[1,32 "]),
                _ => {}
            }
            text += r.pick(&["A", "c2", "[ce]z", "x2 d & e", "(3abc", "z", "A>B", ""]);
            text += r.pick(&["|", "|", "|", ":|", ":|", ":|", "|:", "|:", "::", "|]", "||", ":||:"]);
        }
        text += r.pick(&["\n", "c\n", "\nw: la la-la *\n", "\nw: é\nw: two_ x\n"]);
    }
    text.into_bytes()
}

// ---- damage ---------------------------------------------------------------------------------------------------------

/// Where the five sections of each part begin: the place of the count, the count, the width of a record.
fn sections(reading: &[u8]) -> Vec<[(usize, usize, usize); 5]> {
    let count = |at: usize| u32::from_le_bytes(reading[at..at + 4].try_into().unwrap()) as usize;
    let mut at = 4;
    let part = |_| {
        [28, 12, 5, 11, 1].map(|width| {
            let found = (at, count(at), width);
            at += 4 + width * found.1;
            found
        })
    };
    (0..count(0)).map(part).collect()
}

/// Where each code stands in its record, by section, with the greatest value that it may have.
const CODES: [&[(usize, u8)]; 4] = [&[(16, 5), (17, 5), (20, 2), (22, 3)], &[(0, 4), (1, 10), (2, 3), (3, 63), (4, 3), (7, 3)], &[(0, 6)], &[(4, 32), (5, 3), (6, 1)]];
/// Where each number of four bytes stands in its record, by section.
const NUMBERS: [&[usize]; 4] = [&[0, 4, 8, 12, 24], &[8], &[], &[0, 7]];

/// A number of four bytes becomes another one: a neighbour, or huge.
fn renumber(r: &mut Rng, bytes: &mut [u8], at: usize) {
    let old = u32::from_le_bytes(bytes[at..at + 4].try_into().unwrap());
    let new = match r.below(8) {
        0..=1 => old.wrapping_add(1),
        2..=3 => old.wrapping_sub(1),
        4 => u32::MAX - r.below(3) as u32,
        5 => old | 1 << (8 + r.below(24)),
        6 => old.wrapping_add(1 << 31),
        _ => r.number(32) as u32,
    };
    bytes[at..at + 4].copy_from_slice(&new.to_le_bytes());
}

/// A whole reading with one thing changed.
fn damaged(r: &mut Rng, whole: &[u8]) -> Vec<u8> {
    let mut bytes = whole.to_vec();
    let parts = sections(whole);
    let part = parts.get(r.below(parts.len().max(1)));
    // A record of a section that has one.
    let record = part.and_then(|part| {
        let section = r.below(4);
        let (at, count, width) = part[section];
        (count > 0).then(|| (section, at + 4 + width * r.below(count)))
    });
    match (r.below(12), record) {
        (0..=1, _) => {
            let at = r.below(bytes.len());
            bytes[at] = r.next() as u8;
        }
        (2..=4, Some((section, at))) => {
            let (code, most) = r.one(CODES[section]);
            let near = r.below(most as usize + 3) as u8;
            bytes[at + code] = r.one(&[most, most + 1, 0, 255, near]);
        }
        (5, Some((section, at))) if !NUMBERS[section].is_empty() => {
            let number = r.one(NUMBERS[section]);
            renumber(r, &mut bytes, at + number);
        }
        // Two voice counts of a measure that add up again, in 32 bits at least.
        (6, Some((0, at))) => {
            let (a, b, change) = (at + 4 * r.below(4), at + 4 * r.below(4), r.one(&[1, 2, 1 << 31, u32::MAX]));
            for (at, change) in [(a, change), (b, change.wrapping_neg())] {
                let old = u32::from_le_bytes(bytes[at..at + 4].try_into().unwrap());
                bytes[at..at + 4].copy_from_slice(&old.wrapping_add(change).to_le_bytes());
            }
        }
        (7, _) => {
            let place = part.filter(|_| r.chance(80)).map_or(0, |part| part[r.below(5)].0);
            renumber(r, &mut bytes, place);
        }
        (8, _) => bytes.truncate(r.below(whole.len() + 1)),
        (9, _) => bytes.resize(whole.len() + 1 + r.below(40), 0),
        (10, _) => {
            bytes.resize(whole.len() + 1 + r.below(40), 0);
            let at = whole.len() + r.below(bytes.len() - whole.len());
            bytes[at] = 1 << r.below(8);
        }
        _ => {
            let at = r.below(bytes.len());
            if r.chance(50) {
                bytes.insert(at, r.one(&[0, 1, 255]));
            } else {
                bytes.remove(at);
            }
        }
    }
    bytes
}

/// Small readings with everything in them, of which every byte is tried.
const SMALL: [&str; 7] = [
    "K:C\nA",
    "K:C\n|:A|[1B:|[2c|]",
    "L:1/8\nK:Em\n[1 [ce]2 z|d:|\nw: one two\nw: \u{e9}\n",
    "V:1\nV:2\nK:C\nV:2\nA|[2B:|c:|\nw: la\n",
    "K:C\nV:1\nA:|\nV:2\n[32B:|]\nw: a-b\n",
    "K:C\n(3{a}A-A>B & Z|x\nw: x_ * y\n",
    "K:C\nA|[1B|:c:|[2d|]",
];

fn small() -> Vec<Vec<u8>> {
    SMALL.iter().map(|text| reading(text.as_bytes()).expect("a text that is read")).collect()
}

/// Bytes that are no reading and look like one, or are whole without a text: a few of each.
fn odd() -> Vec<Vec<u8>> {
    let mut out: Vec<Vec<u8>> = (0..30).map(|length| vec![0; length]).collect();
    out.extend([1, 7, 255].iter().flat_map(|byte| (0..30).map(|length| vec![*byte; length])));
    for count in [1u32, 2, 3, 1 << 16, u32::MAX] {
        for length in [0, 1, 19, 20, 21, 39, 40, 41, 60, 100] {
            let mut bytes = count.to_le_bytes().to_vec();
            bytes.resize(4 + length, 0);
            out.push(bytes);
        }
    }
    // A section's count alone, of every size, with so many bytes behind it as would do for small ones.
    for section in 0..5 {
        for count in [1u32, 2, 0xff, 0x1_0000, 0x1000_0000, 0x0924_9250, 0x1555_5556, 0x3333_3334, 0x1745_d175, u32::MAX] {
            let mut bytes = vec![1, 0, 0, 0];
            bytes.resize(4 + 4 * section, 0);
            bytes.extend(count.to_le_bytes());
            bytes.resize(200, 0);
            out.push(bytes);
        }
    }
    out.push(reading_of(&vec![vec![Bar { left: 0, right: 2, volta: 0, passes: 0 }]; 40]));
    out
}

// ---- long walks -----------------------------------------------------------------------------------------------------

fn long() -> Vec<(String, Vec<u8>)> {
    let mut out = Vec::new();
    for (name, piece, counts) in [
        ("A|[32B:|", "A|[32B:|", &[1, 2, 3, 5, 8, 13, 20, 50, 100, 110][..]),
        ("[32B:|", "[32B:|", &[1, 2, 5, 20, 100, 250]),
        ("A:|", "A:|", &[1, 10, 300]),
        ("|:A:|", "|:A:|", &[1, 10, 300]),
        ("A|[7B:|", "A|[7B:|", &[1, 10, 100]),
        ("[1A:|[32B:|", "[1A:|[32B:|", &[1, 10, 60]),
    ] {
        for k in counts {
            let text = format!("K:C\n {}c:|\n", piece.repeat(*k));
            out.push((format!("{k} times {name}"), reading(text.as_bytes()).expect("a text that is read")));
        }
    }
    out
}

// ---- the sample -----------------------------------------------------------------------------------------------------

/// The fixed sample that crates/test_played replays. A row is hex digits, two to a byte: the reading's length (2), the part (4), the list store's length (2), 1 where the reading is whole, else 0 (1),
/// the refusal's number or 0 (1), the list's length or 0 (2), the reading, the list.
fn sample() -> String {
    let mut out = String::new();
    let mut row = |reading: &[u8], part: u32, short: isize| {
        let list = played::played(reading, part, 400);
        let needed = list_bytes(list.as_ref().map_or(0, Vec::len)) as isize;
        let length = (needed + short).max(0) as usize;
        let (answer, store) = meant(&list, length);
        let (number, used) = (answer.err().unwrap_or(0), answer.unwrap_or(0));
        let hex = oracle::hex;
        let whole = u8::from(played::is_whole(reading));
        out.push_str(&format!("{:04x} {part:08x} {length:04x} {whole:02x} {number:02x} {used:04x} {} {}\n", reading.len(), hex(reading), hex(&store[..used])));
    };
    // Each text of document 02's page, with stores around the needed one; and parts that it does not have.
    for music in [
        "A|[1B:|[2|:c|]", "A|[2|:B|]c:|", "A|[2B|]|:c:|", "A|:B:|c|", "[1A:|[2B|]", "A|[1|:B:|[2c|]", "A|B:|[3c|]", "A|B:|[3|:c|]", "|:A|[1,3B:|[2,4c:|[5d|]", "A|B:|c|", " A:|B:|", "|:A::B:|",
        "|:A|[1B:|[2c|]", "|:A|[1B:|[2c:|d|]", "[2A|B", "A|[2B:|c:|", "|:A|[3B:|c:|[1d|]", "|:A|[1 B:|[2 |: c :|", "A|[1B|:c:|[2d|]", "A|[32B:|c:|",
    ] {
        let reading = reading(format!("K:C\n{music}\n").as_bytes()).expect("a text that is read");
        row(&reading, 1, 0);
        row(&reading, 1, -4);
    }
    // Codes that no text has, and sections begun inside what an earlier one walked.
    for codes in [
        "", "00v1/1 00v2/2", "00v1/4 02 00v2/0 02", "00v3/0 00", "02v3/2147483649 02", "02v3/5 00 10v3/1 02", "00v3/4 00 10v3/4 02 00", "02v3/5 02v3/1 02v1/2 00v2/0", "02v3/5 12v3/1 02v1/2 00v2/0",
    ] {
        let part = played::bars(codes);
        row(&reading_of(&[part.clone()]), 1, 0);
        row(&reading_of(&[vec![], part]), 2, 0);
    }
    let small = small();
    for reading in &small {
        let count = u32::from(reading[0]);
        for part in 0..=count + 1 {
            for short in [0, -1, 7] {
                row(reading, part, short);
            }
        }
        row(reading, u32::MAX, 0);
        for short in [-4, -5, -6, -8, 1, 4] {
            row(reading, count, short);
        }
        // Cut, with zeros behind, and one of these replaced.
        let mut store = reading.clone();
        row(&store[..reading.len() - 1], 1, 0);
        store.resize(reading.len() + 5, 0);
        row(&store, 1, 0);
        store[reading.len() + 3] = 1;
        row(&store, 1, 0);
    }
    // Each code at its greatest value and one above, each number one more and huge, each count.
    let parts: Vec<_> = small.iter().map(|reading| sections(reading)).collect();
    for section in 0..4 {
        let (reading, at) = small.iter().zip(&parts).skip(2).find_map(|(reading, parts)| parts.iter().find(|part| part[section].1 > 0).map(|part| (reading, part[section].0 + 4))).expect("a record");
        for (code, most) in CODES[section] {
            for value in [*most, most + 1] {
                let mut bytes = reading.clone();
                bytes[at + code] = value;
                row(&bytes, 1, 0);
            }
        }
        for number in NUMBERS[section] {
            for (byte, change) in [(0, 1), (0, 255), (3, 1)] {
                let mut bytes = reading.clone();
                bytes[at + number + byte] = bytes[at + number + byte].wrapping_add(change);
                row(&bytes, 1, 0);
            }
        }
    }
    // Counts that add up in 32 bits only: of two voices, of two notes, of two lyrics.
    let places = parts[2][0].map(|section| section.0 + 4);
    for (a, b) in [(places[0], places[0] + 4), (places[1] + 8, places[1] + 12 + 8), (places[3] + 7, places[3] + 11 + 7)] {
        let mut bytes = small[2].clone();
        bytes[b] += bytes[a] + 1;
        bytes[a..a + 4].fill(255);
        row(&bytes, 1, 0);
    }
    // A lyric of verse 0, and one behind the last note; a volta 4.
    for (at, value) in [(places[3] + 4, 0), (places[3], 2), (places[3], 3)] {
        let mut bytes = small[2].clone();
        bytes[at] = value;
        row(&bytes, 1, 0);
    }
    for voltas in [&[4][..], &[1], &[2], &[1, 1, 2], &[1, 3, 2], &[1, 2, 2], &[3, 2], &[1, 0, 2, 1, 2]] {
        row(&reading_of(&[voltas.iter().map(|volta| Bar { left: 0, right: 0, volta: *volta, passes: 1 }).collect()]), 1, 0);
    }
    for place in parts[2][0].map(|section| section.0).into_iter().chain([0]) {
        for (byte, change) in [(0, 1), (0, 255), (3, 255)] {
            let mut bytes = small[2].clone();
            bytes[place + byte] = bytes[place + byte].wrapping_add(change);
            row(&bytes, 1, 0);
        }
    }
    for bytes in odd().iter().filter(|bytes| bytes.len() < 30).step_by(7) {
        row(bytes, 1, 0);
    }
    let short = |bytes: &Vec<u8>| played::played(bytes, 1, 60) != Err(NoList::Longer);
    let codes = (0..).map(|i| codes_at_random(&mut Rng::of(0x5a3, i))).filter(short).take(30);
    let sections = (0..).map(|i| sections_at_random(&mut Rng::of(0x5ec7, i), 6)).filter(short).take(45);
    for (i, bytes) in codes.chain(sections).enumerate() {
        row(&bytes, 1, if i % 8 == 0 { -4 } else { 0 });
    }
    for i in 0..20 {
        let r = &mut Rng::of(0xda3, i);
        let from = r.below(small.len());
        row(&damaged(r, &small[from]), 1, 0);
    }
    out
}

fn main() {
    let options = Options::of(std::env::args().skip(1));
    if options.sample {
        let _ = std::io::stdout().write_all(sample().as_bytes());
        return;
    }
    assert!(options.rest.is_empty(), "no option {}", options.rest[0]);
    let Options { count, seed, jobs, spoil, .. } = options;
    let mut total = Sum::default();
    let mut run = |name: &str, count: u64, each: &(dyn Fn(&mut Run, u64) + Sync)| {
        if options.wants(name) {
            let start = |job| Run { sum: Sum::default(), noise: job, spoil };
            total.add(compare::kind(name, "readings", count, jobs, start, each, |run| run.sum));
        }
    };
    let many = all_bars(&[0, 1, 3], &[0, 2, 3], &[(0, 0), (1, 1), (1, 2), (1, 4), (2, 0), (3, 0), (3, 1), (3, 2), (3, 3), (3, 4)]);
    let few = all_bars(&[0, 1], &[0, 2], &[(0, 0), (1, 1), (1, 2), (2, 0), (3, 1), (3, 2), (3, 5)]);
    // Where a right barline closes almost every measure, sections begin inside what an earlier one walked.
    let closed = all_bars(&[0, 1], &[0, 2], &[(0, 0), (3, 1), (3, 2), (3, 4)]);
    let spans = all_bars(&[0], &[0, 2], &[(0, 0), (1, 4), (2, 0), (3, 1), (3, 6)]);
    for (measures, bars) in [(0, &many), (1, &many), (2, &many), (3, &many), (4, &few), (5, &closed), (6, &spans)] {
        run(&format!("codes: all of {measures} measures"), (bars.len() as u64).pow(measures), &|run, i| run.reading(&codes_at(bars, measures, i), i % 64 == 0));
    }
    run("codes: random", count, &|run, i| run.reading(&codes_at_random(&mut Rng::of(seed ^ 0xc0de, i)), i % 8 == 0));
    run("codes: random, many sections", count / 2, &|run, i| {
        let r = &mut Rng::of(seed ^ 0x5ec7, i);
        let count = 5 + r.below(28);
        run.reading(&sections_at_random(r, count), i % 8 == 0);
    });
    let texts = |run: &mut Run, text: &[u8], around: bool| {
        if let Some(bytes) = reading(text) {
            run.reading(&bytes, around);
        }
    };
    run("texts: repeats and endings", count / 4, &|run, i| texts(run, &repeats(&mut Rng::of(seed ^ 0x4e9, i)), i % 8 == 0));
    run("texts: generated", count / 10, &|run, i| texts(run, &generate::text(&mut Rng::of(seed, i)), i % 8 == 0));
    let small = small();
    let places: Vec<(usize, usize)> = small.iter().enumerate().flat_map(|(i, reading)| (0..reading.len()).map(move |at| (i, at))).collect();
    run("damage: every byte, every value", 256 * places.len() as u64, &|run, i| {
        let (reading, at) = places[(i / 256) as usize];
        let mut bytes = small[reading].clone();
        bytes[at] = i as u8;
        run.reading(&bytes, i % 64 == 0);
    });
    run("damage: every cut, zeros behind", places.len() as u64, &|run, i| {
        let (reading, at) = places[i as usize];
        let mut bytes = small[reading][..at].to_vec();
        run.reading(&bytes, true);
        // As many zeros as were cut, and a few behind the whole.
        bytes.resize(small[reading].len(), 0);
        run.reading(&bytes, true);
        let mut bytes = small[reading].clone();
        bytes.resize(bytes.len() + at % 60, 0);
        run.reading(&bytes, true);
        if let Some(last) = bytes[small[reading].len()..].last_mut() {
            *last = 1;
            run.reading(&bytes, true);
        }
    });
    run("damage: random", count, &|run, i| {
        let r = &mut Rng::of(seed ^ 0xda3a, i);
        let text = if r.chance(80) { repeats(r) } else { generate::text(r) };
        if let Some(bytes) = reading(&text) {
            let bytes = damaged(r, &bytes);
            run.reading(&bytes, i % 8 == 0);
        }
    });
    let odd = odd();
    run("bytes: few, and huge counts", odd.len() as u64, &|run, i| run.reading(&odd[i as usize], true));
    let long = long();
    run("long walks", long.len() as u64, &|run, i| run.reading(&long[i as usize].1, true));
    println!("{} readings, {} calls ({}), {} differ", total.inputs, total.calls, total.answers(), total.differences.len());
    std::process::exit(i32::from(!total.differences.is_empty()));
}
