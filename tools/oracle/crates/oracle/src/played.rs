//! The tune as it is played, and what a whole reading is (document 02, T-02): a second implementation, slow, straight from the words and with nothing of the port's code.
//! Measures are numbered from 1, as in the list.

const MEASURE: usize = 28;
const NOTE: usize = 12;
const PITCH: usize = 5;
const LYRIC: usize = 11;

fn number(record: &[u8], at: usize) -> u32 {
    u32::from_le_bytes([record[at], record[at + 1], record[at + 2], record[at + 3]])
}

/// A part's records, by section.
struct Part<'a> {
    measures: Vec<&'a [u8]>,
    notes: Vec<&'a [u8]>,
    pitches: Vec<&'a [u8]>,
    lyrics: Vec<&'a [u8]>,
    text: &'a [u8],
}

/// The section at the front, its count of bytes known to be there, and what stands behind it; none if the bytes end before it does.
fn section(bytes: &[u8], width: usize) -> Option<(&[u8], &[u8])> {
    let (count, rest) = bytes.split_at_checked(4)?;
    let length = u128::from(number(count, 0)) * width as u128;
    rest.split_at_checked(usize::try_from(length).ok()?)
}

/// The part at the front, and what stands behind it.
fn part(bytes: &[u8]) -> Option<(Part<'_>, &[u8])> {
    let (measures, rest) = section(bytes, MEASURE)?;
    let (notes, rest) = section(rest, NOTE)?;
    let (pitches, rest) = section(rest, PITCH)?;
    let (lyrics, rest) = section(rest, LYRIC)?;
    let (text, rest) = section(rest, 1)?;
    let [measures, notes, pitches, lyrics] =
        [(measures, MEASURE), (notes, NOTE), (pitches, PITCH), (lyrics, LYRIC)].map(|(section, width)| section.chunks(width).collect());
    Some((Part { measures, notes, pitches, lyrics, text }, rest))
}

/// The parts, and what stands behind them; none if "section counts" do not "match its length".
fn parts(bytes: &[u8]) -> Option<(Vec<Part<'_>>, &[u8])> {
    let (count, mut rest) = bytes.split_at_checked(4)?;
    let mut parts = Vec::new();
    for _ in 0..number(count, 0) {
        let (part, behind) = part(rest)?;
        parts.push(part);
        rest = behind;
    }
    Some((parts, rest))
}

fn sum(numbers: impl Iterator<Item = u32>) -> u128 {
    numbers.map(u128::from).sum()
}

impl Part<'_> {
    /// "voice counts, pitch counts and text lengths that add up"
    fn adds_up(&self) -> bool {
        sum(self.measures.iter().flat_map(|m| [0, 4, 8, 12].map(|at| number(m, at)))) == self.notes.len() as u128
            && sum(self.notes.iter().map(|n| number(n, 8))) == self.pitches.len() as u128
            && sum(self.lyrics.iter().map(|l| number(l, 7))) == self.text.len() as u128
    }

    /// "the codes for barlines, key mark, volta, kind, value, dots (to 3), flags (below 64), beam, boundary, step, verse, syllabic and extend in their ranges"
    fn has_codes(&self) -> bool {
        let barline = 0..=5;
        let measures = self.measures.iter().all(|m| barline.contains(&m[16]) && barline.contains(&m[17]) && m[20] <= 2 && m[22] <= 3);
        let notes = self.notes.iter().all(|n| n[0] <= 4 && n[1] <= 10 && n[2] <= 3 && n[3] < 64 && n[4] <= 3 && n[7] <= 3);
        let pitches = self.pitches.iter().all(|p| p[0] <= 6);
        let lyrics = self.lyrics.iter().all(|l| (1..=32).contains(&l[4]) && l[5] <= 3 && l[6] <= 1);
        measures && notes && pitches && lyrics
    }

    /// "lyric indices inside their part"
    fn has_indices(&self) -> bool {
        self.lyrics.iter().all(|l| (number(l, 0) as usize) < self.notes.len())
    }

    /// "for each volta 1 a 2 before the next 1 or 3, with no other 2"
    fn has_spans(&self) -> bool {
        let voltas: Vec<u8> = self.measures.iter().map(|m| m[22]).filter(|v| *v != 0).collect();
        // With the measures outside and inside left out: 1 2 and 3, in any order.
        let mut rest = &voltas[..];
        loop {
            rest = match rest {
                [] => return true,
                [1, 2, rest @ ..] | [3, rest @ ..] => rest,
                _ => return false,
            }
        }
    }

    fn is_whole(&self) -> bool {
        self.adds_up() && self.has_codes() && self.has_indices() && self.has_spans()
    }

    fn bars(&self) -> Vec<Bar> {
        self.measures.iter().map(|m| Bar { left: m[16], right: m[17], volta: m[22], passes: number(m, 24) }).collect()
    }
}

/// "A whole reading".
pub fn is_whole(bytes: &[u8]) -> bool {
    parts(bytes).is_some_and(|(parts, rest)| parts.iter().all(Part::is_whole) && rest.iter().all(|byte| *byte == 0))
}

/// What a player sees of a measure.
#[derive(Debug, Clone, Copy, PartialEq)]
pub struct Bar {
    pub left: u8,
    pub right: u8,
    pub volta: u8,
    /// Bit p - 1 for pass p.
    pub passes: u32,
}

/// The passes of the volta span that measure m lies in; none if it lies in none. A span runs from a volta 1 to the next 2, or is a 3 alone; "its passes are its first measure's".
fn span(bars: &[Bar], m: usize) -> Option<u32> {
    let bar = |m: usize| bars[m - 1];
    for first in 1..=bars.len() {
        let last = match bar(first).volta {
            1 => (first..=bars.len()).find(|m| bar(*m).volta == 2),
            3 => Some(first),
            _ => None,
        };
        if last.is_some_and(|last| (first..=last).contains(&m)) {
            return Some(bar(first).passes);
        }
    }
    None
}

fn has(passes: u32, pass: u32) -> bool {
    passes >> (pass - 1) & 1 == 1
}

/// "The limit is the larger of 2 and the greatest pass of any volta span with a measure from the section start to just before the next measure with left barline 1 or 3."
fn limit(bars: &[Bar], section: usize) -> u32 {
    let next = (section + 1..=bars.len()).find(|m| matches!(bars[m - 1].left, 1 | 3)).unwrap_or(bars.len() + 1);
    let passes = (section..next).filter_map(|m| span(bars, m)).flat_map(|passes| (1..=32).filter(move |pass| has(passes, *pass)));
    passes.max().unwrap_or(0).max(2)
}

/// Why there is no list.
#[derive(Debug, Clone, Copy, PartialEq)]
pub enum NoList {
    /// 19
    NoSuchPart,
    /// The list has more numbers than were asked for.
    Longer,
}

/// The list, step by step; of one with more than `most` numbers no more is walked.
pub fn walk(bars: &[Bar], most: usize) -> Result<Vec<u32>, NoList> {
    // "The section starts at measure 1, pass 1."
    let (mut m, mut section, mut pass, mut forward) = (1, 1, 1, true);
    let mut list = Vec::new();
    let mut steps = 0;
    while m <= bars.len() {
        steps += 1;
        assert!(steps <= 16 * bars.len() * (bars.len() + 1), "the walk does not end");
        let bar = bars[m - 1];
        // "A measure in a volta span without the current pass is skipped, its barlines too; this is tested before entering."
        if span(bars, m).is_some_and(|passes| !has(passes, pass)) {
            (m, forward) = (m + 1, true);
            continue;
        }
        // "Going forward into a measure with left barline 1 or 3 makes it the section start, pass 1."
        if forward && matches!(bar.left, 1 | 3) {
            (section, pass) = (m, 1);
        }
        if list.len() == most {
            return Err(NoList::Longer);
        }
        list.push(m as u32);
        // "After a played measure with right barline 2 or 3: if the pass is below the section's limit, go back to the section start with the next pass; else the next measure is
        // the section start, pass 1."
        if matches!(bar.right, 2 | 3) {
            if pass < limit(bars, section) {
                (m, pass, forward) = (section, pass + 1, false);
            } else {
                (m, section, pass, forward) = (m + 1, m + 1, 1, true);
            }
        } else {
            (m, forward) = (m + 1, true);
        }
    }
    Ok(list)
}

/// The list of a part, from 1, of a reading's bytes; of one with more than `most` numbers no more is walked.
pub fn played(reading: &[u8], part: u32, most: usize) -> Result<Vec<u32>, NoList> {
    if !is_whole(reading) {
        return Err(NoList::NoSuchPart);
    }
    let (parts, _) = parts(reading).expect("a whole reading has its parts");
    let part = part.checked_sub(1).and_then(|i| parts.get(i as usize)).ok_or(NoList::NoSuchPart)?;
    walk(&part.bars(), most)
}

/// The lines that bindings/c/played.c prints of a text, line feeds included.
pub fn lines(text: &[u8]) -> String {
    const MOST: usize = 1_000_000;
    let reading = match crate::answer(text) {
        crate::Answer::Refused(number, line) => return format!("refused {number} {line}\n"),
        crate::Answer::Panic(text) => return format!("panic {text}\n"),
        crate::Answer::Reading { bytes, .. } => bytes,
    };
    let part = |part: u32| match played(&reading, part, MOST) {
        Ok(list) => {
            let (s, colon) = (if list.len() == 1 { "" } else { "s" }, if list.is_empty() { "" } else { ":" });
            format!("part {part} plays {} measure{s}{colon}{}\n", list.len(), list.iter().map(|m| format!(" {m}")).collect::<String>())
        }
        Err(NoList::Longer) => format!("part {part} plays more than {MOST} measures\n"),
        Err(NoList::NoSuchPart) => unreachable!("a reading is whole and has its parts"),
    };
    (1..=number(&reading, 0)).map(part).collect()
}

/// Measures by their codes, for tests: left and right barline, `v` and volta, `/` and the bits of the passes, as in `00 02v3/1 15v3/2`.
pub fn bars(codes: &str) -> Vec<Bar> {
    let one = |code: &str| {
        let (barlines, volta) = code.split_once('v').unwrap_or((code, "0/0"));
        let (volta, passes) = volta.split_once('/').expect("passes");
        let digit = |digits: &str| digits.parse().expect("a digit");
        Bar { left: digit(&barlines[..1]), right: digit(&barlines[1..]), volta: digit(volta), passes: passes.parse().expect("passes") }
    };
    codes.split_whitespace().map(one).collect()
}

/// A reading whose parts have these measures and nothing else.
pub fn reading_of(parts: &[Vec<Bar>]) -> Vec<u8> {
    let mut out = (parts.len() as u32).to_le_bytes().to_vec();
    for bars in parts {
        out.extend((bars.len() as u32).to_le_bytes());
        for bar in bars {
            out.extend([0; 16]);
            out.extend([bar.left, bar.right, 4, 4, 0, 0, bar.volta, 0]);
            out.extend(bar.passes.to_le_bytes());
        }
        out.extend([0; 16]);
    }
    out
}
