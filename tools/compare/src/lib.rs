//! The port beside a judge: what document 01 makes of the judge's answer for both stores, and what the port gives. In the first edition the judge is the Rust, in the second the reader that is
//! straight from the words (tools/oracle, src/literal.rs).
pub mod edges;
pub mod kinds;
pub mod second;
pub mod texts;
pub mod tunes;

use kinds::Texts;
use oracle::generate::Blocks;
use oracle::literal::{self, LiteralAnswer};
use oracle::rng::Rng;
use oracle::{Answer, Rust, answer, rust_answer};
use sindvaelo::{Edition, MOST_BYTES, Refusal, is_whole, parse_abc_edition, reading_bytes, scratch_bytes};
use std::collections::BTreeMap;

/// A longer text that differs is not made small, which would take hours.
const LONG: usize = 8_000;

/// What one kind of texts or readings came to.
#[derive(Default)]
pub struct Sum {
    pub inputs: u64,
    pub calls: u64,
    pub answers: BTreeMap<String, u64>,
    /// In words, the first ones; those behind them may be empty.
    pub differences: Vec<String>,
}

impl Sum {
    pub fn add(&mut self, other: Sum) {
        self.inputs += other.inputs;
        self.calls += other.calls;
        for (name, count) in other.answers {
            *self.answers.entry(name).or_default() += count;
        }
        self.differences.extend(other.differences);
    }

    pub fn count(&mut self, answer: &str) {
        match self.answers.get_mut(answer) {
            Some(count) => *count += 1,
            None => drop(self.answers.insert(answer.to_string(), 1)),
        }
    }

    pub fn answers(&self) -> String {
        self.answers.iter().map(|(name, count)| format!("{name}: {count}")).collect::<Vec<_>>().join(", ")
    }
}

/// Runs `each` on the numbers below `count`, shared out to `jobs` threads with a run of their own, and prints a line.
pub fn kind<R>(name: &str, inputs: &str, count: u64, jobs: u64, start: impl Fn(u64) -> R + Sync, each: impl Fn(&mut R, u64) + Sync, end: impl Fn(R) -> Sum + Sync) -> Sum {
    let began = std::time::Instant::now();
    let mut sum = Sum::default();
    std::thread::scope(|scope| {
        let runs: Vec<_> = (0..jobs)
            .map(|job| {
                let (start, each, end) = (&start, &each, &end);
                scope.spawn(move || {
                    let mut run = start(job);
                    (job..count).step_by(jobs as usize).for_each(|i| each(&mut run, i));
                    end(run)
                })
            })
            .collect();
        for run in runs {
            sum.add(run.join().expect("thread"));
        }
    });
    println!("{name}: {} {inputs}, {} calls, {} differ, {:.0} s", sum.inputs, sum.calls, sum.differences.len(), began.elapsed().as_secs_f64());
    println!("  {}", sum.answers());
    for words in sum.differences.iter().filter(|words| !words.is_empty()) {
        println!("  DIFFERS {words}");
    }
    sum
}

/// What is known of a text before the stores' lengths are.
#[derive(Debug, Clone)]
pub enum Known {
    /// Refused before scratch is looked at: 2, 3, blank 1.
    Early(u8),
    Refused(u8, u32),
    /// `exact`: the judge's bytes are meant, not only their number; the Rust's are within the domain of equality.
    Reading { bytes: Vec<u8>, exact: bool },
}

/// The text as characters; or the refusal that comes before scratch is looked at.
fn characters(text: &[u8]) -> Result<&str, Known> {
    if text.len() > MOST_BYTES {
        return Err(Known::Early(2));
    }
    match std::str::from_utf8(text) {
        Err(_) => Err(Known::Early(3)),
        Ok(words) if words.trim().is_empty() => Err(Known::Early(1)),
        Ok(words) => Ok(words),
    }
}

/// Document 01's answer by the Rust, in the first edition. A reading is also asked of the copy of 000 that knows no refusals.
pub fn known(text: &[u8]) -> Known {
    let words = match characters(text) {
        Ok(words) => words,
        Err(early) => return early,
    };
    match answer(text) {
        Answer::Refused(number, line) => Known::Refused(number as u8, line as u32),
        Answer::Reading { bytes, in_domain } => {
            assert_eq!(rust_answer(words), Rust::Reading(bytes.clone()), "the two copies of 000 differ");
            Known::Reading { bytes, exact: in_domain }
        }
        Answer::Panic(words) => panic!("000 panics: {words}"),
    }
}

/// The second edition's answer, by the reader that is straight from the words.
pub fn known_2_1(text: &[u8]) -> Known {
    if let Err(early) = characters(text) {
        return early;
    }
    match literal::answer(text, literal::Edition::Abc21) {
        LiteralAnswer::Refused(number, line) => Known::Refused(number as u8, line as u32),
        LiteralAnswer::Reading { bytes, .. } => Known::Reading { bytes, exact: true },
    }
}

/// The whole outcome of a call: the answer and what the reading store holds. Scratch always holds zeros.
#[derive(Debug, Clone, PartialEq)]
pub struct Outcome {
    pub answer: Result<usize, (u8, u32)>,
    pub reading: Vec<u8>,
}

/// What document 01 says of a call with stores of these lengths.
pub fn meant(text: &[u8], known: &Known, reading: usize, scratch: usize) -> Outcome {
    let refused = |number, line| Outcome { answer: Err((number, line)), reading: vec![0; reading] };
    match known {
        Known::Early(number) => refused(*number, 0),
        _ if scratch < scratch_bytes(text.len()) => refused(15, 0),
        Known::Refused(number, line) => refused(*number, *line),
        Known::Reading { bytes, .. } if bytes.len() > reading => refused(16, 0),
        Known::Reading { bytes, .. } => {
            let mut store = bytes.clone();
            store.resize(reading, 0);
            Outcome { answer: Ok(bytes.len()), reading: store }
        }
    }
}

/// The stores of a call, kept from text to text.
#[derive(Default)]
pub struct Stores {
    reading: Vec<u8>,
    scratch: Vec<u8>,
    noise: u64,
    pub edition: Edition,
    /// The negative control: one byte of what the port gives is changed.
    pub spoil: bool,
}

impl Stores {
    pub fn new(edition: Edition, spoil: bool) -> Self {
        Self { edition, spoil, ..Self::default() }
    }

    /// Fills `n` bytes with whatever: what a store held before must not show.
    fn fill(&mut self, reading: usize, scratch: usize) {
        for (store, n) in [(&mut self.reading, reading), (&mut self.scratch, scratch)] {
            store.resize(n, 0);
            for chunk in store.chunks_mut(8) {
                self.noise = self.noise.wrapping_mul(6364136223846793005).wrapping_add(1442695040888963407);
                let word = (self.noise ^ self.noise >> 29).to_le_bytes();
                chunk.copy_from_slice(&word[..chunk.len()]);
            }
        }
    }

    /// The port's outcome, or what it left in scratch, or that the reading store does not hold a whole reading: a refusal's zeros are one without parts.
    pub fn given(&mut self, text: &[u8], reading: usize, scratch: usize) -> Result<Outcome, String> {
        self.fill(reading, scratch);
        let answer = parse_abc_edition(text, &mut self.reading, &mut self.scratch, self.edition).map_err(|r: Refusal| (r.number(), r.line().unwrap_or(0)));
        if let Some(at) = self.scratch.iter().position(|byte| *byte != 0) {
            return Err(format!("scratch is not cleared at {at} of {scratch}, answer {answer:?}"));
        }
        if is_whole(&self.reading) != (reading >= 4) {
            return Err(format!("the reading store is no whole reading, answer {answer:?}"));
        }
        let mut reading = self.reading.clone();
        if self.spoil && !reading.is_empty() {
            let at = self.noise as usize % reading.len();
            reading[at] ^= 1;
        }
        Ok(Outcome { answer, reading })
    }

    /// Nothing, or in which way the port's outcome is another than document 01's.
    pub fn difference(&mut self, text: &[u8], known: &Known, reading: usize, scratch: usize) -> Option<String> {
        let mut meant = meant(text, known, reading, scratch);
        let mut given = match self.given(text, reading, scratch) {
            Ok(given) => given,
            Err(words) => return Some(words),
        };
        if let (Known::Reading { exact: false, .. }, Ok(length)) = (known, given.answer) {
            // Outside the domain of equality lengths of notes may differ, not how many bytes a reading has.
            meant.reading[..length.min(reading)].fill(0);
            given.reading[..length.min(reading)].fill(0);
        }
        if given == meant {
            return None;
        }
        if given.answer != meant.answer {
            return Some(format!("stores {reading}, {scratch}: answer {:?}, meant {:?}", given.answer, meant.answer));
        }
        let at = given.reading.iter().zip(&meant.reading).position(|(a, b)| a != b);
        Some(format!("stores {reading}, {scratch}: answer {:?}, reading differs at byte {at:?}", given.answer))
    }
}

/// How long the reading is, 0 if there is none.
pub fn reading_len(known: &Known) -> usize {
    match known {
        Known::Reading { bytes, .. } => bytes.len(),
        _ => 0,
    }
}

/// One thread's stores and sums, and who says what is meant.
pub struct Run {
    pub stores: Stores,
    pub sum: Sum,
    judge: fn(&[u8]) -> Known,
}

impl Run {
    pub fn new(edition: Edition, spoil: bool) -> Self {
        let judge = match edition {
            Edition::First => known,
            Edition::Abc21 => known_2_1,
        };
        Self { stores: Stores::new(edition, spoil), sum: Sum::default(), judge }
    }

    /// A difference: the first ones in words, with the text.
    pub fn differs(&mut self, text: &[u8], words: &str) {
        let shown = || format!("{words}\n    {}", oracle::escape(text));
        self.sum.differences.push(if self.sum.differences.len() < 5 { shown() } else { String::new() });
    }

    pub fn call(&mut self, text: &[u8], known: &Known, reading: usize, scratch: usize) {
        self.sum.calls += 1;
        let Some(words) = self.stores.difference(text, known, reading, scratch) else { return };
        if text.len() > LONG {
            let start = String::from_utf8_lossy(&text[..60]).into_owned();
            self.sum.differences.push(format!("{words}\n    a text of {} bytes that begins {}", text.len(), oracle::escape(start.as_bytes())));
        } else if self.sum.differences.len() < 5 {
            let (more, under) = (reading as isize - reading_len(known) as isize, scratch as isize - scratch_bytes(text.len()) as isize);
            let small = oracle::shrink(text.to_vec(), |t| {
                let k = (self.judge)(t);
                let (r, s) = ((reading_len(&k) as isize + more).max(0) as usize, (scratch_bytes(t.len()) as isize + under).max(0) as usize);
                Stores::new(self.stores.edition, false).difference(t, &k, r, s).is_some()
            });
            self.differs(&small, &words);
        } else {
            self.sum.differences.push(String::new());
        }
    }

    /// What is known of a text, counted.
    pub fn known(&mut self, text: &[u8]) -> Known {
        let known = (self.judge)(text);
        self.sum.inputs += 1;
        match &known {
            Known::Early(number) | Known::Refused(number, _) => self.sum.count(&format!("refused {number:2}")),
            Known::Reading { exact: true, .. } => self.sum.count("read"),
            Known::Reading { exact: false, .. } => self.sum.count("read, outside the domain of equality"),
        }
        known
    }

    /// A text with stores that fit.
    pub fn once(&mut self, text: &[u8]) {
        let known = self.known(text);
        self.call(text, &known, reading_len(&known), scratch_bytes(text.len()));
    }

    /// A text with stores that fit and with scratch a byte short, which tells a blank text (1) from another without music (15); with `around` set with lengths around
    /// the ones that just do.
    pub fn text(&mut self, text: &[u8], around: bool) {
        let known = self.known(text);
        let (reading, scratch) = (reading_len(&known), scratch_bytes(text.len()));
        self.call(text, &known, reading, scratch);
        self.call(text, &known, reading, scratch - 1);
        if !around {
            return;
        }
        for r in [0, 1, 3, 4, 5, reading / 2, reading.saturating_sub(1), reading + 1, reading + 7, reading_bytes(text.len())] {
            self.call(text, &known, r, scratch);
        }
        for s in [0, 1, scratch + 1, scratch + 9] {
            self.call(text, &known, reading, s);
            self.call(text, &known, reading.saturating_sub(1), s);
        }
    }

    /// Text i of a kind.
    pub fn text_of(&mut self, texts: &Texts, i: u64) {
        let text = (texts.text)(i);
        match i % texts.around == 0 {
            false if texts.once => self.once(&text),
            around => self.text(&text, around),
        }
    }

    /// A moved text must give the same answer and the same bytes in both stores; each voice alone the same part.
    pub fn blocks(&mut self, r: &mut Rng, (before, voices, list): Blocks) {
        let join = |list: &[&(usize, String)]| list.iter().fold(before.clone(), |text, (_, block)| text + block).into_bytes();
        let text = join(&list.iter().collect::<Vec<_>>());
        self.text(&text, false);
        let Known::Reading { bytes, .. } = (self.judge)(&text) else { return };
        let (reading, scratch) = (bytes.len() + r.below(9), scratch_bytes(text.len()) + r.below(9));
        let Ok(first) = self.stores.given(&text, reading, scratch) else { return };
        for _ in 0..3 {
            let mut order: Vec<usize> = list.iter().map(|(voice, _)| *voice).collect();
            for i in (1..order.len()).rev() {
                order.swap(i, r.below(i + 1));
            }
            let mut next = vec![0; voices];
            let moved: Vec<_> = order
                .iter()
                .map(|&voice| {
                    next[voice] += 1;
                    list.iter().filter(|(v, _)| *v == voice).nth(next[voice] - 1).unwrap()
                })
                .collect();
            self.sum.calls += 1;
            if self.stores.given(&join(&moved), reading, scratch).as_ref() != Ok(&first) {
                self.differs(&join(&moved), "blocks moved");
            }
        }
        // A spoiled reading cannot be split into its parts.
        let whole = if self.stores.spoil { 0 } else { voices };
        for voice in 0..whole {
            let own = join(&list.iter().filter(|(v, _)| *v == voice).collect::<Vec<_>>());
            let known = (self.judge)(&own);
            self.sum.calls += 1;
            let alone = self.stores.given(&own, reading_bytes(own.len()), scratch_bytes(own.len()));
            let same = match (&known, alone) {
                (Known::Reading { .. }, Ok(o)) if o.answer.is_ok() => oracle::split_parts(&o.reading)[voice] == oracle::split_parts(&first.reading)[voice],
                (_, Ok(o)) => o.answer.is_err(),
                _ => false,
            };
            if !same {
                self.differs(&own, &format!("voice {voice} alone"));
            }
        }
    }
}

/// A sample that a program of the gate replays: rows of texts of at most 1,792 bytes. A row is hex digits, two to a byte: text length (2), reading store's length (4), refusal's number or 0 (1), its line
/// or the reading's length (4), the text, the reading. `texts` have beside them how many bytes the reading store is short by.
pub fn sample(judge: fn(&[u8]) -> Known, texts: impl IntoIterator<Item = (Vec<u8>, usize)>) -> String {
    let mut out = String::new();
    for (text, short) in texts {
        let known = judge(&text);
        if text.len() > 1_792 || matches!(known, Known::Reading { exact: false, .. }) {
            continue;
        }
        let store = reading_len(&known).saturating_sub(short);
        let outcome = meant(&text, &known, store, scratch_bytes(text.len()));
        let (number, value) = outcome.answer.map_or_else(|(number, line)| (number, line), |length| (0, length as u32));
        let hex = oracle::hex;
        let reading = if number == 0 { &outcome.reading[..] } else { &[] };
        out.push_str(&format!("{:04x} {:08x} {number:02x} {value:08x} {} {}\n", text.len(), store, hex(&text), hex(reading)));
    }
    out
}

/// The options that the programs of this package share, and what is left of the words.
pub struct Options {
    pub count: u64,
    pub seed: u64,
    pub jobs: u64,
    only: Option<String>,
    pub spoil: bool,
    /// `--sample`: print the sample and nothing else.
    pub sample: bool,
    pub rest: Vec<String>,
}

impl Options {
    pub fn of(words: impl Iterator<Item = String>) -> Self {
        let mut options = Self { count: 1_000_000, seed: 1, jobs: 2, only: None, spoil: false, sample: false, rest: Vec::new() };
        let mut words = words;
        while let Some(word) = words.next() {
            let mut number = || words.next().and_then(|n| n.parse().ok()).unwrap_or_else(|| panic!("{word} takes a number"));
            match word.as_str() {
                "--count" => options.count = number(),
                "--seed" => options.seed = number(),
                "--jobs" => options.jobs = number().max(1),
                "--only" => options.only = words.next(),
                "--spoil" => options.spoil = true,
                "--sample" => options.sample = true,
                _ => options.rest.push(word),
            }
        }
        options
    }

    pub fn wants(&self, name: &str) -> bool {
        self.only.as_ref().is_none_or(|word| name.contains(word.as_str()))
    }
}
