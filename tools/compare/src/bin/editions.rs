//! The two editions beside the reader that is straight from the words (tools/oracle, src/literal.rs): `tools/differential-editions --help`.
use compare::{Known, Options, Run, Sum, edges, kinds, known, known_2_1, sample, second};
use oracle::generate::{self, Blocks};
use oracle::literal::{self, LiteralAnswer};
use oracle::rng::Rng;
use sindvaelo::{Edition, reading_bytes, scratch_bytes};
use std::io::Write;

// ---- the first edition: the reader beside the Rust ------------------------------------------------------------------

/// Document 01's answer by the reader straight from the words, with the stores left out.
fn first(text: &[u8]) -> Known {
    match literal::answer(text, literal::Edition::First) {
        LiteralAnswer::Refused(number, line) => Known::Refused(number as u8, line as u32),
        LiteralAnswer::Reading { bytes, in_domain } => Known::Reading { bytes, exact: in_domain },
    }
}

/// Nothing, or in which way the reader answers otherwise than the Rust. Outside the domain of equality lengths of notes may differ, not how many bytes a reading has.
fn difference(text: &[u8], rust: &Known, spoil: bool) -> Option<String> {
    let mut reader = first(text);
    if spoil {
        match &mut reader {
            Known::Reading { bytes, exact: true } => bytes[text.len() % 7] ^= 1,
            Known::Reading { bytes, .. } => bytes.push(0),
            Known::Early(number) | Known::Refused(number, _) => *number += 1,
        }
    }
    match (rust, &reader) {
        (Known::Early(a), Known::Refused(b, 0)) if a == b => None,
        (Known::Refused(a, line), Known::Refused(b, other)) if (a, line) == (b, other) => None,
        (Known::Reading { bytes: a, exact: true }, Known::Reading { bytes: b, exact: true }) => {
            (a != b).then(|| format!("the Rust's reading has {} bytes, the other {}, unlike at byte {:?}", a.len(), b.len(), a.iter().zip(b).position(|(a, b)| a != b)))
        }
        (Known::Reading { bytes: a, exact: false }, Known::Reading { bytes: b, exact: false }) if a.len() == b.len() => None,
        _ => {
            let says = |known: &Known| match known {
                Known::Early(number) => format!("refused {number} 0"),
                Known::Refused(number, line) => format!("refused {number} {line}"),
                Known::Reading { bytes, exact } => format!("a reading of {} bytes, in the domain: {exact}", bytes.len()),
            };
            Some(format!("the Rust: {}; the other: {}", says(rust), says(&reader)))
        }
    }
}

/// One thread's sums of the first half. The Rust is asked as the port's other comparisons ask it.
struct Beside {
    run: Run,
}

impl Beside {
    fn text(&mut self, text: &[u8]) {
        let (known, spoil) = (self.run.known(text), self.run.stores.spoil);
        self.run.sum.calls += 1;
        let Some(words) = difference(text, &known, spoil) else { return };
        let shown = self.run.sum.differences.len() < 5 && text.len() < 8_000 && !spoil;
        let small = if shown { oracle::shrink(text.to_vec(), |t| difference(t, &compare::known(t), false).is_some()) } else { text[..text.len().min(200)].to_vec() };
        self.run.differs(&small, &words);
    }

    /// Outside the domain of equality the reader reads a text as the Rust reads the other one.
    fn alike(&mut self, [text, other]: &[Vec<u8>; 2]) {
        self.run.sum.inputs += 1;
        self.run.sum.calls += 1;
        let (reader, rust) = (first(text), known(other));
        let (Known::Reading { bytes: a, exact: false }, Known::Reading { bytes: b, exact: true }) = (&reader, &rust) else { panic!("not a pair of such texts") };
        if a != b || self.run.stores.spoil {
            self.run.differs(text, "a length outside the domain of equality is no plain quarter");
        }
    }
}

// ---- the second edition: the port beside the reader -----------------------------------------------------------------

/// A text that both editions read alike: the port gives the same answer and the same bytes in both, and so does the reader.
fn shared(run: &mut Run, r: &mut Rng) {
    let text = second::shared(r);
    run.text(&text, false);
    let (own, needed) = (known_2_1(&text), scratch_bytes(text.len()));
    let length = compare::reading_len(&own);
    if difference(&text, &own, false).is_some() {
        run.differs(&text, "the reader's editions are unlike");
    }
    for (reading, scratch) in [(length, needed), (length.saturating_sub(1), needed), (reading_bytes(text.len()), needed + 5), (length, needed - 1)] {
        run.sum.calls += 1;
        let both = [Edition::First, Edition::Abc21].map(|edition| {
            run.stores.edition = edition;
            run.stores.given(&text, reading, scratch)
        });
        if both[0] != both[1] || both[0].is_err() {
            run.differs(&text, &format!("stores {reading}, {scratch}: the port's editions are unlike"));
        }
    }
}

fn blocks(run: &mut Run, mut r: Rng, of: fn(&mut Rng) -> Blocks) {
    let blocks = of(&mut r);
    run.blocks(&mut r, blocks);
}

/// A text with voice blocks, as it was made.
fn joined((before, _, list): Blocks) -> Vec<u8> {
    list.into_iter().fold(before, |text, (_, block)| text + &block).into_bytes()
}

// ---- the sample -----------------------------------------------------------------------------------------------------

/// The sample that crates/test_editions replays: texts of every rule of the second edition, with the reader's answers.
fn replayed() -> String {
    let rules = second::rules().into_iter().map(|text| (text, 0));
    let generated = (0..).map(|i| second::text(&mut Rng::of(0x2_1792, i))).filter(|text| text.len() <= 400).take(120);
    let blocks = (0..36).map(|i| joined(second::blocks(&mut Rng::of(0x2_b10c, i))));
    // With every tenth the reading store is a byte short.
    let others = generated.chain(blocks).enumerate().map(|(i, text)| (text, usize::from(i % 10 == 0)));
    sample(known_2_1, rules.chain(others))
}

fn main() {
    let options = Options::of(std::env::args().skip(1));
    if options.sample {
        let _ = std::io::stdout().write_all(replayed().as_bytes());
        return;
    }
    assert!(options.rest.is_empty(), "no option {}", options.rest[0]);
    let Options { count, seed, jobs, spoil, .. } = options;
    let mut total = Sum::default();
    let mut beside = |name: &str, count: u64, each: &(dyn Fn(&mut Beside, u64) + Sync)| {
        let name = format!("first: {name}");
        if options.wants(&name) {
            let start = |_| Beside { run: Run::new(Edition::First, spoil) };
            total.add(compare::kind(&name, "texts", count, jobs, start, each, |beside| beside.run.sum));
        }
    };
    kinds::for_each(count, seed, |name| options.wants(&format!("first: {name}")), |texts| beside(texts.name, texts.count, &|run, i| run.text(&(texts.text)(i))));
    let outside = edges::outside();
    beside("edges: lengths outside the domain of equality", outside.len() as u64, &|run, i| run.alike(&outside[i as usize]));
    beside("random: lengths outside the domain of equality", count / 20, &|run, i| run.alike(&edges::outside_at_random(&mut Rng::of(seed ^ 0xd0a1, i))));
    beside("blocks", count / 50, &|run, i| run.text(&joined(generate::blocks(&mut Rng::of(seed, i)))));
    beside("blocks of 2.1", count / 50, &|run, i| run.text(&joined(second::blocks(&mut Rng::of(seed ^ 0x2_b10c, i)))));
    let mut run = |name: &str, count: u64, each: &(dyn Fn(&mut Run, u64) + Sync)| {
        let name = format!("second: {name}");
        if options.wants(&name) {
            total.add(compare::kind(&name, "texts", count, jobs, |_| Run::new(Edition::Abc21, spoil), each, |run| run.sum));
        }
    };
    kinds::for_each(count, seed, |name| options.wants(&format!("second: {name}")), |texts| run(texts.name, texts.count, &|run, i| run.text_of(&texts, i)));
    let rules = second::rules();
    run("rules", rules.len() as u64, &|run, i| run.text(&rules[i as usize], true));
    run("blocks", count / 50, &|run, i| blocks(run, Rng::of(seed, i), generate::blocks));
    run("blocks of 2.1", count / 50, &|run, i| blocks(run, Rng::of(seed ^ 0x2_b10c, i), second::blocks));
    run("both editions alike", count / 20, &|run, i| shared(run, &mut Rng::of(seed ^ 0x2_0003, i)));
    println!("{} texts, {} calls, {} differ", total.inputs, total.calls, total.differences.len());
    std::process::exit(i32::from(!total.differences.is_empty()));
}
