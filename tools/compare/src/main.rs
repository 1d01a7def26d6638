//! The port of `parse_abc` beside the Rust on whole texts: `tools/differential-texts --help`.
use compare::{Known, Options, Run, Sum, edges, kinds, known, reading_len, sample};
use oracle::generate;
use oracle::rng::Rng;
use sindvaelo::{Edition, MOST_BYTES, scratch_bytes};
use std::io::Write;

/// A text outside the domain of equality that the port must read as the Rust reads the other one.
fn alike(run: &mut Run, [text, other]: &[Vec<u8>; 2]) {
    assert!(matches!(known(text), Known::Reading { exact: false, .. }), "within the domain of equality");
    let known = known(other);
    assert!(matches!(known, Known::Reading { exact: true, .. }));
    run.sum.inputs += 1;
    run.call(text, &known, reading_len(&known), scratch_bytes(text.len()));
}

/// The sample that crates/test_replay replays: the probes, limits and generated texts, with the Rust's answers.
fn replayed() -> String {
    let probes = kinds::probes().into_iter().map(|probe| (probe, 0));
    let limits = kinds::limits().into_iter().flat_map(|(_, text)| [(text.clone(), 0), (text, 1)]);
    let generated = (0..60).map(|i| (generate::text(&mut Rng::of(1792, i)), usize::from(i % 10 == 0)));
    sample(known, probes.chain(limits).chain(generated))
}

fn main() {
    let options = Options::of(std::env::args().skip(1));
    if options.sample {
        let _ = std::io::stdout().write_all(replayed().as_bytes());
        return;
    }
    let huge = options.rest == ["--huge"];
    assert!(huge || options.rest.is_empty(), "no option {}", options.rest[0]);
    let Options { count, seed, jobs, spoil, .. } = options;
    let mut total = Sum::default();
    let mut run = |name: &str, count: u64, each: &(dyn Fn(&mut Run, u64) + Sync)| {
        if options.wants(name) {
            total.add(compare::kind(name, "texts", count, jobs, |_| Run::new(Edition::First, spoil), each, |run| run.sum));
        }
    };
    kinds::for_each(count, seed, |name| options.wants(name), |texts| run(texts.name, texts.count, &|run, i| run.text_of(&texts, i)));
    let outside = edges::outside();
    run("edges: lengths outside the domain of equality", outside.len() as u64, &|run, i| alike(run, &outside[i as usize]));
    run("random: lengths outside the domain of equality", count / 20, &|run, i| alike(run, &edges::outside_at_random(&mut Rng::of(seed ^ 0xd0a1, i))));
    run("blocks", count / 50, &|run, i| {
        let r = &mut Rng::of(seed, i);
        let blocks = generate::blocks(r);
        run.blocks(r, blocks);
    });
    if huge {
        // 67,108,864 bytes and one more: the second is refused, the first is not for its length.
        for length in [MOST_BYTES, MOST_BYTES + 1] {
            let mut text = b"K:C\nA\n%".to_vec();
            text.resize(length, b'x');
            run(&format!("limit: {length} bytes"), 1, &|run, _| run.text(&text, false));
        }
    }
    println!("{} texts, {} calls, {} differ", total.inputs, total.calls, total.differences.len());
    std::process::exit(i32::from(!total.differences.is_empty()));
}
