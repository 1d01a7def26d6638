//! The port and the Rust on the same texts, in turn: `tools/benchmark --help`.
use compare::texts::{PASSED_OVER, TEXTS, Text};
use sindvaelo::{Edition, is_whole, list_bytes, parse_abc, parse_abc_edition, played_measures, read, reading_bytes, scratch_bytes};
use std::hint::black_box;
use std::io::Write;

/// Sizes of the texts that may have any.
const SIZES: [usize; 6] = [2_000, 5_000, 20_000, 50_000, 200_000, 500_000];
/// A sample takes at least so many bytes: a small text is read several times.
const SAMPLE: usize = 2_000;

#[repr(C)]
struct Timespec {
    seconds: i64,
    nanoseconds: i64,
}

unsafe extern "C" {
    fn clock_gettime(clock: i32, time: *mut Timespec) -> i32;
}

/// Seconds of processor time that this thread has taken: others on the machine do not count.
fn now() -> f64 {
    const THREAD_CPUTIME: i32 = 3;
    let mut time = Timespec { seconds: 0, nanoseconds: 0 };
    // SAFETY: the pointer is to a timespec of x86-64 Linux, which the call fills.
    assert_eq!(unsafe { clock_gettime(THREAD_CPUTIME, &mut time) }, 0);
    time.seconds as f64 + time.nanoseconds as f64 * 1e-9
}

fn low_decile(mut times: Vec<f64>) -> f64 {
    times.sort_by(f64::total_cmp);
    times[times.len() / 10]
}

fn time(run: impl FnOnce()) -> f64 {
    let start = now();
    run();
    now() - start
}

struct Row {
    bytes: usize,
    port: f64,
    second: f64,
    rust: f64,
    copy: f64,
}

impl Row {
    fn ratio(&self) -> f64 {
        self.rust / self.port
    }
    fn each(&self, seconds: f64) -> f64 {
        seconds * 1e9 / self.bytes as f64
    }
}

/// Seconds for all of these texts, by the port in either edition and by the Rust in turn: processor time, low decile.
fn measure(texts: &[String], budget: f64) -> Row {
    let bytes: usize = texts.iter().map(String::len).sum();
    let longest = texts.iter().map(String::len).max().unwrap_or(0);
    let (mut reading, mut scratch) = (vec![0; reading_bytes(longest)], vec![0; scratch_bytes(longest)]);
    let mut port =
        |text: &str, store: usize, edition| parse_abc_edition(black_box(text.as_bytes()), &mut reading[..store], &mut scratch[..scratch_bytes(text.len())], edition);
    // The reading store as long as the reading: nothing is cleared but what a caller needs.
    let mut lengths = |edition| -> Vec<usize> {
        texts.iter().map(|text| port(text, reading_bytes(text.len()), edition).expect("the port refuses a text of the benchmark")).collect()
    };
    let (stores, second_stores) = (lengths(Edition::First), lengths(Edition::Abc21));
    let (from, mut to) = (vec![1u8; bytes + stores.iter().sum::<usize>()], vec![0u8; bytes + stores.iter().sum::<usize>()]);
    let calls = SAMPLE.div_ceil(bytes);
    let (mut ports, mut seconds, mut rusts, mut copies) = (Vec::new(), Vec::new(), Vec::new(), Vec::new());
    let start = now();
    while ports.len() < 5 || (now() - start < budget && ports.len() < 5_001) {
        for (times, stores, edition) in [(&mut ports, &stores, Edition::First), (&mut seconds, &second_stores, Edition::Abc21)] {
            times.push(time(|| {
                for _ in 0..calls {
                    for (text, store) in texts.iter().zip(stores) {
                        assert!(black_box(port(text, *store, edition)).is_ok());
                    }
                }
            }));
        }
        rusts.push(time(|| {
            for _ in 0..calls {
                for text in texts {
                    assert!(black_box(acorde_io::abc::parse_abc(black_box(text))).is_ok());
                }
            }
        }));
        copies.push(time(|| {
            for _ in 0..calls {
                to.copy_from_slice(black_box(&from));
                black_box(&mut to);
            }
        }));
    }
    let [port, second, rust, copy] = [ports, seconds, rusts, copies].map(|times| low_decile(times) / calls as f64);
    Row { bytes, port, second, rust, copy }
}

/// The low decile of the seconds that `run` takes, in runs of `budget` seconds together, five at least; a short one is run several times for a sample.
fn seconds(budget: f64, mut run: impl FnMut()) -> f64 {
    let once = time(&mut run).max(1e-9);
    let calls = (2e-5 / once).ceil().clamp(1.0, 10_000.0) as usize;
    let (mut times, start) = (Vec::new(), now());
    while times.len() < 5 || (now() - start < budget && times.len() < 5_001) {
        times.push(time(|| (0..calls).for_each(|_| run())) / calls as f64);
    }
    low_decile(times)
}

/// The walk of a part, by number listed and by measure; and the test for a whole reading beside reading its text.
fn played(budget: f64, word: &str) {
    println!("{:28} {:>8} {:>9} {:>10} {:>12} {:>13}", "walk", "measures", "listed", "ms", "ns a number", "whole test ms");
    // The pieces and their number: a plain tune, one section after the other, lists of a million numbers, walks that skip almost all.
    for (name, piece, count) in [
        ("plain, 1,000 measures", "A|", 1_000),
        ("plain, 90,000 measures", "A|", 90_000),
        ("|:A|B|c|[1d:|[2e|] x 18,000", "|:A|B|c|[1d:|[2e|]", 18_000),
        ("A:| x 9,000", "A:|", 9_000),
        ("A:| x 90,000", "A:|", 90_000),
        ("A|[32B:| x 80", "A|[32B:|", 80),
        ("A|[32B:| x 252", "A|[32B:|", 252),
        ("A|[32B:| x 800", "A|[32B:|", 800),
        ("[32B:| x 250", "[32B:|", 250),
        ("[32B:| x 2,500", "[32B:|", 2_500),
    ] {
        if !name.contains(word) {
            continue;
        }
        let reading = read(format!("K:C\n {}c:|\n", piece.repeat(count))).expect("a text that is read");
        let part = reading.parts().next().expect("a part");
        let (measures, numbers) = (part.measures().len(), part.played(100_000_000).expect("a list").len());
        let mut list = vec![0; list_bytes(numbers)];
        let whole = seconds(budget / 10.0, || assert!(black_box(is_whole(black_box(reading.as_bytes())))));
        let walk = seconds(budget, || assert!(black_box(played_measures(black_box(reading.as_bytes()), 1, &mut list)).is_ok()));
        println!("{name:28} {measures:8} {numbers:9} {:10.3} {:12.2} {:13.3}", walk * 1e3, walk * 1e9 / numbers as f64, whole * 1e3);
    }
    println!("\n{:10} {:>10} {:>10} {:>12} {:>12} {:>14} {:>12}", "text", "bytes", "reading", "parse ns/B", "whole ns/B", "whole ns/B of", "of parsing");
    println!("{:10} {:>10} {:>10} {:>12} {:>12} {:>14} {:>12}", "", "", "", "of text", "of text", "reading", "");
    for text in TEXTS.iter().filter(|text| text.name.contains(word)) {
        let texts = text.texts();
        let longest = texts.iter().map(String::len).max().unwrap_or(0);
        let (mut store, mut scratch) = (vec![0; reading_bytes(longest)], vec![0; scratch_bytes(longest)]);
        let readings: Vec<Vec<u8>> = texts.iter().map(|text| read(text).expect("a text that is read").into_bytes()).collect();
        let parse = seconds(budget, || {
            for (text, reading) in texts.iter().zip(&readings) {
                assert!(black_box(parse_abc(black_box(text.as_bytes()), &mut store[..reading.len()], &mut scratch[..scratch_bytes(text.len())])).is_ok());
            }
        });
        let whole = seconds(budget, || readings.iter().for_each(|reading| assert!(black_box(is_whole(black_box(reading))))));
        let (bytes, long): (usize, usize) = (texts.iter().map(String::len).sum(), readings.iter().map(Vec::len).sum());
        let each = |seconds: f64, bytes: usize| seconds * 1e9 / bytes as f64;
        println!("{:10} {bytes:10} {long:10} {:12.2} {:12.2} {:14.2} {:11.1}%", text.name, each(parse, bytes), each(whole, bytes), each(whole, long), 100.0 * whole / parse);
    }
}

/// One call of the Rust for each text, for tools/instructions: a name by which callgrind tells it.
#[unsafe(no_mangle)]
#[inline(never)]
extern "C" fn rust_calls(texts: &Vec<String>) -> usize {
    texts.iter().filter(|text| black_box(acorde_io::abc::parse_abc(black_box(text))).is_ok()).count()
}

/// Each size of a text that may have any, once, with the texts of that size.
fn sizes(text: &Text, usual: bool) -> Vec<Vec<String>> {
    let Some(longer) = text.longer.filter(|_| !usual) else { return vec![text.texts()] };
    let mut made: Vec<Vec<String>> = SIZES.iter().map(|size| vec![longer(*size)]).collect();
    made.dedup();
    made
}

fn main() {
    let (mut seconds, mut word, mut usual, mut of_readings, mut files) = (1.0, String::new(), false, false, Vec::new());
    let mut args = std::env::args().skip(1);
    let named = |name: Option<String>| TEXTS.iter().find(|text| Some(text.name) == name.as_deref()).unwrap_or_else(|| panic!("no text of that name: --list names them"));
    while let Some(arg) = args.next() {
        match arg.as_str() {
            "--list" => {
                for text in TEXTS {
                    println!("{}\t{}\t{}", text.name, text.texts().iter().map(String::len).sum::<usize>(), text.about);
                }
                return;
            }
            "--print" => {
                let texts = named(args.next()).texts();
                // Several: each ended by a zero byte.
                let end = if texts.len() == 1 { "" } else { "\0" };
                let all: String = texts.iter().map(|text| format!("{text}{end}")).collect();
                std::io::stdout().write_all(all.as_bytes()).expect("standard output takes the text");
                return;
            }
            "--rust-calls" => {
                let texts = named(args.next()).texts();
                assert_eq!(rust_calls(black_box(&texts)), texts.len(), "the Rust refuses a text of the benchmark");
                return;
            }
            "--texts" => word = args.next().expect("--texts takes a word"),
            "--usual" => usual = true,
            "--played" => of_readings = true,
            "--file" => files.push(args.next().expect("--file takes a path")),
            _ => seconds = arg.parse().unwrap_or_else(|_| panic!("no option {arg}")),
        }
    }
    if of_readings {
        played(seconds, &word);
        return;
    }
    println!(
        "{:10} {:>8} {:>10} {:>10} {:>10} {:>7} {:>8} {:>9} {:>8} {:>8}",
        "text", "bytes", "port ns/B", "2.1 ns/B", "Rust ns/B", "ratio", "to plain", "copy ns/B", "port ×10", "Rust ×10"
    );
    // What a byte of the plain tune takes at the usual size, beside which the others are dear or cheap.
    let plain = measure(&TEXTS[0].texts(), seconds);
    // By ratio or cost: the text. Of texts that are read, of those passed over; the dearest.
    let (mut least, mut passed, mut dearest) = (Vec::new(), Vec::new(), Vec::new());
    let read = |path: &String| std::fs::read_to_string(path).unwrap_or_else(|error| panic!("{path}: {error}"));
    let measured: Vec<(&str, Vec<Vec<String>>)> = match files.len() {
        0 => TEXTS.iter().filter(|text| text.name.contains(&word)).map(|text| (text.name, sizes(text, usual))).collect(),
        _ => files.iter().map(|path| (path.rsplit('/').next().unwrap_or(path), vec![vec![read(path)]])).collect(),
    };
    for (name, sizes) in measured {
        let mut before: Vec<Row> = Vec::new();
        for texts in sizes {
            let row = measure(&texts, seconds);
            // Growth from a tenth of the text to the whole of it; 10 is linear.
            let tenth = before.iter().find(|b| (9..=11).contains(&(row.bytes / b.bytes.max(1))));
            let grows = |f: fn(&Row) -> f64| tenth.map_or("".into(), |b| format!("{:.1}", f(&row) / f(b) * 10.0 * b.bytes as f64 / row.bytes as f64));
            let (own, rust) = (row.each(row.port), row.each(row.rust));
            let dear = own / plain.each(plain.port);
            println!(
                "{:10} {:8} {own:10.1} {:10.1} {rust:10.1} {:7.2} {dear:8.2} {:9.2} {:>8} {:>8}",
                name,
                row.bytes,
                row.each(row.second),
                row.ratio(),
                row.each(row.copy),
                grows(|r| r.port),
                grows(|r| r.rust)
            );
            let sized = format!("{name} ({} bytes)", row.bytes);
            if PASSED_OVER.contains(&name) { &mut passed } else { &mut least }.push((row.ratio(), sized.clone()));
            dearest.push((-dear, sized));
            before.push(row);
        }
    }
    let first = |mut rows: Vec<(f64, String)>| {
        rows.sort_by(|a, b| a.0.total_cmp(&b.0));
        rows.into_iter().next()
    };
    assert!(!dearest.is_empty(), "no text has {word} in its name");
    for (what, rows) in [("least ratio", least), ("least ratio of texts that are passed over", passed), ("dearest beside the plain tune", dearest)] {
        if let Some((value, text)) = first(rows) {
            println!("{what}: {:.2} on {text}", value.abs());
        }
    }
}
