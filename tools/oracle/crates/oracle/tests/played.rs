//! Document 02's T-02, asked of the second implementation: walks by codes and by texts, and what a whole reading is.
use oracle::played::{Bar, NoList, bars, is_whole, lines, played, reading_of, walk};
use oracle::{Answer, answer, split_parts};

fn numbers(list: &str) -> Vec<u32> {
    list.split_whitespace().map(|n| n.parse().unwrap()).collect()
}

fn reading(text: &str) -> Vec<u8> {
    match answer(text.as_bytes()) {
        Answer::Reading { bytes, .. } => bytes,
        other => panic!("{text}: {other:?}"),
    }
}

/// A text of one part, its codes where they are told, and its list.
const TEXTS: [(&str, &str, &str); 22] = [
    // Where the words allow two readings.
    ("A|[1B:|[2|:c|]", "00 02v3/1 15v3/2", "1 2 1 3"),
    ("A|[2|:B|]c:|", "00 15v3/2 02", "1 3 1 2 3 2 3"),
    ("A|[2B|]|:c:|", "00 05v3/2 12", "1 3 3"),
    ("A|:B:|c|", "01 12 00", "1 2 2 3"),
    ("[1A:|[2B|]", "", "1 2"),
    ("A|[1|:B:|[2c|]", "", "1 2 3"),
    ("A|B:|[3c|]", "", "1 2 1 2 1 2"),
    ("A|B:|[3|:c|]", "", "1 2 1 2"),
    ("|:A|[1,3B:|[2,4c:|[5d|]", "", "1 2 1 3 1 2 1 3 1 4"),
    // Others.
    ("A|B:|c|", "", "1 2 1 2 3"),
    (" A:|B:|", "", "1 1 2 2"),
    ("|:A::B:|", "", "1 1 2 2"),
    ("|:A|[1B:|[2c|]", "", "1 2 1 3"),
    ("|:A|[1B:|[2c:|d|]", "", "1 2 1 3 4"),
    ("[2A|B", "", ""),
    ("A|[2B:|c:|", "", "1 3 1 2 3 3"),
    ("|:A|[3B:|c:|[1d|]", "", "1 3 1 3 1 2 3 3 4"),
    ("|:A|[1 B:|[2 |: c :|", "", "1 2 1 3 3"),
    ("A|[1B|:c:|[2d|]", "", "1 2 3 4"),
    ("A", "", "1"),
    ("A|B|c", "", "1 2 3"),
    ("|:A|B:|:c|d:|", "", "1 2 1 2 3 4 3 4"),
];

#[test]
fn texts() {
    for (music, codes, list) in TEXTS {
        let reading = reading(&format!("K:C\n{music}\n"));
        assert!(is_whole(&reading), "{music}");
        assert_eq!(played(&reading, 1, 1000), Ok(numbers(list)), "{music}");
        assert_eq!([0, 2, u32::MAX].map(|part| played(&reading, part, 1000)), [const { Err(NoList::NoSuchPart) }; 3], "{music}");
        if !codes.is_empty() {
            let records: Vec<&[u8]> = reading[8..].chunks(28).take(bars(codes).len()).collect();
            for (record, bar) in records.iter().zip(bars(codes)) {
                assert_eq!((record[16], record[17], record[22], record[24]), (bar.left, bar.right, bar.volta, bar.passes as u8), "{music}");
            }
            assert_eq!(walk(&bars(codes), 1000), Ok(numbers(list)), "{music}");
        }
    }
}

#[test]
fn codes() {
    for (codes, list) in [
        ("", ""),
        ("00v1/1 00v2/2", "1 2"),
        ("00v1/4 02 00v2/0 02", "4 4 1 2 4 4 3 4"),
        ("00v3/0 00", "2"),
        ("02v3/2147483648", ""),
        ("02v3/2147483649", "1"),
        ("00 02v3/2147483649", "1 2 1"),
        ("03 00 22", "1 1 2 3 2 3"),
    ] {
        assert_eq!(walk(&bars(codes), 1000), Ok(numbers(list)), "{codes}");
        assert_eq!(played(&reading_of(&[bars(codes), vec![]]), 1, 1000), Ok(numbers(list)), "{codes}");
    }
}

#[test]
fn parts() {
    let whole = reading("V:1\nV:2\nK:C\nV:2\nA\n");
    assert_eq!(split_parts(&whole).len(), 2);
    assert_eq!([1, 2].map(|part| played(&whole, part, 9)), [Ok(vec![]), Ok(vec![1])]);
    let whole = reading("K:C\nV:1\n|:A|B:|\nV:2\nc|d\nV:3\n[1e:|[2f|]\n");
    assert_eq!([1, 2, 3].map(|part| played(&whole, part, 9)), [Ok(vec![1, 2, 1, 2]), Ok(vec![1, 2]), Ok(vec![1, 2])]);
    assert_eq!([0, 4].map(|part| played(&whole, part, 9)), [const { Err(NoList::NoSuchPart) }; 2]);
}

#[test]
fn in_lines() {
    assert_eq!(lines(b"V:1\nV:2\nV:3\nK:C\nV:1\n|:A|[1B:|[2c|]\nV:3\nA\n"), "part 1 plays 4 measures: 1 2 1 3\npart 2 plays 0 measures\npart 3 plays 1 measure: 1\n");
    assert_eq!(lines(b"K:C\n[01A"), "refused 14 2\n");
}

/// k times `A|[32B:|` and then `c:|`: 31k(k + 3) / 2 + 2k + 2 numbers; with `[32B:|` instead 31 times the last measure in each section. (A line that begins with `c:` is a field.)
#[test]
fn long_lists() {
    for (k, count) in [(0, 2), (1, 66), (5, 632), (20, 7_172)] {
        let reading = reading(&format!("K:C\n{} c:|\n", "A|[32B:|".repeat(k)));
        assert_eq!(31 * k * (k + 3) / 2 + 2 * k + 2, count);
        assert_eq!(played(&reading, 1, 10_000).map(|list| list.len()), Ok(count), "{k}");
        assert_eq!(played(&reading, 1, count).map(|list| list.len()), Ok(count), "{k}");
        assert_eq!(played(&reading, 1, count - 1), Err(NoList::Longer), "{k}");
    }
    let reading = reading("K:C\n[32A:|[32B:|c:|\n");
    let list = [[3; 31].as_slice(), &[1], &[3; 31], &[2], &[3; 2]].concat();
    assert_eq!(played(&reading, 1, 100), Ok(list));
}

/// Two measures in a span, a chord of two pitches, a rest, two verses.
fn small() -> Vec<u8> {
    reading("L:1/8\nK:Em\n[1 [ce]2 z|d:|\nw: one two\nw: é\n")
}

#[test]
fn a_byte_in_its_range() {
    let whole = small();
    assert!(is_whole(&whole));
    let measure = 8;
    let note = measure + 2 * 28 + 4;
    let pitch = note + 3 * 12 + 4;
    let lyric = pitch + 3 * 5 + 4;
    let text = lyric + 3 * 11 + 4;
    assert_eq!(whole.len(), text + "onetwoé".len());
    let with = |at: usize, value: u8| {
        let mut other = whole.clone();
        other[at] = value;
        is_whole(&other)
    };
    // Where it stands, and the greatest value that it may have.
    for (what, at, most) in [
        ("left barline", measure + 16, 5),
        ("right barline", measure + 28 + 17, 5),
        ("key mark", measure + 20, 2),
        ("kind", note, 4),
        ("value", note + 1, 10),
        ("dots", note + 2, 3),
        ("flags", note + 3, 63),
        ("beam", note + 4, 3),
        ("boundary", note + 7, 3),
        ("step", pitch, 6),
        ("last step", pitch + 10, 6),
        ("verse", lyric + 4, 32),
        ("syllabic", lyric + 5, 3),
        ("extend", lyric + 6, 1),
        ("lyric index", lyric, 2),
    ] {
        let least = u8::from(what == "verse");
        for value in 0..=255 {
            assert_eq!(with(at, value), (least..=most).contains(&value), "{what} {value}");
        }
    }
    // "anything in fields not named here"
    for at in [18, 19, 21, 23, 24, 25, 26, 27].map(|at| measure + at).into_iter().chain([note + 5, note + 6, pitch + 1, pitch + 2, pitch + 3, pitch + 4, text, text + 7]) {
        assert!((0..=255).all(|value| with(at, value)), "{at}");
    }
    // Counts that do not add up, or reach beyond the bytes.
    for at in [0, 4, note - 4, pitch - 4, lyric - 4, text - 4, measure, measure + 12, note + 8, lyric + 7] {
        for value in [whole[at].wrapping_add(1), whole[at].wrapping_sub(1), 255] {
            assert!(!with(at, value), "{at} {value}");
        }
        assert!((1..4).all(|byte| !with(at + byte, 255)), "{at}");
    }
}

#[test]
fn voltas() {
    for (voltas, whole) in [
        (&[][..], true), (&[0], true), (&[3], true), (&[1, 2], true), (&[1, 0, 0, 2], true), (&[3, 1, 2, 3, 0, 1, 2], true), (&[1, 2, 1, 2], true),
        (&[1], false), (&[2], false), (&[1, 0], false), (&[0, 2], false), (&[2, 1], false), (&[1, 1, 2], false), (&[1, 3, 2], false), (&[1, 2, 2], false), (&[3, 2], false), (&[1, 2, 1], false),
    ] {
        let bars: Vec<Bar> = voltas.iter().map(|volta| Bar { left: 0, right: 0, volta: *volta, passes: 1 }).collect();
        assert_eq!(is_whole(&reading_of(&[vec![], bars.clone()])), whole, "{voltas:?}");
        assert_eq!(played(&reading_of(&[bars]), 1, 9).is_ok(), whole, "{voltas:?}");
    }
}

#[test]
fn ends_and_zeros() {
    let whole = small();
    // A reading that ends in a zero would be another one, cut.
    assert_ne!(whole.last(), Some(&0));
    assert!((0..whole.len()).all(|length| !is_whole(&whole[..length])));
    for zeros in [1, 3, 4, 100] {
        let mut store = whole.clone();
        store.resize(whole.len() + zeros, 0);
        assert!(is_whole(&store));
        assert_eq!(played(&store, 1, 9), played(&whole, 1, 9));
        for at in whole.len()..store.len() {
            store[at] = 1;
            assert!(!is_whole(&store));
            assert_eq!(played(&store, 1, 9), Err(NoList::NoSuchPart));
            store[at] = 0;
        }
    }
    // What a refusal leaves is a reading of no parts; fewer bytes than a count are none.
    assert_eq!([0, 1, 3, 4, 5, 20, 24].map(|length| is_whole(&vec![0; length])), [false, false, false, true, true, true, true]);
    assert_eq!(played(&[0; 24], 1, 9), Err(NoList::NoSuchPart));
    // A part is five counts at least.
    assert!(!is_whole(&[1]) && !is_whole(&[&[1][..], &[0; 22]].concat()) && is_whole(&[&[1][..], &[0; 23]].concat()));
    // Counts of 32 bits in ten bytes.
    assert!(!is_whole(&[255; 10]) && !is_whole(&[255; 200]) && !is_whole(&[&[1, 0, 0, 0, 255, 255, 255, 255][..], &[0; 100]].concat()));
    // Voice counts that add up only in 32 bits.
    let mut wraps = reading_of(&[bars("00")]);
    wraps[8..12].fill(255);
    wraps[12] = 1;
    assert!(!is_whole(&wraps));
}

/// Value 10 on a note, a lyric on a rest, two equal lyrics, lyrics in any order, more than 32 parts.
#[test]
fn whole_though_no_text_has_it() {
    let mut whole = small();
    let lyric = 8 + 2 * 28 + 4 + 3 * 12 + 4 + 3 * 5 + 4;
    whole[lyric] = 1;
    whole[lyric + 11 + 4] = 1;
    whole[8 + 2 * 28 + 4 + 1] = 10;
    assert!(is_whole(&whole));
    assert!(is_whole(&reading_of(&vec![bars("00"); 40])));
    assert_eq!(played(&reading_of(&vec![bars("02"); 40]), 40, 9), Ok(vec![1, 1]));
}
