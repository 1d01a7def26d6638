use sindvaelo::*;
use std::fmt::Debug;
use std::iter::FusedIterator;

const TUNE: &[u8] = b"X:1\nM:3/4\nL:1/8\nK:Em\n|:E2 [GB]2-[GB]>A & z4|1(3efg ^F/B2:|2x6|]\nw: one two-three_ *\nw: eins\n";

fn tune() -> Reading<Vec<u8>> {
    read(TUNE).unwrap()
}

#[test]
fn counts() {
    let reading = tune();
    assert_eq!(reading.parts().len(), 1);
    let part = reading.parts().next().unwrap();
    assert_eq!(part.notes().count(), part.measures().map(|m| m.notes().count()).sum::<usize>());
    assert_eq!(part.pitches().count(), part.notes().map(|n| n.pitches().count()).sum::<usize>());
    assert_eq!(part.lyrics().collect::<Vec<_>>(), part.notes().flat_map(|n| n.lyrics()).collect::<Vec<_>>());
}

/// Front, back, length and end of an iterator agree.
fn both_ends<I>(iterator: I)
where
    I: DoubleEndedIterator + ExactSizeIterator + FusedIterator + Clone,
    I::Item: PartialEq + Debug,
{
    let forth: Vec<_> = iterator.clone().collect();
    let mut back: Vec<_> = iterator.clone().rev().collect();
    back.reverse();
    assert_eq!(forth, back);
    assert_eq!(iterator.len(), forth.len());
    // From both ends in turn.
    let (mut iterator, mut front, mut end) = (iterator, Vec::new(), Vec::new());
    loop {
        let left = iterator.len();
        let Some(item) = (if left % 3 == 0 { iterator.next_back() } else { iterator.next() }) else { break };
        if left % 3 == 0 { end.push(item) } else { front.push(item) }
        assert_eq!(iterator.len(), left - 1);
    }
    assert!(iterator.next().is_none() && iterator.next_back().is_none());
    end.reverse();
    front.extend(end);
    assert_eq!(front, forth);
}

#[test]
fn iterators() {
    let reading = read("L:1/8\nV:1\nV:2\nK:D\nV:1\n|:{g}f2 [Adf]2-[Adf]>e & z4 & c|(3Bcd z Z|[1A2:|\nw: a b-c _ d é\nw: x\nV:2\nDEF|\nw: low\n").unwrap();
    assert_eq!(reading.parts().len(), 2);
    assert_eq!((&reading).into_iter().count(), 2);
    for part in &reading {
        both_ends(part.measures());
        both_ends(part.notes());
        both_ends(part.pitches());
        both_ends(part.lyrics());
        for measure in part.measures() {
            both_ends(measure.notes());
            assert_eq!((0..4).flat_map(|v| measure.voice(v)).collect::<Vec<_>>(), measure.notes().collect::<Vec<_>>());
            for v in 0..6 {
                both_ends(measure.voice(v));
                assert_eq!(measure.voice(v).len(), measure.voice_len(v));
            }
            assert_eq!((measure.voice(4).len(), measure.voice(usize::MAX).len()), (0, 0));
        }
        for note in part.notes() {
            both_ends(note.pitches());
            both_ends(note.lyrics());
        }
    }
}

#[test]
fn views_compare() {
    let (owned, other) = (tune(), read("K:C\nA").unwrap());
    let view: Reading<&[u8]> = owned.view();
    assert_eq!(owned, view);
    assert_eq!(view, owned);
    assert_ne!(other, view);
    let part = owned.parts().next().unwrap();
    assert_eq!(part, view.parts().next().unwrap());
    assert_ne!(part.measures().next(), part.measures().nth(1));
    assert_eq!(part.notes().next(), part.measures().next().unwrap().notes().next());
}

#[test]
fn parts_outlive_a_borrowed_reading() {
    let owned = tune();
    let notes = {
        let reading = Reading::from_bytes(owned.as_bytes()).unwrap();
        reading.into_parts().next().unwrap().notes()
    };
    assert_eq!(notes.len(), owned.parts().next().unwrap().notes().len());
    assert_eq!(owned.view().into_iter().len(), 1);
}

#[test]
fn a_limit_and_memory() {
    let mut reader = Reader::with_limit(1000);
    assert_eq!((reader.limit(), reader.memory()), (1000, 0));
    assert_eq!(reader.read(vec![b'A'; 1001]), Err(Refusal::OverLimit { limit: 1000 }));
    assert_eq!(reader.read(vec![0xff; 1000]), Err(Refusal::NotUtf8));
    assert_eq!(reader.read(" \n"), Err(Refusal::NoMusic));
    // Nothing was allocated for any of them.
    assert_eq!(reader.memory(), 0);
    let refusal = Refusal::OverLimit { limit: 1000 };
    assert_eq!((refusal.number(), refusal.line(), refusal.is_senders()), (0, None, true));
    assert!(reader.read(TUNE).is_ok());
    assert_eq!(reader.memory(), scratch_bytes(TUNE.len()) + reading_bytes(TUNE.len()).min(12 * TUNE.len() + 1024));
    reader.release();
    assert_eq!(reader.memory(), 0);
    reader.set_limit(10);
    assert!(reader.read(TUNE).is_err());
    // The contract's own limit comes before any store.
    assert_eq!(Reader::new().read(vec![b'A'; MOST_BYTES + 1]), Err(Refusal::TooLong));
}

#[test]
fn a_second_try_where_the_reading_is_long() {
    // Letters alone have 17 bytes each.
    let dense = format!("K:C\n{}", "A".repeat(5000));
    let reading = read(&dense).unwrap();
    assert!(reading.as_bytes().len() > 12 * dense.len() + 1024);
    let mut reader = Reader::new();
    assert_eq!(reader.read(&dense).unwrap(), reading);
    assert_eq!(reader.memory(), scratch_bytes(dense.len()) + reading_bytes(dense.len()));
    assert_eq!(reader.read(&dense).unwrap(), reading);
}

#[test]
fn versions() {
    assert!(VERSION.split('.').count() == 3 && !COMMIT.is_empty() && !KIT.is_empty());
    if let Some(version) = library_version() {
        assert_eq!(format!("{}.{}.{}", version / 1_000_000, version / 1000 % 1000, version % 1000), VERSION);
    }
}

#[test]
fn fields() {
    let reading = tune();
    let part = reading.parts().next().unwrap();
    let measures: Vec<_> = part.measures().collect();
    let first = &measures[0];
    assert_eq!(first.barline_left(), Barline::RepeatStart);
    assert_eq!(first.time_sig(), TimeSignature { numerator: 3, denominator: 4 });
    assert_eq!(first.key_sig(), Some(KeySignature { fifths: 1, mode: Mode::Minor }));
    assert_eq!((first.voice_len(0), first.voice_len(1)), (4, 1));
    assert!(first.voice(1).all(|note| note.is_rest() && note.kind() == Kind::Rest && !note.hidden()));
    let notes: Vec<_> = first.voice(0).collect();
    assert_eq!(notes[0].pitches().next(), Some(Pitch { step: Step::E, octave: 4, alter: 0, microtone_cents: 0 }));
    assert_eq!((notes[0].duration(), notes[0].dot_count()), (Duration::Quarter, 0));
    assert!(notes[1].tie_start() && !notes[1].tie_end() && notes[2].tie_end());
    assert_eq!(notes[1].pitches().count(), 2);
    assert_eq!((notes[2].duration(), notes[2].dot_count()), (Duration::Eighth, 1));
    assert_eq!((notes[3].duration(), notes[3].beam()), (Duration::Sixteenth, BeamState::End));
    let lyrics: Vec<_> = part.lyrics().map(|l| (l.note, l.verse, l.text, l.syllabic, l.extend)).collect();
    assert_eq!(lyrics[0], (0, 1, "one", Syllabic::Single, false));
    assert_eq!(lyrics[1], (0, 2, "eins", Syllabic::Single, false));
    assert_eq!(lyrics[2], (1, 1, "two", Syllabic::Begin, false));
}

#[test]
fn lent_stores_hold_the_reading_and_zeros() {
    let length = tune().as_bytes().len();
    for extra in [0, 1, 100] {
        let mut store = vec![7; length + extra];
        let mut scratch = vec![9; scratch_bytes(TUNE.len()) + extra];
        let reading = read_into(TUNE, &mut store, &mut scratch).unwrap();
        assert_eq!(reading.as_bytes(), tune().as_bytes());
        assert!(store[length..].iter().chain(&scratch).all(|byte| *byte == 0));
    }
}

#[test]
fn stores_too_short() {
    let length = tune().as_bytes().len();
    let mut store = vec![7; length - 1];
    let mut scratch = vec![9; scratch_bytes(TUNE.len())];
    assert_eq!(parse_abc(TUNE, &mut store, &mut scratch), Err(Refusal::ReadingShort));
    assert!(store.iter().chain(&scratch).all(|byte| *byte == 0));
    let mut store = vec![7; length];
    let mut scratch = vec![9; scratch_bytes(TUNE.len()) - 1];
    assert_eq!(parse_abc(TUNE, &mut store, &mut scratch), Err(Refusal::ScratchShort));
    assert!(store.iter().chain(&scratch).all(|byte| *byte == 0));
    assert_eq!(parse_abc(b"", &mut [], &mut []), Err(Refusal::NoMusic));
}

#[test]
fn refusals_say_what_to_do() {
    let refusal = read(b"K:C\nA\nX:2\n").unwrap_err();
    assert_eq!(refusal, Refusal::SecondTune { line: 3 });
    assert_eq!((refusal.number(), refusal.line()), (7, Some(3)));
    assert_eq!(refusal.to_string(), "refused (7) at line 3: an X: line after the first K: line. Send one tune in a text");
    assert_eq!(read(b"\xff").unwrap_err().line(), None);
    assert!(refusal.is_senders() && Refusal::NoMusic.is_senders());
    assert!(!Refusal::ScratchShort.is_senders() && !Refusal::ReadingShort.is_senders());
}

#[test]
fn three_refusals_of_a_pass_list() {
    let cases = [
        (Refusal::Passes { line: 3 }, 14, &["01", "00", "1,", "1-", "1--2", "1,,2", "1-2-3", "0,1-", "33,01"][..], ["no list", "[1 for [01", "[1,2 for [1,,2"]),
        (Refusal::PassRange { line: 3 }, 17, &["0", "33", "1,0", "1-0", "2,1,33", "3-1,40", "99999999999999999999999"], ["0 or above 32", "as in [0 or [33", "from 1 to 32"]),
        (Refusal::PassOrder { line: 3 }, 18, &["3-1", "2,1", "1,1", "2-2", "1-3,3"], ["do not rise", "[1-3 for [3-1", "[1,2 for [2,1"]),
    ];
    for (refusal, number, lists, words) in cases {
        for list in lists {
            assert_eq!(read(format!("X:1\nK:C\nA|[{list}B|c")), Err(refusal), "{list}");
        }
        assert_eq!((refusal.number(), refusal.line(), refusal.is_senders()), (number, Some(3), true));
        let told = refusal.to_string();
        assert!(told.starts_with(&format!("refused ({number}) at line 3: an ending ")), "{told}");
        for word in words {
            assert!(told.contains(word), "{word}: {told}");
        }
        // What is wrong and what to write: no two of them say the same.
        for (other, _, _, words) in cases.iter().filter(|case| case.0 != refusal) {
            assert!(!told.contains(words[0]) && !told.contains(words[2]), "{other:?}: {told}");
        }
    }
    // A list that one of the three would advise is read.
    for list in ["1", "1,2", "1-3", "32", "1,3-5,7"] {
        assert!(read(format!("K:C\n[{list}A")).is_ok(), "{list}");
    }
}

/// The first reads as before; the second by ABC 2.1 where the request says so.
#[test]
fn editions() {
    let part = |text: &str, edition: Edition| {
        let reading = read_edition(text, edition).unwrap();
        let part = reading.parts().next().unwrap();
        let keys: Vec<i8> = part.measures().filter_map(|measure| measure.key_sig()).map(|key| key.fifths).collect();
        let tuplets: Vec<_> = part.notes().filter_map(|note| note.tuplet()).map(|tuplet| (tuplet.actual_notes, tuplet.normal_notes)).collect();
        let alters: Vec<i8> = part.pitches().map(|pitch| pitch.alter).collect();
        let sung: Vec<String> = part.lyrics().map(|lyric| format!("{}@{}", lyric.text, lyric.note)).collect();
        (keys, tuplets, alters, sung.join(" "))
    };
    let sung = |text: &str| text.to_owned();
    let cases = [
        ("K:Ador\nF", (vec![0], vec![], vec![0], sung("")), (vec![1], vec![], vec![1], sung(""))),
        ("V:1\nV:2\nK:G\nV:1\nF", (vec![1], vec![], vec![0], sung("")), (vec![1], vec![], vec![1], sung(""))),
        ("M:6/8\nK:C\n(5A", (vec![0], vec![(5, 4)], vec![0], sung("")), (vec![0], vec![(5, 3)], vec![0], sung(""))),
        ("M:12/8\nK:C\n(7A[M:3/4](9B", (vec![0], vec![(7, 6), (9, 8)], vec![0; 2], sung("")), (vec![0], vec![(7, 3), (9, 2)], vec![0; 2], sung(""))),
        ("K:C\n(3:A", (vec![0], vec![], vec![0], sung("")), (vec![0], vec![(3, 2)], vec![0], sung(""))),
        ("K:C\n{A}B|c\nw:a | b", (vec![0], vec![], vec![0; 3], sung("a@0 b@1")), (vec![0], vec![], vec![0; 3], sung("a@1 b@2"))),
    ];
    for (text, first, second) in cases {
        assert_eq!((part(text, Edition::First), part(text, Edition::Abc21)), (first, second), "{text}");
        assert_eq!(read(text), read_edition(text, Edition::First), "{text}");
        assert_ne!(read(text), read_edition(text, Edition::Abc21), "{text}");
    }
    assert_eq!(tune(), read_edition(TUNE, Edition::Abc21).unwrap());
    assert_eq!(Edition::default(), Edition::First);
}

/// Every way to name an edition gives the same bytes and the same stores.
#[test]
fn doors_of_an_edition() {
    let text = "K:Ador\n{A}B|c\nw:a | b\n";
    for edition in [Edition::First, Edition::Abc21] {
        let bytes = read_edition(text, edition).unwrap().into_bytes();
        let mut reader = Reader::with_edition(edition);
        assert_eq!(reader.edition(), edition);
        for _ in 0..2 {
            assert_eq!(reader.read(text).unwrap().as_bytes(), bytes);
            assert_eq!(reader.read("  "), Err(Refusal::NoMusic));
        }
        reader.set_limit(10);
        assert_eq!(reader.read(text), Err(Refusal::OverLimit { limit: 10 }));
        for (reading, scratch, wanted) in [
            (bytes.len(), scratch_bytes(text.len()), Ok(bytes.len())),
            (bytes.len() + 9, scratch_bytes(text.len()) + 1, Ok(bytes.len())),
            (bytes.len() - 1, scratch_bytes(text.len()), Err(Refusal::ReadingShort)),
            (bytes.len(), scratch_bytes(text.len()) - 1, Err(Refusal::ScratchShort)),
        ] {
            let (mut store, mut scratch) = (vec![7; reading], vec![9; scratch]);
            assert_eq!(parse_abc_edition(text, &mut store, &mut scratch, edition), wanted);
            let length = wanted.unwrap_or(0);
            assert!(store[..length] == bytes[..length] && store[length..].iter().chain(&scratch).all(|byte| *byte == 0));
            scratch.fill(5);
            assert_eq!(read_into_edition(text, &mut store, &mut scratch, edition).map(|reading| reading.as_bytes().len()), wanted);
        }
    }
    assert_eq!(Reader::new().edition(), Edition::First);
    assert_eq!(Reader::with_limit(5).edition(), Edition::First);
}

#[test]
fn a_key_beyond_seven() {
    for (text, line) in [("K:G#\nA", 1), ("K:C\nA|\nK:Fb\nB", 3), ("K:C\nA[K:C#lyd]", 2)] {
        assert_eq!(read_edition(text, Edition::Abc21), Err(Refusal::KeyBeyond { line }), "{text}");
        assert!(read(text).is_ok(), "{text}");
    }
    let refusal = Refusal::KeyBeyond { line: 3 };
    assert_eq!((refusal.number(), refusal.line(), refusal.is_senders()), (21, Some(3), true));
    assert_eq!(
        refusal.to_string(),
        "refused (21) at line 3: a key of more than seven sharps or flats, as in K:G# or K:Fb. Name the key that sounds the same: K:Ab for K:G#, K:E for K:Fb"
    );
    // What it advises is read.
    for key in ["Ab", "E", "Db lyd"] {
        assert!(read_edition(format!("K:{key}\nA"), Edition::Abc21).is_ok(), "{key}");
    }
}

/// Slashes in a row halve once each in the second edition, behind a note, a chord and a rest alike; what stands behind them is skipped.
#[test]
fn slashes() {
    use Duration::*;
    let values = |music: &str, edition: Edition| -> Vec<(Duration, u8, bool)> {
        let reading = read_edition(format!("K:C\n{music}"), edition).unwrap();
        reading.parts().next().unwrap().notes().map(|note| (note.duration(), note.dot_count(), note.tie_start())).collect()
    };
    let plain = |value: Duration| (value, 0, false);
    for (music, first, second) in [
        ("A//", vec![plain(Sixteenth)], vec![plain(ThirtySecond)]),
        ("A///B/", vec![plain(Sixteenth); 2], vec![plain(SixtyFourth), plain(Sixteenth)]),
        ("A3//", vec![(Eighth, 1, false)], vec![(Sixteenth, 1, false)]),
        ("A//8", vec![plain(Sixteenth)], vec![plain(ThirtySecond)]),
        ("[CE]//z//x//", vec![plain(Sixteenth); 3], vec![plain(ThirtySecond); 3]),
        ("A//-B", vec![plain(Sixteenth), plain(Eighth)], vec![(ThirtySecond, 0, true), plain(Eighth)]),
    ] {
        assert_eq!((values(music, Edition::First), values(music, Edition::Abc21)), (first, second), "{music}");
    }
    // Read alike: one slash, and slashes behind one with digits.
    for music in ["A/", "A3/4", "A/4//", "A/2/2-B", "A/2////////////////////////////////////////", "Z//X//", "[]//A", "[C//E]", "\"A//\"B", "A //"] {
        assert_eq!(values(music, Edition::First), values(music, Edition::Abc21), "{music}");
    }
}

#[test]
fn many_slashes() {
    for sound in ["A", "^c'3", "[CE]", "[]", "z", "x", "Z", "X"] {
        let text = |count: usize| format!("K:C\nA|\n{sound}{}B", "/".repeat(count));
        assert!(read_edition(text(31), Edition::Abc21).is_ok(), "{sound}");
        for count in [32, 33, 256, 288] {
            assert_eq!(read_edition(text(count), Edition::Abc21), Err(Refusal::ManySlashes { line: 3 }), "{sound} {count}");
            assert!(read(text(count)).is_ok(), "{sound} {count}");
        }
    }
    let refusal = Refusal::ManySlashes { line: 3 };
    assert_eq!((refusal.number(), refusal.line(), refusal.is_senders()), (22, Some(3), true));
    assert_eq!(
        refusal.to_string(),
        "refused (22) at line 3: more than 31 slashes in a row behind a note, chord or rest, where each halves its length. Take some away, or put a space before slashes that are no length"
    );
    // What it advises is read.
    assert!(read_edition(format!("K:C\nA {}", "/".repeat(40)), Edition::Abc21).is_ok());
}

#[test]
fn a_reader_is_used_again() {
    let mut reader = Reader::new();
    assert_eq!(reader.read(TUNE).unwrap().as_bytes(), tune().as_bytes());
    assert_eq!(reader.read(b"  "), Err(Refusal::NoMusic));
    assert_eq!(reader.read(b"K:C\nA").unwrap().as_bytes(), read(b"K:C\nA").unwrap().as_bytes());
    assert_eq!(reader.read(TUNE).unwrap().as_bytes(), tune().as_bytes());
}

#[test]
fn kept_bytes() {
    let bytes = tune().into_bytes();
    assert_eq!(Reading::from_bytes(&bytes[..]).unwrap().parts().count(), 1);
    assert!(Reading::from_bytes(&bytes[..bytes.len() - 1]).is_none());
    assert!(Reading::from_bytes(&[][..]).is_none());
    let (mut viewed, mut whole) = (0, 0);
    for (at, change) in (0..bytes.len()).flat_map(|at| [1, 2, 0x41, 0x80, 0xff].map(|change| (at, change))) {
        let mut other = bytes.clone();
        other[at] ^= change;
        whole += u32::from(is_whole(&other));
        if let Some(reading) = Reading::from_bytes(&other[..]) {
            // Whatever passes can be walked, from both ends, and played.
            viewed += 1;
            assert!(is_whole(&other));
            let _ = format!("{reading:?}");
            for part in &reading {
                let _ = format!("{:?}{:?}", part.measures().rev().collect::<Vec<_>>(), part.lyrics().rev().collect::<Vec<_>>());
                part.measures().rev().for_each(|measure| both_ends(measure.notes()));
                assert!(part.played(10_000).is_ok());
            }
        }
    }
    assert!(viewed > 100 && whole > viewed);
}

/// A whole reading may have zeros behind it, as in a store; the reading is the same.
#[test]
fn zeros_behind_a_reading() {
    let bytes = tune().into_bytes();
    let mut store = bytes.clone();
    store.resize(bytes.len() + 30, 0);
    let reading = Reading::from_bytes(&store[..]).unwrap();
    assert_eq!(reading, tune());
    assert_eq!((reading.as_bytes(), reading.view().into_bytes()), (&bytes[..], &bytes[..]));
    assert_eq!(reading.into_bytes(), &store[..]);
    *store.last_mut().unwrap() = 1;
    assert!(Reading::from_bytes(&store[..]).is_none() && !is_whole(&store));
    // What a refusal leaves is a reading without parts.
    assert_eq!(Reading::from_bytes([0; 9]).unwrap().parts().len(), 0);
}

/// What the views ask beside a whole reading: lyrics by note, texts in UTF-8.
#[test]
fn whole_and_viewable() {
    let bytes = read("K:C\nAB\nw: one two\n").unwrap().into_bytes();
    let lyrics = bytes.len() - 6 - 4 - 2 * 11;
    assert_eq!((&bytes[lyrics..lyrics + 5], &bytes[bytes.len() - 6..]), (&[0, 0, 0, 0, 1][..], &b"onetwo"[..]));
    let with = |at: usize, value: u8| {
        let mut other = bytes.clone();
        other[at] = value;
        (is_whole(&other), Reading::from_bytes(other).is_some())
    };
    assert_eq!(with(0, 1), (true, true));
    // The second lyric on the first note, and the first one on the second.
    assert_eq!(with(lyrics + 11, 0), (true, true));
    assert_eq!(with(lyrics, 1), (true, true));
    let mut turned = bytes.clone();
    (turned[lyrics], turned[lyrics + 11]) = (1, 0);
    assert!(is_whole(&turned) && Reading::from_bytes(turned).is_none());
    assert_eq!(with(bytes.len() - 1, 0xff), (true, false));
    // No whole reading: a verse 0, dots beyond 3, an extend of 2, a note that is not there.
    let note = 8 + 28 + 4;
    for (at, value) in [(lyrics + 4, 0), (lyrics + 4, 33), (lyrics + 6, 2), (lyrics, 2), (note + 2, 4), (note + 3, 64)] {
        assert_eq!(with(at, value), (false, false), "{at} {value}");
    }
}

#[test]
fn played() {
    let reading = read("V:1\nV:2\nV:3\nK:C\nV:1\n|:A|[1B:|[2c|]\nV:3\nA|[2B:|c:|\nw: one\n").unwrap();
    let lists: Vec<_> = reading.parts().map(|part| part.played(10).unwrap()).collect();
    assert_eq!(lists, [&[1, 2, 1, 3][..], &[], &[1, 3, 1, 2, 3, 3]]);
    // The call on the whole reading says the same of each part, in a store of just the length and a longer one.
    for (part, list) in (1..).zip(&lists) {
        for extra in [0, 1, 40] {
            let mut store = vec![7; list_bytes(list.len()) + extra];
            assert_eq!(played_measures(reading.as_bytes(), part, &mut store), Ok(list_bytes(list.len())));
            let numbers: Vec<u32> = store.chunks_exact(4).map(|n| u32::from_le_bytes(n.try_into().unwrap())).collect();
            assert_eq!((numbers[0] as usize, &numbers[1..=list.len()]), (list.len(), &list[..]));
            assert!(store[list_bytes(list.len())..].iter().all(|byte| *byte == 0));
        }
        let mut store = vec![7; list_bytes(list.len()) - 1];
        assert_eq!(played_measures(reading.as_bytes(), part, &mut store), Err(Refusal::ListShort));
        assert!(store.iter().all(|byte| *byte == 0));
    }
    for part in [0, 4, u32::MAX] {
        let mut store = [7; 100];
        assert_eq!(played_measures(reading.as_bytes(), part, &mut store), Err(Refusal::NoSuchPart));
        assert_eq!(store, [0; 100]);
    }
    // 19 before 20.
    assert_eq!(played_measures(reading.as_bytes(), 0, &mut []), Err(Refusal::NoSuchPart));
    assert_eq!(played_measures(&reading.as_bytes()[1..], 1, &mut [0; 100]), Err(Refusal::NoSuchPart));
    assert_eq!(played_measures(&[0; 4], 1, &mut [0; 100]), Err(Refusal::NoSuchPart));
    for (refusal, number) in [(Refusal::NoSuchPart, 19), (Refusal::ListShort, 20)] {
        assert_eq!((refusal.number(), refusal.line(), refusal.is_senders()), (number, None, false));
    }
    assert!(Refusal::NoSuchPart.to_string().starts_with("refused (19): no whole reading, or no part of that number. Take "));
    assert!(Refusal::ListShort.to_string().starts_with("refused (20): more measures are played than the list has room for. Lend "));
}

/// The store is doubled up to the limit, and no further.
#[test]
fn a_list_with_a_limit() {
    for k in [1, 5, 20] {
        let count = 31 * k * (k + 3) / 2 + 2 * k + 2;
        let reading = read(format!("K:C\n{}c:|\n", "A|[32B:|".repeat(k))).unwrap();
        let part = reading.parts().next().unwrap();
        assert_eq!(part.measures().len(), 2 * k + 1);
        for most in [count, count + 1, 2 * count, usize::MAX] {
            assert_eq!(part.played(most).map(|list| list.len()), Ok(count));
        }
        for most in [0, 1, 2 * k, 4 * k + 2, count / 2, count - 1] {
            assert_eq!(part.played(most), Err(Refusal::ListShort), "{k} {most}");
        }
    }
    // An empty list asks for no number.
    assert_eq!(read("K:C\n[2A|B").unwrap().parts().next().unwrap().played(0), Ok(vec![]));
}
