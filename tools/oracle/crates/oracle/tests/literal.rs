//! The second reader held to document 02's T-03 and T-04: every table of the pages that work them out, worked out by hand; and to the Rust on the probes.
use oracle::dump::{Note, Part, decode};
use oracle::literal::{Edition, LiteralAnswer, answer, brief_line};
use oracle::rng::Rng;
use oracle::{Answer, escape, generate, unescape};

use Edition::{Abc21, First};

/// The parts, or the refusal's number and line.
fn read(text: &str, edition: Edition) -> Result<Vec<Part>, (u32, usize)> {
    match answer(&unescape(text), edition) {
        LiteralAnswer::Reading { bytes, .. } => Ok(decode(&bytes).expect("a whole reading")),
        LiteralAnswer::Refused(number, line) => Err((number, line)),
    }
}

fn part(text: &str, edition: Edition) -> Part {
    let parts = read(text, edition).unwrap_or_else(|refusal| panic!("{text}: {refusal:?}"));
    assert_eq!(parts.len(), 1, "{text}");
    parts.into_iter().next().unwrap()
}

// ---- keys -----------------------------------------------------------------------------------------------------------

/// Key texts with their fifths and mark.
const KEYS: [(&str, i8, u8); 61] = [
    // The page's table.
    ("D bass m", -1, 2), ("Ador", 1, 1), ("A Dorian", 1, 1), ("GM", -2, 2), ("Gmi", 1, 1), ("Gma", 1, 1), ("Emm", 4, 1), ("D exp _b", 2, 1), ("A b", 3, 1),
    ("g", 0, 1), ("Hp", 0, 1), ("none", 0, 1), ("", 0, 1), ("exp ^f", 0, 1), ("G#m", 5, 2), ("Fb lyd", -7, 1), ("F#lyd", 7, 1), ("Bbloc", -7, 1), ("A#m", 7, 2),
    // Cases, and what stands behind the three letters.
    ("CMAJ", 0, 1), ("C Major", 0, 1), ("C majx", 0, 1), ("CIoNian", 0, 1), ("DMIN", -1, 2), ("D minor", -1, 2), ("Dmini", -1, 2), ("EAEOlian", 1, 2), ("C dorothy", -2, 1), ("CPHR", -4, 1), ("CLyd", 1, 1),
    ("CmIxed", -1, 1), ("C locrian", -5, 1), ("Cmaj7", 0, 1), ("Ddorm", 0, 1),
    // m and M: a letter behind them or none.
    ("Am", 0, 2), ("AM", 0, 2), ("A m", 0, 2), ("A M", 0, 2), ("Am7", 0, 2), ("Am#", 0, 2), ("Am m", 0, 2), ("AmB", 3, 1), ("Amb", 3, 1), ("AMa", 3, 1), ("A mi nor", 3, 1), ("Am in", 0, 2),
    // Signs right behind the letter or not at all.
    ("Abm", -7, 2), ("A bm", 3, 1), ("A #m", 3, 1), ("Bb", -2, 1), ("B b", 5, 1), ("C##", 7, 1), ("Cbb", -7, 1), ("F#m", 3, 2), ("A=m", 0, 1),
    // Clef words and words with an equals sign leave first, wherever they stand.
    ("bass Gm", -2, 2), ("clef=alto G TREBLE mix octave=-1", 0, 1), ("D treble-8 m", 2, 1), ("G middle min", 1, 1), ("treble", 0, 1), ("m", 0, 1),
];

/// The line of fifths.
const TONICS: [(&str, i32); 21] = [
    ("Fb", -8), ("Cb", -7), ("Gb", -6), ("Db", -5), ("Ab", -4), ("Eb", -3), ("Bb", -2), ("F", -1), ("C", 0), ("G", 1), ("D", 2), ("A", 3), ("E", 4), ("B", 5), ("F#", 6), ("C#", 7), ("G#", 8), ("D#", 9), ("A#", 10),
    ("E#", 11), ("B#", 12),
];
const MODES: [(&str, i32, u8); 12] = [
    ("lyd", 1, 1), ("", 0, 1), ("maj", 0, 1), ("ion", 0, 1), ("mix", -1, 1), ("dor", -2, 1), ("min", -3, 2), ("aeo", -3, 2), ("m", -3, 2), ("M", -3, 2), ("phr", -4, 1), ("loc", -5, 1),
];

/// The key mark of a measure.
fn mark(text: &str, measure: usize, edition: Edition) -> Result<(i8, u8), (u32, usize)> {
    let parts = read(text, edition)?;
    let measure = &parts[0].measures[measure];
    Ok((measure.fifths, measure.key))
}

/// The same key in the header, in the body and inline; a refusal bears the field's line.
fn has_key(value: &str, wanted: Result<(i8, u8), u32>) {
    for (text, measure, line) in [(format!("K:{value}\nA"), 0, 1), (format!("K:C\nA|\nK: {value}\nB"), 1, 3), (format!("K:C\nA|[K:{value}]B"), 1, 2)] {
        assert_eq!(mark(&text, measure, Abc21), wanted.map_err(|number| (number, line)), "{text}");
    }
}

#[test]
fn keys() {
    for (value, fifths, mark) in KEYS {
        has_key(value, Ok((fifths, mark)));
    }
    for clef in ["treble", "bass", "alto", "tenor", "soprano", "mezzosoprano", "baritone", "Treble", "BASS", "clef=g2", "clef=", "=", "transpose=-2"] {
        has_key(&format!("D {clef} m"), Ok((-1, 2)));
        has_key(&format!("{clef} D"), Ok((2, 1)));
        has_key(&format!("{clef} G# middle=B"), Err(21));
    }
}

#[test]
fn every_tonic_in_every_mode() {
    for (tonic, place) in TONICS {
        for (mode, change, mark) in MODES {
            let fifths = place + change;
            let wanted = if (-7..=7).contains(&fifths) { Ok((fifths as i8, mark)) } else { Err(21) };
            for gap in ["", " ", "  \t "] {
                has_key(&format!("{tonic}{gap}{mode}"), wanted);
            }
        }
    }
}

#[test]
fn keys_beyond_seven() {
    for value in ["G#", "Fb", "C#lyd", "Ebloc", "Cbmix", "E#m", "B#phr", "Fbm", "Gb phrygian", "treble G#", "G# x y", "D# bass", "A#Dorian"] {
        has_key(value, Err(21));
    }
    // The first edition reads them as it did.
    for (value, wanted) in [("G#", (0, 1)), ("Fb", (0, 1)), ("C#lyd", (0, 1)), ("E#m", (0, 2)), ("GM", (0, 1)), ("Ador", (0, 1)), ("G#m", (5, 2))] {
        assert_eq!(mark(&format!("K:{value}\nA"), 0, First), Ok(wanted), "{value}");
    }
    // A K line that will be lost is refused too.
    assert_eq!(read("K:C\\nK:G#\\nF", Abc21), Err((21, 2)));
    // A music line before the first K line is not looked at, nor a bracket that is no K field.
    for text in [" [K:G#]\\nK:C\\nA", "K:C\\n[ K:G#]A", "K:C\\n[k:G#]A", "K:C\\n\"[K:G#]\"A", "K:C\\nA%[K:G#]", "K:C\\n[K:G#", "V:1 G#\\nK:C\\nA", "K:C\\nw:[K:G#]\\nA"] {
        assert!(read(text, Abc21).is_ok(), "{text}");
    }
}

/// "as met in the line"
#[test]
fn twenty_one_and_others() {
    for (text, wanted) in [
        ("K:G# middle=B\\nA", (21, 1)),
        ("K:middle=B G#\\nA", (10, 1)),
        ("K:Fb middle=C loc\\nA", (21, 1)),
        ("K:G# middle=B min\\nA", (10, 1)),
        // Words that leave the key text are passed over.
        ("K:bass clef=x G# middle=B\\nA", (21, 1)),
        ("K:bass middle=B clef=x G#\\nA", (10, 1)),
        ("K:middle=\\nA", (10, 1)),
        ("K:C\\nA[K:G# middle=B]", (21, 2)),
        ("K:C\\nA[K:middle=B G#]", (10, 2)),
        // 6 is tested on the whole line before.
        ("K:G# \\u{e9}\\nA", (6, 1)),
        ("K:C\\n[K:G#]\\u{e9}", (6, 2)),
        // Tokens from left to right.
        ("K:C\\n[0A[K:G#]", (17, 2)),
        ("K:C\\nA[K:G#][0", (21, 2)),
        ("K:C\\n[K:Fb]A\\*133{,}", (21, 2)),
        ("K:C\\nA\\*133{,}[K:Fb]", (12, 2)),
        ("K:C\\n\\*100000{A}[K:G#]", (21, 2)),
        ("K:C\\n\\*100001{A}[K:G#]", (11, 2)),
        // Lines from the first one on.
        ("K:C\\nV:\\nK:G#\\nA", (8, 2)),
        ("K:G#\\nV:\\nA", (21, 1)),
        ("K:G#\\n", (21, 1)),
    ] {
        assert_eq!(read(text, Abc21), Err(wanted), "{text}");
    }
}

/// What the notes of a line sound like: their alters.
fn alters(part: &Part) -> Vec<i8> {
    part.notes.iter().map(|note| note.pitches[0].2).collect()
}

#[test]
fn keys_are_heard() {
    for (value, wanted) in [
        ("C", [0, 0, 0, 0, 0, 0, 0]),
        ("Ador", [0, 0, 0, 1, 0, 0, 0]),
        ("Dm", [0, 0, 0, 0, 0, 0, -1]),
        ("Fb lyd", [-1, -1, -1, -1, -1, -1, -1]),
        ("F#lyd", [1, 1, 1, 1, 1, 1, 1]),
        ("Cloc", [0, -1, -1, 0, -1, -1, -1]),
        ("Emix", [1, 0, 0, 1, 1, 0, 0]),
    ] {
        assert_eq!(alters(&part(&format!("K:{value}\\nCDEFGAB"), Abc21)), wanted, "{value}");
    }
}

// ---- the header's key -----------------------------------------------------------------------------------------------

#[test]
fn the_header_key_holds_for_every_voice() {
    // Each part's alters, in the first edition and in the second.
    for (text, first, second) in [
        ("V:1\\nV:2\\nK:G\\nV:1\\nF", &[&[0][..], &[]][..], &[&[1][..], &[]][..]),
        ("V:1\\nV:2\\nK:G\\nF\\nV:1\\nF", &[&[0], &[1]], &[&[1], &[1]]),
        ("V:1\\nV:2\\nV:3\\nK:Bb\\nV:1\\nBF\\nV:2\\nE\\nV:3\\nB\\nV:4\\nB", &[&[0, 0], &[0], &[-1], &[-1]], &[&[-1, 0], &[-1], &[-1], &[-1]]),
        // An X line makes the first part current; in the second edition that makes no difference.
        ("V:1\\nV:2\\nX:1\\nK:G\\nF\\nV:2\\nF", &[&[1], &[0]], &[&[1], &[1]]),
        // A voice named later, and music before any V line.
        ("K:G\\nF\\nV:1\\nF", &[&[1], &[1]], &[&[1], &[1]]),
        // A body K line in a voice with no measure yet falls back to the header's key.
        ("V:1\\nV:2\\nK:G\\nV:1\\nK:D\\nFC", &[&[1, 0], &[]], &[&[1, 0], &[]]),
        ("K:G\\nK:D\\nFC", &[&[1, 0]], &[&[1, 0]]),
        ("K:G\\nF|\\nK:D\\nFC", &[&[1, 1, 1]], &[&[1, 1, 1]]),
        ("V:1\\nV:2\\nK:G\\nV:1\\n[K:F]FB\\nV:2\\nFB", &[&[0, -1], &[1, 0]], &[&[0, -1], &[1, 0]]),
    ] {
        for (edition, wanted) in [(First, first), (Abc21, second)] {
            let found: Vec<Vec<i8>> = read(text, edition).unwrap().iter().map(alters).collect();
            assert_eq!(found, wanted, "{edition:?} {text}");
        }
    }
}

// ---- tuplets --------------------------------------------------------------------------------------------------------

/// The tuplets of the notes, as `5:3`, `-` where there is none.
fn tuplets(text: &str, edition: Edition) -> String {
    let show = |note: &Note| if note.tuplet == (0, 0) { "-".to_string() } else { format!("{}:{}", note.tuplet.0, note.tuplet.1) };
    part(text, edition).notes.iter().map(show).collect::<Vec<_>>().join(" ")
}

#[test]
fn defaults_of_q() {
    let numbers = [2, 3, 4, 5, 6, 7, 8, 9, 10, 11, 12, 254, 255];
    let first = ["2:3", "3:2", "4:3", "5:4", "6:5", "7:6", "8:7", "9:8", "10:9", "11:10", "12:11", "254:253", "255:254"];
    let two = ["2:3", "3:2", "4:3", "5:2", "6:2", "7:2", "8:3", "9:2", "10:9", "11:10", "12:11", "254:253", "255:254"];
    let three = ["2:3", "3:2", "4:3", "5:3", "6:2", "7:3", "8:3", "9:3", "10:9", "11:10", "12:11", "254:253", "255:254"];
    for (meter, second) in [
        ("6/8", three), ("9/8", three), ("12/8", three), ("06/8", three), ("+6/8", three), ("9/+08", three), (" 12 / 8 ", three),
        ("3/4", two), ("3/8", two), ("6/4", two), ("18/8", two), ("15/8", two), ("12/16", two), ("0/0", two), ("0/8", two), ("6/16", two), ("9/4", two), ("12/4", two), ("24/8", two), ("8/6", two), ("268/8", two), ("6/264", two),
        ("6", two), ("+6/x", two), ("4/8", two), ("4/4", two), ("2/4", two), ("C", two), ("C|", two), ("5/8", two), ("7/3", two), ("1/3", two), ("none", two), ("255/8", two), ("256/4", two), ("4/6", two),
    ] {
        for (i, p) in numbers.iter().enumerate() {
            for text in [format!("M:{meter}\\nK:C\\n({p}A"), format!("K:C\\n[M:{meter}]({p}A"), format!("K:C\\nM:{meter}\\n({p}A")] {
                assert_eq!(tuplets(&text, First), first[i], "{text}");
                assert_eq!(tuplets(&text, Abc21), second[i], "{text}");
            }
        }
    }
}

/// "the meter in force where the tuplet is written, inline M included"
#[test]
fn the_meter_in_force() {
    for (text, wanted) in [
        ("K:C\\n(5A[M:6/8](5B", "5:2 5:3"),
        ("M:6/8\\nK:C\\n(7A[M:2/4](7B[M:9/8](9c", "7:3 7:2 9:3"),
        ("K:C\\n(5[M:6/8]AB", "5:2 5:2"),
        ("K:C\\n(5A|B|[M:12/8]c(5d", "5:2 5:2 5:2 5:3"),
        ("M:6/8\\nK:C\\n(5A|B|[M:3/4]c(5d", "5:3 5:3 5:3 5:2"),
        ("K:C\\n(9A|[M:6/8]|(9B\\n(9c", "9:2 9:3 9:3"),
        ("M:9/8\\nK:C\\n\"[M:4/4]\"(5A", "5:3"),
        ("M:6/8\\nM:4/4\\nK:C\\n(5A", "5:2"),
        // Written, it does not matter.
        ("M:6/8\\nK:C\\n(5:4A (5:4:2Bc", "5:4 5:4 5:4"),
    ] {
        assert_eq!(tuplets(text, Abc21), wanted, "{text}");
    }
    // An M field in another voice's block has changed it before; the measure's record is another matter.
    let parts = read("V:1\\nV:2\\nK:C\\nV:1\\nA\\nV:2\\nM:6/8\\nB\\nV:1\\n(5c", Abc21).unwrap();
    assert_eq!((parts[0].notes[1].tuplet, parts[0].measures[0].meter), ((5, 3), (4, 4)));
}

#[test]
fn empty_parts() {
    // The first edition's words, then the second's.
    for (music, first, second) in [
        ("(3::A", "|3 <note 1/8 slur( unbeamed A4> 0|", "|0 <note 1/8 unbeamed tuplet 3:2 boundary1 A4> 0|"),
        ("(3:A", "|0 <note 1/8 slur( unbeamed A4> 0|", "|0 <note 1/8 unbeamed tuplet 3:2 boundary1 A4> 0|"),
        ("(3:2:A", "|0 <note 1/8 slur( unbeamed A4> 0|", "|0 <note 1/8 unbeamed tuplet 3:2 boundary1 A4> 0|"),
        ("(3::1A", "|3 <note 1/8 slur( unbeamed A4> 0|", "|0 <note 1/8 unbeamed tuplet 3:2 boundary3 A4> 0|"),
        ("(3:4:A", "|0 <note 1/8 slur( unbeamed A4> 0|", "|0 <note 1/8 unbeamed tuplet 3:4 boundary1 A4> 0|"),
        ("(5::3A", "|3 <note 1/8 slur( unbeamed A4> 0|", "|0 <note 1/8 unbeamed tuplet 5:2 boundary1 A4> 0|"),
        ("A(3:|A", "|0 <note 1/8 unbeamed A4> 2| |0 <note 1/8 slur( unbeamed A4> 0|", "|0 <note 1/8 unbeamed A4> 0| |0 <note 1/8 unbeamed tuplet 3:2 boundary1 A4> 0|"),
        ("A(3:2:|A", "|0 <note 1/8 unbeamed A4> 2| |0 <note 1/8 slur( unbeamed A4> 0|", "|0 <note 1/8 unbeamed A4> 0| |0 <note 1/8 unbeamed tuplet 3:2 boundary1 A4> 0|"),
        ("A(3::|A", "|0 <note 1/8 unbeamed A4> 3| |3 <note 1/8 slur( unbeamed A4> 0|", "|0 <note 1/8 unbeamed A4> 0| |0 <note 1/8 unbeamed tuplet 3:2 boundary1 A4> 0|"),
        // Three colons: the third is none of the tuplet's; with a bar behind it, it ends a repeat.
        ("A(3:::|A", "|0 <note 1/8 unbeamed A4> 3| |3 <note 1/8 slur( unbeamed A4> 0|", "|0 <note 1/8 unbeamed A4> 2| |0 <note 1/8 unbeamed tuplet 3:2 boundary1 A4> 0|"),
    ] {
        let text = format!("K:C\n{music}");
        assert_eq!(brief_line(text.as_bytes(), First), first, "{music}");
        assert_eq!(brief_line(text.as_bytes(), Abc21), second, "{music}");
    }
    // A part that is written and bad is not empty, and no part after `:` is the actual number.
    for music in ["(3:0A", "(1A", "(256A", "(:2A", "(0A", "(0::A", "(1:2:3A", "(3:256A", "(3:2:0A", "(3::0A", "(3:2:18446744073709551616A", "(3:000A", "(A", "( 3A"] {
        for edition in [First, Abc21] {
            let note = part(&format!("K:C\\n{music}"), edition).notes[0].clone();
            assert_eq!((note.tuplet, note.flags & 4), ((0, 0), 4), "{edition:?} {music}");
        }
    }
    // How many notes an empty r takes: as many as p says.
    for (music, wanted) in [
        ("(2:ABcd", "2:3 2:3 - -"),
        ("(2::ABcd", "2:3 2:3 - -"),
        ("(3:5:ABcd", "3:5 3:5 3:5 -"),
        ("(5::3ABcd", "5:2 5:2 5:2 -"),
        ("(2::18446744073709551615ABcd", "2:3 2:3 2:3 2:3"),
        ("(9::2ABcd", "9:2 9:2 - -"),
    ] {
        assert_eq!(tuplets(&format!("K:C\\n{music}"), Abc21), wanted, "{music}");
    }
}

// ---- lengths --------------------------------------------------------------------------------------------------------

/// The lengths of the notes, as `1/32.`; `-` behind one that begins a tie, `)` behind one that ends a slur.
fn lengths(text: &str, edition: Edition) -> String {
    let show = |note: &Note| {
        let words = note.show();
        let length = words.split(' ').nth(1).unwrap().to_string();
        length + if note.flags & 1 > 0 { "-" } else { "" } + if note.flags & 8 > 0 { ")" } else { "" }
    };
    part(text, edition).notes.iter().map(show).collect::<Vec<_>>().join(" ")
}

/// The page's tables, the unit 1/8: music, its lengths in the first edition, in the second.
const SLASHES: [(&str, &str, &str); 57] = [
    // No slash and one: the same.
    ("A", "1/8", "1/8"), ("A3", "1/4.", "1/4."), ("A0", "1/4", "1/4"), ("A/", "1/16", "1/16"), ("A/4", "1/32", "1/32"), ("A3/2", "1/8.", "1/8."), ("A3/", "1/8.", "1/8."), ("A/0", "longa...", "longa..."),
    ("A0/0", "longa", "longa"), ("A/00000000002", "1/16", "1/16"), ("A/4294967296", "1/16", "1/16"), ("A4294967296/4", "1/32", "1/32"),
    // Two and more.
    ("A//", "1/16", "1/32"), ("A///", "1/16", "1/64"), ("A////", "1/16", "1/128"), ("A/////", "1/16", "1/4"), ("A3//", "1/8.", "1/16."), ("A7///", "1/4..", "1/16.."), ("A0//", "1/4", "1/4"), ("A16////", "1", "1/8"),
    ("A4294967296//", "1/16", "1/32"),
    // Digits behind them do not matter, and are no part of the length.
    ("A//4", "1/16", "1/32"), ("A//0", "1/16", "1/32"), ("A//1", "1/16", "1/32"), ("A//4294967296", "1/16", "1/32"), ("A3//8", "1/8.", "1/16."), ("A///2", "1/16", "1/64"),
    // Slashes behind a slash with digits, or behind digits that are skipped, never halve.
    ("A/2/2", "1/16", "1/16"), ("A/4//", "1/32", "1/32"), ("A/4/", "1/32", "1/32"), ("A/0//", "longa...", "longa..."), ("A/2\\*40{/}", "1/16", "1/16"), ("A/4294967296//", "1/16", "1/16"), ("A//3//", "1/16", "1/32"),
    ("A//3\\*40{/}", "1/16", "1/32"), ("A/2/2/2/2", "1/16", "1/16"),
    // What stands behind the length is right behind the note, what stands behind skipped bytes is not.
    ("A/-B", "1/16- 1/8", "1/16- 1/8"), ("A/2-B", "1/16- 1/8", "1/16- 1/8"), ("A//-B", "1/16 1/8", "1/32- 1/8"), ("A//)B", "1/16 1/8", "1/32) 1/8"), ("A///)-B", "1/16 1/8", "1/64-) 1/8"), ("A/2/2-B", "1/16 1/8", "1/16 1/8"),
    ("A//3-B", "1/16 1/8", "1/32 1/8"), ("A//4)B", "1/16 1/8", "1/32 1/8"), ("A/2//-B", "1/16 1/8", "1/16 1/8"), ("A-//B", "1/8- 1/8", "1/8- 1/8"), ("A)//B", "1/8) 1/8", "1/8) 1/8"),
    // "one rule, so all three follow it"
    ("[CE]//", "1/16", "1/32"), ("[CE]3//", "1/8.", "1/16."), ("[CE]//4-[CE]", "1/16 1/8", "1/32 1/8"), ("[CE]//-[CE]", "1/16 1/8", "1/32- 1/8"), ("z//", "1/16", "1/32"), ("x3///4", "1/8.", "1/32."), ("Z//A", "bar 1/8", "bar 1/8"),
    ("X//A", "bar 1/8", "bar 1/8"), ("[]//A", "1/8", "1/8"), ("^c''//B,,///", "1/16 1/16", "1/32 1/64"),
];

#[test]
fn slashes_halve() {
    for (music, first, second) in SLASHES {
        let text = format!("K:C\\n{music}");
        assert_eq!((lengths(&text, First).as_str(), lengths(&text, Abc21).as_str()), (first, second), "{music}");
    }
    // Under another unit, and with what changes a length behind it.
    for (text, first, second) in [
        ("L:1/1\\nK:C\\nA//B///", "1/2 1/2", "1/4 1/8"),
        ("L:1/4\\nK:C\\nA//[L:1/1]B//", "1/8 1/2", "1/16 1/4"),
        ("K:C\\nA//>B//", "1/16. 1/32", "1/32. 1/64"),
        ("K:C\\nA//<<B", "1/64 1/8..", "1/128 1/8.."),
        ("K:C\\n(3A//B//c {d//}e", "1/16 1/16 1/8 1/16 1/8", "1/32 1/32 1/8 1/32 1/8"),
    ] {
        assert_eq!((lengths(text, First).as_str(), lengths(text, Abc21).as_str()), (first, second), "{text}");
    }
    // Every run that halves, each under a numerator that undoes it and under half of that; in the first edition the first slash halves alone.
    for slashes in 2..=31 {
        let text = format!("K:C\\nA{}\\*{slashes}{{/}} B{}\\*{slashes}{{/}}", 1u32 << slashes, 1u32 << (slashes - 1));
        assert_eq!(lengths(&text, Abc21), "1/8 1/16", "{text}");
        assert_eq!(lengths(&text, First).split(' ').next(), lengths(&format!("K:C\\nA{}", 1u32 << (slashes - 1)), First).split(' ').next(), "{text}");
    }
    // The least of them, and the greatest that 31 leave of a numerator: a little under two units.
    assert_eq!(lengths("K:C\\nA\\*31{/}B4294967295\\*31{/}", Abc21), "1/4 1/8...");
}

/// The second edition reads slashes as the first reads one of them with the denominator written out, and a byte that means nothing where some are skipped.
#[test]
fn slashes_written_out() {
    let in_first = |suffix: &str| -> String {
        let slashed = suffix.trim_start_matches(|c: char| c.is_ascii_digit());
        let behind = slashed.trim_start_matches('/');
        let slashes = slashed.len() - behind.len();
        if slashes < 2 {
            return suffix.to_string();
        }
        let left = behind.trim_start_matches(|c: char| c.is_ascii_digit() || c == '/');
        let skipped = if left.len() < behind.len() { "." } else { "" };
        format!("{}/{}{skipped}{left}", &suffix[..suffix.len() - slashed.len()], 1u64 << slashes)
    };
    let mut suffixes = vec![String::new()];
    let mut last = suffixes.clone();
    for _ in 0..6 {
        last = last.iter().flat_map(|suffix| ["/", "2", "0", "-", ")"].map(|sign| format!("{suffix}{sign}"))).collect();
        suffixes.extend(last.clone());
    }
    for slashes in 7..=31 {
        suffixes.extend(["", "3"].into_iter().flat_map(|num| ["", "-", "2", "0/-", "2//)", ")"].map(|tail| format!("{num}{}{tail}", "/".repeat(slashes)))));
    }
    for sound in ["A", "^c'", "z", "x", "Z", "X", "[CE]", "A[]"] {
        for suffix in &suffixes {
            let (second, first) = (format!("K:C\n{sound}{suffix}B"), format!("K:C\n{sound}{}B", in_first(suffix)));
            let (LiteralAnswer::Reading { bytes: second, .. }, LiteralAnswer::Reading { bytes: first, .. }) = (answer(second.as_bytes(), Abc21), answer(first.as_bytes(), First)) else { panic!("{sound}{suffix}") };
            assert!(second == first, "{sound}{suffix} {}", in_first(suffix));
        }
    }
}

/// What 32 slashes behind it make of a sound: 22, wherever a length is read, and in the second edition alone.
#[test]
fn thirty_two_slashes() {
    for sound in ["A", "g", "^/c'", "__B,,", "[CE]", "[^C]", "[]", "[\"x\"]", "[!f!]", "z", "x", "Z", "X", "{A", "(3A", "\"Am\"A", "A-B", "& z", "]A"] {
        for numerator in ["", "0", "3", "4294967296"] {
            for slashes in [31, 32, 33, 40, 256, 287, 288, 65_536] {
                for tail in ["", "2", "2/", "-", " ", "B", "]", "\\nB"] {
                    let text = format!("K:C\\nC\\n{sound}{numerator}\\*{slashes}{{/}}{tail}");
                    assert_eq!(read(&text, Abc21).err(), (slashes > 31).then_some((22, 3)), "{text}");
                    assert!(read(&text, First).is_ok(), "{text}");
                }
            }
        }
    }
    // Read: slashes that would not halve, and where no length is read.
    for music in [
        "A/2\\*40{/}", "A//2\\*40{/}", "A\\*31{/}2\\*40{/}", "A\\*31{/} /", "A\\*31{/}-/", "A-\\*40{/}", "A)\\*40{/}", "A2-\\*40{/}", "A \\*40{/}", "A|\\*40{/}", "A>\\*40{/}", "A'\\n\\*40{/}", "A%\\*40{/}", "A\\*31{/}%/", "\\*40{/}A",
        "\\*1000{/}", "\"A\\*32{/}\"B", "\"A\\*32{/}", "!A\\*32{/}!B", "+A\\*32{/}+B", "[A\\*32{/}]", "[A\\*32{/}C]", "[A\\*32{/}", "[A\\*32{/}B\\*32{/}]//", "[r:A\\*32{/}]B", "[K:C A\\*32{/}]B", "^\\*40{/}A", "A ^\\*40{/}", "^^[CE]\\*40{/}", "=\\*40{/}", "(\\*40{/}A",
        "(3\\*40{/}A", "&\\*40{/}A", "[1\\*40{/}A", "{\\*40{/}A}", "]\\*40{/}", "y\\*40{/}", "A\\nw:A\\*40{/}", "A\\nT:A\\*40{/}",
    ] {
        assert!(read(&format!("K:C\\n{music}"), Abc21).is_ok(), "{music}");
    }
    // A music line before the first K line is not looked at.
    assert!(read(" A\\*32{/}\\nK:C\\nA", Abc21).is_ok());
}

/// "as met in the line"
#[test]
fn twenty_two_and_others() {
    for (text, wanted) in [
        // 12 at its mark, 11 where the length ends.
        ("K:C\\nA\\*133{,}\\*32{/}", (12, 2)),
        ("K:C\\n[A\\*133{,}]\\*32{/}", (12, 2)),
        ("K:C\\nA\\*32{/}B\\*133{,}", (22, 2)),
        ("K:C\\n\\*100000{A}A\\*32{/}", (22, 2)),
        ("K:C\\n\\*100000{A}Z\\*32{/}", (22, 2)),
        ("K:C\\n\\*100000{A}[]\\*32{/}", (22, 2)),
        ("K:C\\n\\*100000{A}A\\*31{/}", (11, 2)),
        ("K:C\\n\\*100000{A}A/2\\*32{/}", (11, 2)),
        ("K:C\\n\\*100001{A}\\*32{/}", (22, 2)),
        ("K:C\\n\\*100001{A}A\\*32{/}", (11, 2)),
        // The others, from left to right.
        ("K:C\\n[0A\\*32{/}", (17, 2)),
        ("K:C\\nA\\*32{/}[0", (22, 2)),
        ("K:C\\n[K:G#]A\\*32{/}", (21, 2)),
        ("K:C\\nA\\*32{/}[K:G#]", (22, 2)),
        ("K:C\\nA\\*256{>}B\\*32{/}", (13, 2)),
        ("K:C\\nA\\*32{/}\\*256{>}", (22, 2)),
        ("K:C\\nA\\*32{/}[K:middle=B]", (22, 2)),
        // 6 is tested on the whole line before; lines from the first one on.
        ("K:C\\nA\\*32{/}\\u{e9}", (6, 2)),
        ("K:C\\nA\\*32{/}\\nX:1", (22, 2)),
        ("K:C\\nX:1\\nA\\*32{/}", (7, 2)),
        ("K:C\\nA\\nV:2\\nB\\n|c\\*31{/}d\\*32{/}", (22, 5)),
    ] {
        assert_eq!(read(text, Abc21), Err(wanted), "{text}");
    }
}

// ---- lyrics ---------------------------------------------------------------------------------------------------------

/// The syllables of a part, as `a@0 b@2+ext`; a verse above 1 before the sign, as `a2@0`.
fn sung(text: &str, edition: Edition) -> String {
    let verse = |verse: u8| if verse == 1 { String::new() } else { verse.to_string() };
    let parts = read(text, edition).unwrap();
    let lyrics = parts.iter().flat_map(|part| &part.lyrics);
    lyrics.map(|l| format!("{}{}@{}{}", l.text, verse(l.verse), l.note, if l.extend == 1 { "+ext" } else { "" })).collect::<Vec<_>>().join(" ")
}

/// The page's table: notes AB|cd|z|e are 0 to 5, with the rest.
#[test]
fn bars() {
    for (words, wanted) in [
        ("a | b", "a@0 b@2"),
        ("| a", "a@2"),
        ("a b | c", "a@0 b@1 c@2"),
        ("a b c | d", "a@0 b@1 c@2 d@5"),
        ("a | | b", "a@0 b@5"),
        ("* * * | x", "x@5"),
        ("a | | | b", "a@0"),
        ("a _ _ | x", "a@0+ext x@5"),
        // A measure reached by a move, and then a word on its first note.
        ("| | a", "a@5"),
        ("| | | a", ""),
        ("| a | b", "a@2 b@5"),
        ("| * b", "b@3"),
        ("| _ b", "b@3"),
        ("a b | _ c", "a@0 b@1+ext c@3"),
        ("a | _ c", "a@0 c@3"),
        ("a b c d | e", "a@0 b@1 c@2 d@3 e@5"),
        ("a b c d e | f", "a@0 b@1 c@2 d@3 e@5"),
        ("a b c d e _ | f", "a@0 b@1 c@2 d@3 e@5+ext"),
        ("a b c d e f _", "a@0 b@1 c@2 d@3 e@5"),
        // What lapsed comes not back.
        ("a b c d e | _", "a@0 b@1 c@2 d@3 e@5"),
        ("a-b | c", "a@0 b@1 c@2"),
        ("a - | c", "a@0 c@2"),
        ("a -- | c", "a@0 c@2"),
        ("|a | b", "|a@0 b@2"),
        ("|| a", "||@0 a@1"),
        ("a-| b", "a@0 |@1 b@2"),
        ("~ | b", " @0 b@2"),
    ] {
        assert_eq!(sung(&format!("K:C\\nAB|cd|z|e\\nw:{words}"), Abc21), wanted, "{words}");
    }
    // In the first edition a bar is passed over.
    assert_eq!(sung("K:C\\nAB|cd|z|e\\nw:a | | b | c", First), "a@0 b@1 c@2");
}

#[test]
fn choices_of_lyrics() {
    for (text, wanted) in [
        ("K:C\\nAB|c\\nw:a|b", "a|b@0"),
        ("K:C\\nAB|c\\nw:a | _", "a@0"),
        ("K:C\\nAB|c\\nw:a b | _", "a@0 b@1+ext"),
        ("K:C\\nA\\nw:a _", "a@0+ext"),
        ("K:C\\nA\\nw:a | _", "a@0"),
        ("K:C\\nA\\nw:a b\\nB", "a@0 b@1"),
        ("K:C\\n{A}B\\nw:a", "a@1"),
        ("K:C\\nA|{B}z|c\\nw:a | b", "a@0 b@3"),
        // Graces in every use.
        ("K:C\\n{A}B{c}d\\nw:a b", "a@1 b@3"),
        ("K:C\\n{A}B{c}d\\nw:* b", "b@3"),
        ("K:C\\n{A}B{c}de\\nw:a _ b", "a@1+ext b@4"),
        ("K:C\\n{AB}\\nc\\nw:a", "a@2"),
        ("K:C\\nA{B}\\nc\\nw:a", "a@2"),
        ("K:C\\n{A}|{B}c\\nw:| a", ""),
        ("K:C\\nA{B}|{c}d\\nw:| a", "a@3"),
        ("K:C\\n{A\\nB}c\\nw:a", "a@2"),
        ("K:C\\n{[Ace]}[Bdf]\\nw:a", "a@1"),
        ("K:C\\n{A}\\nw:a", ""),
        ("K:C\\n{A}\\nw:a\\nB", "a@1"),
        // The line's first note is the first behind its start, on whatever line it stands.
        ("K:C\\nA|\\n|z\\nw:| a\\nB|c", "a@3"),
        ("K:C\\nA|\\n{B}\\nw:| a\\nc|d", "a@3"),
        ("K:C\\nAB|\\nc\\nw:a | b\\nd|e", "a@2 b@4"),
        ("K:C\\nAB|\\nw:a | b\\ncd", "a@0 b@2"),
        // A barline that opens no measure, and one that only marks the start of one, part nothing.
        ("K:C\\n A:|]B|c\\nw:a | b", "a@0 b@2"),
        ("K:C\\nA||:B|c\\nw:a | b", "a@0 b@1"),
        // Overlays have no words; measures with nothing else are passed over.
        ("K:C\\nA&B|&c|d\\nw:a | b", "a@0 b@3"),
        ("K:C\\nA|B|z2|Z|c\\nw:a | b | c", "a@0 b@1 c@4"),
        ("K:C\\n[Ace]2|(3Bcd|e\\nw:a | b c | d", "a@0 b@1 c@2 d@4"),
        // Verses: each line by itself.
        ("K:C\\nAB|c\\nw:a | b\\nw:| x\\nw:p q r", "a@0 p3@0 q3@1 b@2 x2@2 r3@2"),
        ("K:C\\nAB|c\\nw:a b c\\nAB|c\\nw:x | _", "a@0 b@1 c@2 x@3"),
        // A later line of the same verse, run over into by an earlier one.
        ("K:C\\nA|B\\nw:a | b | c\\nd|e\\nw:| x", "a@0 b@1 x@3"),
        ("K:C\\nA\\nw:a b | d\\nB|c\\nw:| _", "a@0 b@1+ext d@2"),
        // Before any music.
        ("K:C\\nw:| a\\nA|B", "a@1"),
        ("K:C\\nw:a | b\\n{A}B|c", "a@1 b@2"),
        // Bars of Unicode's white space about it.
        ("K:C\\nAB|c\\nw:a\\u{2003}|\\u{a0}b", "a@0 b@2"),
    ] {
        assert_eq!(sung(text, Abc21), wanted, "{text}");
    }
}

// ---- both editions --------------------------------------------------------------------------------------------------

/// "All else goes as in the first."
#[test]
fn all_else_is_one() {
    for text in [
        "X:1\\nL:1/8\\nK:G\\nFA (3GAB|c2 z2|]\\nw: one two-three",
        "K:C\\n{A}B>c (2de [ceg]-[ceg] & z2|[1,3^F:|[2 Z|]",
        "K:Em clef=bass\\nV:1\\nA|B\\nw:a b-c _\\nV:2\\n(3:2:2ABc (4:3d",
        "M:6/8\\nL:1/16\\nK:Bb major\\nA/B/2//c3/2[M:3/4](10d[L:1/4]e",
        "K:C\\nA/0 A0 A5 A7 A/32",
    ] {
        assert_eq!(answer(&unescape(text), First), answer(&unescape(text), Abc21), "{text}");
    }
}

#[test]
fn the_same_refusals() {
    for (text, wanted) in [
        ("", (1, 0)),
        (" \\u{2003}\\n", (1, 0)),
        ("K:C\\nw:a", (1, 0)),
        ("\\xff", (3, 0)),
        ("K:C\\nA\\n\\*9999{\\n}", (4, 10_001)),
        ("T:\\*1048575{a}\\nK:C\\nA", (5, 1)),
        ("K:C\\nA\\u{e9}", (6, 2)),
        ("K:C\\nX:1", (7, 2)),
        ("V:\\nK:C\\nA", (8, 1)),
        ("K:C\\nA\\nV:middle=B", (10, 3)),
        ("K:C\\n\\*100001{A}", (11, 2)),
        ("K:C\\nC\\*133{,}'", (12, 2)),
        ("K:C\\n\\*256{>}", (13, 2)),
        ("K:C\\n[1,A", (14, 2)),
        ("K:C\\n[33,01A", (14, 2)),
        ("K:C\\n[2,1,33A", (17, 2)),
        ("K:C\\n[3-1A", (18, 2)),
    ] {
        for edition in [First, Abc21] {
            assert_eq!(read(text, edition), Err(wanted), "{edition:?} {text}");
        }
    }
}

/// In the first edition the Rust is the judge. `tools/differential-editions --only first` tries millions of texts.
#[test]
fn the_first_edition_beside_the_rust() {
    let table = std::fs::read_to_string(concat!(env!("CARGO_MANIFEST_DIR"), "/../../probes.tsv")).expect("probes.tsv");
    let probes = table.lines().map(|line| unescape(line.split('\t').next().unwrap()));
    let generated = (0..20_000).map(|i| generate::text(&mut Rng::of(3, i)));
    for text in probes.chain(generated) {
        let shown = || escape(&text);
        match (oracle::answer(&text), answer(&text, First)) {
            (Answer::Refused(number, place), second) => assert_eq!(second, LiteralAnswer::Refused(number, place), "{}", shown()),
            (Answer::Reading { bytes, in_domain: true }, second) => assert_eq!(second, LiteralAnswer::Reading { bytes, in_domain: true }, "{}", shown()),
            (Answer::Reading { bytes, in_domain: false }, LiteralAnswer::Reading { bytes: second, in_domain: false }) => assert_eq!(bytes.len(), second.len(), "{}", shown()),
            (rust, second) => panic!("{}: {rust:?} {second:?}", shown()),
        }
    }
    // Outside the domain of equality a length is a plain quarter.
    let quarter = |text: &str| part(text, First).notes.iter().all(|note| (note.value, note.dots) == (4, 0));
    assert!(quarter("L:1/2147483648\\nK:C\\nA/2147483648 A4294967295/2147483648"));
}
