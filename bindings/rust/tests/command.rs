//! The program sindvaelo: what it prints, and how it ends.
use std::io::Write;
use std::process::{Command, Output, Stdio};

const TUNE: &str = "X:1\nL:1/8\nK:G\nFA (3GAB|c2 z2|]\nw: one two-three\n";

fn run(words: &[&str], input: &str) -> Output {
    run_bytes(words, input.as_bytes())
}

fn run_bytes(words: &[&str], input: &[u8]) -> Output {
    let mut child = Command::new(env!("CARGO_BIN_EXE_sindvaelo"))
        .args(words)
        .stdin(Stdio::piped())
        .stdout(Stdio::piped())
        .stderr(Stdio::piped())
        .spawn()
        .unwrap();
    child.stdin.take().unwrap().write_all(input).unwrap();
    child.wait_with_output().unwrap()
}

/// Standard output, standard error and the status.
fn said(output: Output) -> (String, String, i32) {
    (String::from_utf8(output.stdout).unwrap(), String::from_utf8(output.stderr).unwrap(), output.status.code().unwrap())
}

fn folder(name: &str) -> std::path::PathBuf {
    let folder = std::env::temp_dir().join(format!("sindvaelo-{name}-{}", std::process::id()));
    let _ = std::fs::remove_dir_all(&folder);
    std::fs::create_dir_all(&folder).unwrap();
    folder
}

#[test]
fn a_tally() {
    let (out, told, status) = said(run(&["tally", "-"], TUNE));
    assert_eq!((out.as_str(), told.as_str(), status), ("parts 1\npart 1 measures 2 sounded 6 rests 1 syllables 3\n", "", 0));
}

#[test]
fn a_refusal_shows_the_line() {
    let (out, told, status) = said(run(&["tally", "-"], "X:1\nK:C\nAB|cé d\nc|\n"));
    assert_eq!((out.as_str(), status), ("refused 6 3\n", 1));
    assert_eq!(
        told,
        "standard input: refused (6) at line 3: a character that is not ASCII in a K, L, M or V line or in music. Replace it, or put it behind a %\n\
         \x20     2 | K:C\n>     3 | AB|cé d\n        |     ^\n      4 | c|\n"
    );
    let (out, told, status) = said(run(&["read", "-"], "K:C\nA\nX:2\n"));
    assert_eq!((out.as_str(), status), ("refused 7 3\n", 1));
    assert!(told.ends_with("      2 | A\n>     3 | X:2\n"), "{told}");
    let (out, told, status) = said(run_bytes(&["tally", "-"], b"K:C\nA\xff\n"));
    assert_eq!((out.as_str(), status), ("refused 3 0\n", 1));
    assert!(told.ends_with("Convert the file to UTF-8\nthe first byte that is none stands in line 2, behind 1 bytes\n"), "{told}");
    // A picture goes into a file: nothing is printed.
    let (out, told, status) = said(run(&["show", "-"], "K:C\nA\nX:2\n"));
    assert_eq!((out.as_str(), status), ("", 1));
    assert!(told.starts_with("standard input: refused (7) at line 3"), "{told}");
    // A long line is cut around what is wrong.
    let (_, told, _) = said(run(&["tally", "-"], &format!("K:C\n{}é{}\n", "A".repeat(500), "B".repeat(500))));
    assert!(told.lines().all(|line| line.chars().count() < 160), "{told}");
    assert!(told.contains("... AAA") && told.contains("é"));
}

#[test]
fn refusals_of_a_pass_list() {
    let says = [
        ("[01B", 14, "an ending whose passes are no list. Write numbers without a leading zero, or two with one hyphen between, and single commas between them: [1 for [01 or [1-, [1,2 for [1,,2"),
        ("[33B", 17, "an ending with a pass that is 0 or above 32, as in [0 or [33. Number the passes from 1 to 32"),
        ("[3-1B", 18, "an ending whose passes do not rise. Write each above the one before it: [1-3 for [3-1, [1,2 for [2,1"),
    ];
    for (music, number, says) in says {
        let text = format!("X:1\nK:C\nA|{music}\nc|\n");
        let (out, told, status) = said(run(&["tally", "-"], &text));
        assert_eq!((out, status), (format!("refused {number} 3\n"), 1));
        assert_eq!(told, format!("standard input: refused ({number}) at line 3: {says}\n      2 | K:C\n>     3 | A|{music}\n      4 | c|\n"));
        let (out, _, status) = said(run(&["tally", "--json", "-"], &text));
        assert!(status == 1 && out.ends_with(&format!("\"refused\":{number},\"line\":3,\"says\":\"refused ({number}) at line 3: {says}\"}}\n")), "{out}");
    }
}

#[test]
fn errors() {
    for (words, says) in [
        (&["tally", "no-such-file.abc"][..], "sindvaelo: no-such-file.abc: No such file or directory"),
        (&["tally", "."], "sindvaelo: .: Is a directory"),
        (&["tally"], "sindvaelo: no FILE (- is standard input)"),
        (&["read", "a", "b"], "sindvaelo: one FILE at a time"),
        (&["show", "--json", "-"], "sindvaelo: show draws"),
        (&["played"], "sindvaelo: no FILE (- is standard input)"),
        (&["played", "a", "b"], "sindvaelo: one FILE at a time"),
        (&["played", "--most"], "sindvaelo: --most takes a number"),
        (&["played", "--most", "-1", "-"], "sindvaelo: --most takes a number"),
        (&["tally", "--most", "3", "-"], "sindvaelo: --most is for played"),
        (&["tally", "--edition", "2.1", "-"], "sindvaelo: the tally is of the first edition; --edition 2.1 is for played, read and show"),
        (&["tally", "--edition", "2.1", "a", "b"], "sindvaelo: the tally is of the first edition"),
        (&["read", "--edition"], "sindvaelo: --edition takes first or 2.1"),
        (&["read", "--edition", "2", "-"], "sindvaelo: --edition takes first or 2.1"),
        (&["tally", "--jsn", "-"], "sindvaelo: no option --jsn"),
        (&["sing"], "sindvaelo: no command sing"),
        (&[], "sindvaelo: no command"),
    ] {
        let (out, told, status) = said(run(words, ""));
        assert_eq!((out.as_str(), status), ("", 2), "{words:?}");
        assert!(told.starts_with(says), "{words:?}: {told}");
    }
}

#[test]
fn many_files_in_their_order() {
    let folder = folder("many");
    let names: Vec<String> = (0..200).map(|i| folder.join(format!("{i:03}.abc")).to_string_lossy().into_owned()).collect();
    for (i, name) in names.iter().enumerate() {
        std::fs::write(name, if i == 7 { "K:C\nA\nX:2\n".to_owned() } else { format!("K:C\n{}|\n", "A".repeat(i + 1)) }).unwrap();
    }
    let words: Vec<&str> = std::iter::once("tally").chain(names.iter().map(String::as_str)).collect();
    let (out, told, status) = said(run(&words, ""));
    let wanted: Vec<String> = names
        .iter()
        .enumerate()
        .map(|(i, name)| if i == 7 { format!("{name}: refused 7 3") } else { format!("{name}: parts 1; part 1 measures 1 sounded {} rests 0 syllables 0", i + 1) })
        .collect();
    assert_eq!(out.lines().collect::<Vec<_>>(), wanted);
    assert!(told.starts_with(&format!("{}: refused (7) at line 3", names[7])), "{told}");
    assert_eq!(status, 1);
    // An error counts more than a refusal, and the others are answered.
    let (out, told, status) = said(run(&["tally", &names[0], "no-such-file.abc", &names[7], &names[1]], ""));
    assert_eq!((out.lines().count(), status), (3, 2));
    assert!(told.contains("no-such-file.abc: No such file"));
    std::fs::remove_dir_all(&folder).unwrap();
}

#[test]
fn json() {
    let (out, _, status) = said(run(&["tally", "--json", "-"], TUNE));
    let reader = format!("\"version\":\"{}\",\"commit\":\"{}\"", sindvaelo::VERSION, sindvaelo::COMMIT);
    assert_eq!(out, format!("{{\"file\":\"standard input\",{reader},\"parts\":[{{\"measures\":2,\"sounded\":6,\"rests\":1,\"syllables\":3}}]}}\n"));
    assert_eq!(status, 0);
    let (out, _, status) = said(run(&["read", "--json", "-"], "K:C\nX:2\n"));
    let says = "refused (7) at line 2: an X: line after the first K: line. Send one tune in a text";
    assert_eq!((out, status), (format!("{{\"file\":\"standard input\",{reader},\"refused\":7,\"line\":2,\"says\":\"{says}\"}}\n"), 1));
    let (out, _, _) = said(run(&["read", "--json", "-"], "K:C\n[1A\nw: \"\u{1}\\\n"));
    assert!(out.contains("\"volta\":{\"kind\":\"BeginEnd\",\"number\":1,\"passes\":[1]}"), "{out}");
    assert!(out.contains("\"text\":\"\\\"\\u0001"), "{out}");
    assert!(out.contains("\"pitches\":[{\"step\":\"A\",\"octave\":4,\"alter\":0,\"microtone_cents\":0}]"), "{out}");
    assert_eq!(out.lines().count(), 1);
}

#[test]
fn measures_as_they_are_played() {
    let text = "V:1\nV:2\nV:3\nK:C\nV:1\n|:A|B|c|[1d:|[2e|]\nV:3\nA|[32B:|c:|\n";
    let (out, told, status) = said(run(&["played", "-"], text));
    let wanted = "part 1 plays 8 measures: 1-4 1-3 5\npart 2 plays 0 measures\n";
    let third = format!("part 3 plays 66 measures:{} 1-3 3\n", " 1 3".repeat(31));
    assert_eq!((out, told.as_str(), status), (format!("{wanted}{third}"), "", 0));
    assert_eq!(said(run(&["played", "-"], "K:C\nA\n")), ("part 1 plays 1 measure: 1\n".to_owned(), String::new(), 0));
    assert_eq!(said(run(&["played", "-"], " A:|B:|\n")).0, "refused 1 0\n");
    // A limit that just does, and one that does not: the other parts are listed.
    let (out, told, status) = said(run(&["played", "--most", "66", "-"], text));
    assert_eq!((out, told.as_str(), status), (format!("{wanted}{third}"), "", 0));
    let (out, told, status) = said(run(&["played", "--most", "65", "-"], text));
    assert_eq!((out, status), (format!("{wanted}part 3 plays more than 65 measures\n"), 1));
    let says = "refused (20): more than 65 measures are played. Allow more with --most N";
    assert_eq!(told, format!("standard input: part 3: {says}\n"));
    let reader = format!("\"version\":\"{}\",\"commit\":\"{}\"", sindvaelo::VERSION, sindvaelo::COMMIT);
    let (out, _, status) = said(run(&["played", "--json", "--most", "65", "-"], text));
    let parts = format!("{{\"plays\":8,\"played\":[1,2,3,4,1,2,3,5]}},{{\"plays\":0,\"played\":[]}},{{\"refused\":20,\"says\":\"{says}\"}}");
    assert_eq!((out, status), (format!("{{\"file\":\"standard input\",{reader},\"parts\":[{parts}]}}\n"), 1));
    // The limit where none is given: k times `A|[32B:|` and then `c:|` play 31k(k + 3) / 2 + 2k + 2 measures.
    let long = |k: usize| format!("K:C\n{}c:|\n", "A|[32B:|".repeat(k));
    let (out, _, status) = said(run(&["played", "-"], &long(252)));
    assert!(status == 0 && out.starts_with("part 1 plays 996536 measures: 1 3 5 "), "{}", &out[..80]);
    let (out, told, status) = said(run(&["played", "-"], &long(253)));
    assert_eq!((out.as_str(), status), ("part 1 plays more than 1000000 measures\n", 1));
    assert!(told.contains("refused (20)") && told.contains("--most N"), "{told}");
    let (out, _, status) = said(run(&["played", "--most", "2000000", "-"], &long(253)));
    assert!(status == 0 && out.starts_with("part 1 plays 1004412 measures: "), "{}", &out[..80]);
}

#[test]
fn a_reading_in_columns() {
    let (out, told, status) = said(run(&["read", "-"], TUNE));
    let wanted = "\
part 1 of 1: measures 2 sounded 6 rests 1 syllables 3
  note  value    pitches  marks       verse 1
measure 1  | .. |  meter 4/4  key G major, 1 sharp
     1  eighth   F#4      beam[       one
     2  eighth   A4       ]beam       two-
     3  eighth   G4       beam[ 3:2[  -three
     4  eighth   A4       beam 3:2
     5  eighth   B4       ]beam ]3:2
measure 2  | .. |]
     6  quarter  C5
     7  quarter  rest
";
    assert_eq!(out, format!("{wanted}read by sindvaelo {}, commit {}\n", sindvaelo::VERSION, sindvaelo::COMMIT));
    assert_eq!((told.as_str(), status), ("", 0));
}

#[test]
fn editions() {
    let text = "K:Ador\n|:{A}B|c:|\nw: a | b\n";
    let (out, told, status) = said(run(&["read", "--edition", "2.1", "-"], text));
    let wanted = "\
part 1 of 1: measures 2 sounded 3 rests 0 syllables 2
  note  value   pitches  marks        verse 1
measure 1  |: .. |  meter 4/4  key G major, 1 sharp
     1  eighth  A4       grace beam[
     2  eighth  B4       ]beam        a
measure 2  | .. :|
     3  eighth  C5                    b
";
    let by = format!("read by sindvaelo {}, commit {}", sindvaelo::VERSION, sindvaelo::COMMIT);
    assert_eq!((out, told.as_str(), status), (format!("{wanted}{by}, edition 2.1\n"), "", 0));
    // The first edition is what is read where none is named, and nothing is said of it.
    let first = said(run(&["read", "-"], text));
    assert_eq!(said(run(&["read", "--edition", "first", "-"], text)), first);
    assert!(first.0.ends_with(&format!("{by}\n")) && first.0.contains("key C major"), "{}", first.0);
    assert_eq!(said(run(&["tally", "--edition", "first", "-"], text)), said(run(&["tally", "-"], text)));
    let reader = format!("\"version\":\"{}\",\"commit\":\"{}\",\"edition\":\"2.1\"", sindvaelo::VERSION, sindvaelo::COMMIT);
    let (out, _, status) = said(run(&["played", "--edition", "2.1", "--json", "-"], text));
    assert_eq!((out, status), (format!("{{\"file\":\"standard input\",{reader},\"parts\":[{{\"plays\":4,\"played\":[1,2,1,2]}}]}}\n"), 0));
    let (out, _, _) = said(run(&["read", "--json", "--edition", "2.1", "-"], text));
    assert!(out.starts_with(&format!("{{\"file\":\"standard input\",{reader},\"parts\":[")), "{out}");
    let (out, _, _) = said(run(&["show", "--edition", "2.1", "-"], text));
    assert!(out.contains(&format!("{by}, edition 2.1<")), "{out}");
    let (out, told, status) = said(run(&["read", "--edition", "2.1", "-"], "X:1\nK:G#\nA\n"));
    assert_eq!((out.as_str(), status), ("refused 21 2\n", 1));
    assert!(told.starts_with("standard input: refused (21) at line 2: a key of more than seven sharps or flats") && told.ends_with("      1 | X:1\n>     2 | K:G#\n      3 | A\n"), "{told}");
    let slashes = "/".repeat(32);
    let (out, told, status) = said(run(&["read", "--edition", "2.1", "-"], &format!("K:C\nA//\nz{slashes}\n")));
    assert_eq!((out.as_str(), status), ("refused 22 3\n", 1));
    assert!(told.starts_with("standard input: refused (22) at line 3: more than 31 slashes in a row") && told.ends_with(&format!("      2 | A//\n>     3 | z{slashes}\n")), "{told}");
    let (out, _, _) = said(run(&["played", "--edition", "2.1", "--json", "-"], "K:G#\nA\n"));
    assert!(out.starts_with(&format!("{{\"file\":\"standard input\",{reader},\"refused\":21,\"line\":1,")), "{out}");
}

#[test]
fn a_picture() {
    let (out, told, status) = said(run(&["show", "-"], "K:C\n|:{g}A>B (3cde|[1 [ceg]-[ceg] z & Z:|\nw: <&> \u{1}two\n"));
    assert_eq!((told.as_str(), status), ("", 0));
    assert!(out.starts_with("<?xml") && out.ends_with("</svg>\n"));
    // Self-contained, and only what XML allows.
    assert!(!out.contains("href") && !out.contains('\u{1}') && out.contains("&lt;&amp;&gt;"));
    for shown in ["part 1", "C major", "3:2", ">1.<", ">measures<", ">syllables<", sindvaelo::COMMIT] {
        assert!(out.contains(shown), "{shown}");
    }
    assert!(!out.contains("NaN") && !out.contains("inf"));
}

#[test]
fn a_version() {
    let (out, _, status) = said(run(&["--version"], ""));
    assert_eq!(status, 0);
    assert!(out.starts_with(&format!("sindvaelo {}\ncommit {}\n", sindvaelo::VERSION, sindvaelo::COMMIT)));
    assert!(out.contains(&format!("\nkit {}\n", sindvaelo::KIT)));
    let (out, _, status) = said(run(&["--help"], ""));
    assert!(status == 0 && out.contains("sindvaelo show FILE"));
}
