//! `sindvaelo`: the tally, the measures as they are played, the reading and a picture of tunes in ABC notation, of any length, by the proved library.
mod files;
mod json;
mod show;
mod table;
mod words;

use files::{in_order, shown, text_of};
use sindvaelo::{Edition, Reader, Reading, Refusal};
use std::ffi::{OsStr, OsString};
use std::io::Write;
use std::process::ExitCode;

const HELP: &str = "\
sindvaelo: what a tune in ABC notation is charged by, as the proved reader finds it

  sindvaelo tally [--json] FILE...   the tally: for each part its measures, sounded notes, rests and syllables.
                                     One FILE prints the lines of the program tally; several print a line each,
                                     after the file's name, in the order given
  sindvaelo played [--json] [--most N] FILE
                                     for each part how many measures are played, repeats and endings followed, and
                                     which, in order: part 1 plays 8 measures: 1-4 1-3 5
                                     At most N of a part (1000000): more are refused with 20
  sindvaelo read [--json] FILE       the reading: parts, measures with barlines, endings and keys, notes with
                                     values, pitches and syllables
  sindvaelo show FILE >tune.svg      a picture of the reading, one SVG file for a browser
  sindvaelo --version                the version, the commit to put under a quote, and the toolchain
  sindvaelo --help                   this text

FILE - is standard input. --json prints one JSON object a line for each FILE. --edition 2.1, with played, read
and show, reads by ABC 2.1 in keys and modes, tuplets, slashes and lyrics (docs/SWITCHING.md); --edition first is
what is read where nothing else is said, and what the tally reads.

A text may have up to 67,108,864 bytes and is read with up to 55 bytes of memory for each of its own.
Several files go to all processors.

Exit status: 0; 1 where a text or a list is refused (standard error says what can be done, and shows the line);
2 for an error, as a file that cannot be read.
";

/// How many measures of a part `played` lists where nothing else is said: a list of 4 MB.
const MOST_PLAYED: usize = 1_000_000;

/// How a command ends.
#[derive(Clone, Copy, PartialEq, Eq, PartialOrd, Ord)]
enum End {
    Fine = 0,
    Refused = 1,
    Error = 2,
}

fn main() -> ExitCode {
    let words: Vec<_> = std::env::args_os().skip(1).collect();
    let mut names = Vec::new();
    let (mut json, mut only_names, mut most, mut edition) = (false, false, None, Edition::First);
    let mut rest = words.iter().skip(1);
    while let Some(word) = rest.next() {
        match word.to_str() {
            Some("--") if !only_names => only_names = true,
            Some("--json") if !only_names => json = true,
            Some("--most") if !only_names => match rest.next().and_then(|n| n.to_str()?.parse().ok()) {
                Some(n) => most = Some(n),
                None => return wrong("--most takes a number"),
            },
            Some("--edition") if !only_names => match rest.next().and_then(|name| name.to_str()) {
                Some("first") => edition = Edition::First,
                Some("2.1") => edition = Edition::Abc21,
                _ => return wrong("--edition takes first or 2.1"),
            },
            Some("--help" | "-h") if !only_names => return print(HELP),
            Some(option) if !only_names && option.starts_with('-') && option != "-" => return wrong(&format!("no option {option}")),
            _ => names.push(word.clone()),
        }
    }
    let command = words.first().map(|word| word.to_string_lossy().into_owned());
    let end = match (command.as_deref(), names.len()) {
        (Some("--help" | "-h" | "help"), _) => return print(HELP),
        (Some("--version" | "-V" | "version"), _) => return print(&version()),
        (Some("tally" | "read" | "show"), _) if most.is_some() => return wrong("--most is for played"),
        (Some("tally"), _) if edition != Edition::First => return wrong("the tally is of the first edition; --edition 2.1 is for played, read and show"),
        (Some("tally" | "played" | "read" | "show"), 0) => return wrong("no FILE (- is standard input)"),
        (Some("tally"), 1) if json => one(&names[0], Form::Json, edition, |reading| json::tally(&shown(&names[0]), reading)),
        (Some("tally"), 1) => one(&names[0], Form::Words, edition, tally),
        (Some("tally"), _) => many(&names, json),
        (Some("show"), _) if json => return wrong("show draws; --json is for tally, played and read"),
        (Some("played" | "read" | "show"), 2..) => return wrong("one FILE at a time; tally takes several"),
        (Some("played"), _) => {
            let (form, most) = (if json { Form::Json } else { Form::Words }, most.unwrap_or(MOST_PLAYED));
            one(&names[0], form, edition, |reading| played(&shown(&names[0]), reading, json, most, edition))
        }
        (Some("read"), _) if json => one(&names[0], Form::Json, edition, |reading| json::read(&shown(&names[0]), reading, edition)),
        (Some("read"), _) => one(&names[0], Form::Words, edition, |reading| table::read(reading, edition)),
        (Some("show"), _) => one(&names[0], Form::Picture, edition, |reading| show::picture(reading, edition)),
        (Some(other), _) => return wrong(&format!("no command {other}")),
        (None, _) => return wrong("no command"),
    };
    ExitCode::from(end as u8)
}

/// Bad usage.
fn wrong(what: &str) -> ExitCode {
    eprintln!("sindvaelo: {what}. sindvaelo --help lists the commands");
    ExitCode::from(End::Error as u8)
}

/// Standard output, whole or not at all as far as we can tell.
fn put(text: &str) -> End {
    let mut out = std::io::stdout().lock();
    match out.write_all(text.as_bytes()).and_then(|()| out.flush()) {
        Ok(()) => End::Fine,
        Err(error) => {
            eprintln!("sindvaelo: standard output: {error}");
            End::Error
        }
    }
}

fn print(text: &str) -> ExitCode {
    ExitCode::from(put(text) as u8)
}

fn version() -> String {
    let library = sindvaelo::library_version().map_or("unknown".to_owned(), |v| format!("{}.{}.{}", v / 1_000_000, v / 1000 % 1000, v % 1000));
    format!("sindvaelo {}\ncommit {}\nlibrary {library}\nkit {}\n", sindvaelo::VERSION, sindvaelo::COMMIT, sindvaelo::KIT)
}

/// Document 01's tally.
fn tally(reading: &Reading<&[u8]>) -> String {
    let mut out = format!("parts {}\n", reading.parts().len());
    for (i, counts) in words::counts(reading).enumerate() {
        out += &format!("part {} measures {} sounded {} rests {} syllables {}\n", i + 1, counts.measures, counts.sounded, counts.rests, counts.syllables);
    }
    out
}

/// What is printed where there is no reading: document 01's words, an object, or nothing, since a picture goes into a file.
#[derive(Clone, Copy)]
enum Form {
    Words,
    Json,
    Picture,
}

/// What is printed of a text and told to its sender.
struct Answer {
    out: String,
    told: String,
    end: End,
}

impl From<String> for Answer {
    fn from(out: String) -> Self {
        Self { out, told: String::new(), end: End::Fine }
    }
}

/// Each part's measures as they are played, `most` of them at most.
fn played(name: &str, reading: &Reading<&[u8]>, json: bool, most: usize, edition: Edition) -> Answer {
    let parts: Vec<_> = reading.parts().map(|part| part.played(most)).collect();
    // Of a reading's own part nothing else is refused.
    let says = |refusal: &Refusal| format!("refused ({}): more than {most} measures are played. Allow more with --most N", refusal.number());
    let (mut out, mut told) = (String::new(), String::new());
    for (part, list) in (1..).zip(&parts) {
        match list {
            Ok(list) => {
                let (s, colon) = (if list.len() == 1 { "" } else { "s" }, if list.is_empty() { "" } else { ":" });
                out += &format!("part {part} plays {} measure{s}{colon}{}\n", list.len(), words::runs(list));
            }
            Err(refusal) => {
                out += &format!("part {part} plays more than {most} measures\n");
                told += &format!("{name}: part {part}: {}\n", says(refusal));
            }
        }
    }
    let end = if told.is_empty() { End::Fine } else { End::Refused };
    Answer { out: if json { json::played(name, &parts, edition, says) } else { out }, told, end }
}

fn answer<A: Into<Answer>>(reader: &mut Reader, name: &OsStr, form: Form, accepted: impl Fn(&Reading<&[u8]>) -> A) -> Answer {
    let shown = shown(name);
    let text = match text_of(name) {
        Ok(text) => text,
        Err(error) => {
            let out = if let Form::Json = form { json::error(&shown, &error, reader.edition()) } else { String::new() };
            return Answer { out, told: format!("sindvaelo: {shown}: {error}\n"), end: End::Error };
        }
    };
    let edition = reader.edition();
    match reader.read(&text) {
        Ok(reading) => accepted(&reading).into(),
        Err(refusal) => {
            let out = match form {
                Form::Words => format!("refused {} {}\n", refusal.number(), refusal.line().unwrap_or(0)),
                Form::Json => json::refused(&shown, &refusal, edition),
                Form::Picture => String::new(),
            };
            Answer { out, told: format!("{shown}: {refusal}\n{}", words::marked(&text, &refusal)), end: End::Refused }
        }
    }
}

fn one<A: Into<Answer>>(name: &OsStr, form: Form, edition: Edition, accepted: impl Fn(&Reading<&[u8]>) -> A) -> End {
    let Answer { out, told, end } = answer(&mut Reader::with_edition(edition), name, form, accepted);
    let put = put(&out);
    eprint!("{told}");
    end.max(put)
}

/// The tally of each file on a line of its own, in the order given.
fn many(names: &[OsString], json: bool) -> End {
    let work = |reader: &mut Reader, name: &OsString| {
        let shown = shown(name);
        let form = if json { Form::Json } else { Form::Words };
        let mut answer = answer(reader, name, form, |reading| if json { json::tally(&shown, reading) } else { tally(reading) });
        if !json && !answer.out.is_empty() {
            answer.out = format!("{shown}: {}\n", answer.out.trim_end().replace('\n', "; "));
        }
        answer
    };
    let mut end = End::Fine;
    in_order(names, work, |answer| {
        let put = put(&answer.out);
        eprint!("{}", answer.told);
        end = end.max(answer.end).max(put);
        put == End::Fine
    });
    end
}
