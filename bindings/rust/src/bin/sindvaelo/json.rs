//! JSON, one object a line.
use crate::words;
use sindvaelo::{Edition, Note, Reading, Refusal};
use std::fmt::Write;

/// A string of JSON.
pub fn string(text: &str) -> String {
    let mut out = String::from("\"");
    for c in text.chars() {
        match c {
            '"' => out += "\\\"",
            '\\' => out += "\\\\",
            '\n' => out += "\\n",
            c if c < ' ' || c == '\u{7f}' => {
                let _ = write!(out, "\\u{:04x}", c as u32);
            }
            c => out.push(c),
        }
    }
    out + "\""
}

fn list(items: impl Iterator<Item = String>) -> String {
    format!("[{}]", items.collect::<Vec<_>>().join(","))
}

fn reader(edition: Edition) -> String {
    let edition = match edition {
        Edition::First => "",
        Edition::Abc21 => ",\"edition\":\"2.1\"",
    };
    format!("\"version\":{},\"commit\":{}{edition}", string(sindvaelo::VERSION), string(sindvaelo::COMMIT))
}

pub fn error(name: &str, error: &std::io::Error, edition: Edition) -> String {
    format!("{{\"file\":{},{},\"error\":{}}}\n", string(name), reader(edition), string(&error.to_string()))
}

pub fn refused(name: &str, refusal: &Refusal, edition: Edition) -> String {
    let line = refusal.line().unwrap_or(0);
    format!("{{\"file\":{},{},\"refused\":{},\"line\":{line},\"says\":{}}}\n", string(name), reader(edition), refusal.number(), string(&refusal.to_string()))
}

pub fn tally(name: &str, reading: &Reading<&[u8]>) -> String {
    let parts = words::counts(reading).map(|c| {
        format!("{{\"measures\":{},\"sounded\":{},\"rests\":{},\"syllables\":{}}}", c.measures, c.sounded, c.rests, c.syllables)
    });
    format!("{{\"file\":{},{},\"parts\":{}}}\n", string(name), reader(Edition::First), list(parts))
}

/// Each part's measures as they are played, or why they are not listed.
pub fn played(name: &str, parts: &[Result<Vec<u32>, Refusal>], edition: Edition, says: impl Fn(&Refusal) -> String) -> String {
    let parts = parts.iter().map(|part| match part {
        Ok(played) => format!("{{\"plays\":{},\"played\":{}}}", played.len(), list(played.iter().map(u32::to_string))),
        Err(refusal) => format!("{{\"refused\":{},\"says\":{}}}", refusal.number(), string(&says(refusal))),
    });
    format!("{{\"file\":{},{},\"parts\":{}}}\n", string(name), reader(edition), list(parts))
}

pub fn read(name: &str, reading: &Reading<&[u8]>, edition: Edition) -> String {
    let parts = reading.parts().map(|part| {
        let measures = part.measures().map(|m| {
            let time = m.time_sig();
            let key = m.key_sig().map_or("null".to_owned(), |k| format!("{{\"fifths\":{},\"mode\":\"{:?}\"}}", k.fifths, k.mode));
            let volta = m.volta().map_or("null".to_owned(), |v| {
                format!("{{\"kind\":\"{:?}\",\"number\":{},\"passes\":{}}}", v.kind, v.number, list(v.pass_numbers().map(|pass| pass.to_string())))
            });
            let voices = list((0..4).map(|v| list(m.voice(v).map(note))));
            format!(
                "{{\"barline_left\":\"{:?}\",\"barline_right\":\"{:?}\",\"time_sig\":[{},{}],\"key_sig\":{key},\"volta\":{volta},\"voices\":{voices}}}",
                m.barline_left(),
                m.barline_right(),
                time.numerator,
                time.denominator
            )
        });
        format!("{{\"measures\":{}}}", list(measures))
    });
    format!("{{\"file\":{},{},\"parts\":{}}}\n", string(name), reader(edition), list(parts))
}

fn note(note: Note) -> String {
    let pitches = list(note.pitches().map(|p| format!("{{\"step\":\"{:?}\",\"octave\":{},\"alter\":{},\"microtone_cents\":{}}}", p.step, p.octave, p.alter, p.microtone_cents)));
    let lyrics = list(note.lyrics().map(|l| {
        format!("{{\"verse\":{},\"syllabic\":\"{:?}\",\"extend\":{},\"text\":{}}}", l.verse, l.syllabic, l.extend, string(l.text))
    }));
    let tuplet = note.tuplet().map_or("null".to_owned(), |t| format!("[{},{}]", t.actual_notes, t.normal_notes));
    let boundary = note.tuplet_boundary().map_or("null".to_owned(), |b| format!("\"{b:?}\""));
    format!(
        "{{\"kind\":\"{:?}\",\"duration\":\"{:?}\",\"dot_count\":{},\"pitches\":{pitches},\"tie_start\":{},\"tie_end\":{},\"slur_start\":{},\"slur_end\":{},\
         \"is_grace\":{},\"explicit_unbeamed\":{},\"beam\":\"{:?}\",\"tuplet\":{tuplet},\"tuplet_boundary\":{boundary},\"lyrics\":{lyrics}}}",
        note.kind(),
        note.duration(),
        note.dot_count(),
        note.tie_start(),
        note.tie_end(),
        note.slur_start(),
        note.slur_end(),
        note.is_grace(),
        note.explicit_unbeamed(),
        note.beam(),
    )
}
