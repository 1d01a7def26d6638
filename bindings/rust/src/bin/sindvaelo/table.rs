//! The reading laid out in columns.
use crate::words;
use sindvaelo::{BeamState, Edition, Kind, Note, Reading, Syllabic, TupletBoundary, VoltaKind};

/// Ties, slurs, beams, tuplets and graces in words.
fn marks(note: &Note) -> String {
    let mut out = Vec::new();
    if note.is_grace() {
        out.push("grace".to_owned());
    }
    for (is, word) in [(note.tie_end(), "tie)"), (note.tie_start(), "(tie"), (note.slur_end(), "slur)"), (note.slur_start(), "(slur")] {
        if is {
            out.push(word.to_owned());
        }
    }
    match note.beam() {
        BeamState::None => {}
        BeamState::Begin => out.push("beam[".to_owned()),
        BeamState::Continue => out.push("beam".to_owned()),
        BeamState::End => out.push("]beam".to_owned()),
    }
    if let Some(tuplet) = note.tuplet() {
        let word = format!("{}:{}", tuplet.actual_notes, tuplet.normal_notes);
        out.push(match note.tuplet_boundary() {
            None => word,
            Some(TupletBoundary::Start) => format!("{word}["),
            Some(TupletBoundary::Stop) => format!("]{word}"),
            Some(TupletBoundary::StartStop) => format!("[{word}]"),
        });
    }
    out.join(" ")
}

fn sound(note: &Note) -> String {
    match note.kind() {
        Kind::Note => note.pitches().map(|pitch| words::pitch(&pitch)).collect::<Vec<_>>().join(" "),
        Kind::Rest => "rest".to_owned(),
        Kind::HiddenRest => "rest, hidden".to_owned(),
        Kind::BarRest => "rest, bar".to_owned(),
        Kind::HiddenBarRest => "rest, bar, hidden".to_owned(),
    }
}

/// A syllable with its hyphens.
fn syllable(lyric: &sindvaelo::Lyric) -> String {
    let (before, behind) = match lyric.syllabic {
        Syllabic::Single => ("", ""),
        Syllabic::Begin => ("", "-"),
        Syllabic::Middle => ("-", "-"),
        Syllabic::End => ("-", ""),
    };
    let text: String = lyric.text.chars().map(|c| if c.is_control() { '\u{fffd}' } else { c }).collect();
    format!("{before}{text}{behind}{}", if lyric.extend { "_" } else { "" })
}

pub fn read(reading: &Reading<&[u8]>, edition: Edition) -> String {
    let mut out = String::new();
    let parts = reading.parts().len();
    for (p, part) in reading.parts().enumerate() {
        let counts = words::count(&part);
        out += &format!(
            "part {} of {parts}: measures {} sounded {} rests {} syllables {}\n",
            p + 1,
            counts.measures,
            counts.sounded,
            counts.rests,
            counts.syllables
        );
        let verses = part.lyrics().map(|lyric| lyric.verse).max().unwrap_or(0);
        // A row for each note: its number, value, sound, marks and each verse's syllable.
        let mut rows: Vec<(Option<String>, Vec<String>)> = Vec::new();
        let mut title = ["note", "value", "pitches", "marks"].map(str::to_owned).to_vec();
        title.extend((1..=verses).map(|verse| format!("verse {verse}")));
        rows.push((None, title));
        let mut time = None;
        for (m, measure) in part.measures().enumerate() {
            let mut head = format!("measure {}  {} .. {}", m + 1, words::barline(measure.barline_left()), words::barline(measure.barline_right()));
            if time != Some(measure.time_sig()) {
                time = Some(measure.time_sig());
                head += &format!("  meter {}/{}", measure.time_sig().numerator, measure.time_sig().denominator);
            }
            if let Some(key) = measure.key_sig() {
                head += &format!("  key {}", words::key(&key));
            }
            if let Some(volta) = measure.volta() {
                let passes = words::passes(&volta);
                head += &match volta.kind {
                    VoltaKind::Begin => format!("  ending {passes} begins"),
                    VoltaKind::End => format!("  ending {passes} ends"),
                    VoltaKind::BeginEnd => format!("  ending {passes}"),
                };
            }
            rows.push((Some(head), Vec::new()));
            for v in 0..4 {
                if v > 0 && measure.voice_len(v) > 0 {
                    rows.push((Some(format!("  overlay {v}")), Vec::new()));
                }
                for note in measure.voice(v) {
                    let mut row = vec![(note.index() + 1).to_string(), format!("{}{}", words::value(&note), ".".repeat(note.dot_count().into())), sound(&note), marks(&note)];
                    for verse in 1..=verses {
                        row.push(note.lyrics().find(|lyric| lyric.verse == verse).map_or(String::new(), |lyric| syllable(&lyric)));
                    }
                    rows.push((None, row));
                }
            }
        }
        let columns = 4 + verses as usize;
        let widths: Vec<usize> = (0..columns).map(|c| rows.iter().filter_map(|(_, row)| row.get(c)).map(|cell| cell.chars().count()).max().unwrap_or(0)).collect();
        for (head, row) in &rows {
            if let Some(head) = head {
                out += head;
            } else {
                let mut line = String::from("  ");
                for (c, cell) in row.iter().enumerate() {
                    let space = " ".repeat(widths[c] - cell.chars().count());
                    line += &if c == 0 { format!("{space}{cell}  ") } else { format!("{cell}{space}  ") };
                }
                out += line.trim_end();
            }
            out.push('\n');
        }
    }
    out + &format!("{}\n", words::read_by(edition))
}
