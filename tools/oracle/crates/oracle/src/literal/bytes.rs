//! "The reading": parts as bytes.
use super::fields::Key;
use super::parts::{Measure, Note, Part};

/// "multi-byte numbers are little-endian"
fn number(n: usize) -> [u8; 4] {
    u32::try_from(n).expect("a count below 2^32").to_le_bytes()
}

/// "a count of parts (u32), then for each part five sections in this order, each after its u32 count: measures, notes, pitches, lyrics, lyric text (bytes)"
pub fn reading(parts: &[Part]) -> Vec<u8> {
    let mut out = number(parts.len()).to_vec();
    for part in parts {
        sections(part, &mut out);
    }
    out
}

fn sections(part: &Part, out: &mut Vec<u8>) {
    // "Notes run by measure, then by voice 0 to 3, then as written. Pitches and lyric texts run in the order of their owners; lyrics by note, then verse."
    let notes: Vec<&Note> = part.measures.iter().flat_map(|measure| measure.voices.iter().flatten()).collect();
    out.extend(number(part.measures.len()));
    part.measures.iter().for_each(|m| out.extend(measure(m)));
    out.extend(number(notes.len()));
    notes.iter().for_each(|n| out.extend(note(n)));
    out.extend(number(notes.iter().map(|note| note.pitches.len()).sum()));
    for pitch in notes.iter().flat_map(|note| &note.pitches) {
        // "Pitch, 5 bytes: step 0 (C) to 6 (B), octave, alter (signed bytes), cents (signed, 16 bits)"
        out.extend([pitch.step, pitch.octave as u8, pitch.sounds.alter as u8]);
        out.extend(pitch.sounds.cents.to_le_bytes());
    }
    out.extend(number(notes.iter().map(|note| note.lyrics.len()).sum()));
    for (index, note) in notes.iter().enumerate() {
        for (verse, lyric) in &note.lyrics {
            // "Lyric, 11 bytes: index in this part's notes (u32), verse 1 to 32, syllabic .., extend 0 or 1, text length (u32)"
            out.extend(number(index));
            out.extend([*verse, lyric.syllabic, u8::from(lyric.is_extended)]);
            out.extend(number(lyric.text.len()));
        }
    }
    let texts: Vec<&str> = notes.iter().flat_map(|note| note.lyrics.values()).map(|lyric| lyric.text.as_str()).collect();
    out.extend(number(texts.iter().map(|text| text.len()).sum()));
    texts.iter().for_each(|text| out.extend(text.bytes()));
}

/// "Measure, 28 bytes: note counts of four voices (u32 each); left and right barline ..; meter top and bottom; key mark (0 none, 1 major, 2 minor); fifths (signed, 0 if no mark); volta ..; first pass; passes as
/// u32, bit p−1 for pass p."
fn measure(measure: &Measure) -> Vec<u8> {
    let mut out: Vec<u8> = measure.voices.iter().flat_map(|voice| number(voice.len())).collect();
    out.extend([measure.left, measure.right, measure.meter.top, measure.meter.bottom]);
    out.extend(measure.key.map_or([0, 0], key));
    let (code, passes) = measure.volta.as_ref().map_or((0, &[][..]), |volta| (volta.code, &volta.passes));
    out.extend([code, passes.first().copied().unwrap_or(0)]);
    out.extend(passes.iter().fold(0u32, |bits, pass| bits | 1 << (pass - 1)).to_le_bytes());
    out
}

fn key(key: Key) -> [u8; 2] {
    [if key.is_minor { 2 } else { 1 }, key.fifths as i8 as u8]
}

/// "Note, 12 bytes: kind ..; value ..; dots; flags ..; beam ..; tuplet actual, normal ..; boundary ..; pitch count (u32)."
fn note(note: &Note) -> Vec<u8> {
    let mut out = vec![note.kind, note.value, note.dots, flags(note), note.beam, note.tuplet.0, note.tuplet.1, note.boundary];
    out.extend(number(note.pitches.len()));
    out
}

/// "flags (1 tie start, 2 tie end, 4 slur start, 8 slur end, 16 grace, 32 unbeamed)"; "flag 32 uses the final value (eighth to 128th, beam none)".
fn flags(note: &Note) -> u8 {
    let is_unbeamed = note.is_beamable() && note.beam == 0;
    let bits = [(note.tie_start, 1), (note.tie_end, 2), (note.slur_start, 4), (note.slur_end, 8), (note.is_grace, 16), (is_unbeamed, 32)];
    bits.iter().filter(|(is_set, _)| *is_set).map(|(_, bit)| bit).sum()
}
