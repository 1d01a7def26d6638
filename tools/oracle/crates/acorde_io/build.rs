//! Writes two texts of document 000 and the two limits of document 001 to OUT_DIR.
//!
//! abc_reference.rs: 000 with
//!   R1  the body of `finish_abc_measure` emptied (document 01),
//!   R2  everything from the line `// ── serializer ─…` on cut off (it needs many missing types
//!       and `parse_abc` calls nothing of it).
//! abc_probe.rs: the same, and
//!   P1  `crate::probe::at(line_idx)` before the 10,000 line test,
//!   P2  `crate::probe::line(line, in_header)` after the empty line test (refusals 6 and 7),
//!   P3  six octave steps through `crate::probe` (refusal 12),
//!   P4  the `>`/`<` counter through `crate::probe` (refusal 13),
//!   P5  `crate::probe::refuse(10)` where a word starts with `middle=`,
//!   P6  `parse_passes` through `crate::probe` (refusals 14, 17 and 18),
//!   P7  `crate::probe::length(length_den)` in `abc_note_value` (domain of equality).
//! Every expected text must be found exactly as often as stated, or the build fails.
use std::path::{Path, PathBuf};

#[path = "../../source_dir.rs"]
mod source;

fn read(path: &Path) -> String {
    println!("cargo:rerun-if-changed={}", path.display());
    std::fs::read_to_string(path)
        .unwrap_or_else(|error| panic!("cannot read {}: {error}", path.display()))
}

fn replace(text: &str, name: &str, count: usize, from: &str, to: &str) -> String {
    let found = text.matches(from).count();
    assert!(found == count, "patch {name}: expected {count} times, found {found}: `{from}`");
    text.replace(from, to)
}

/// Empties the body of a top-level function: from its head line to the next line that is `}`.
fn empty_body(text: &str, name: &str, head: &str) -> String {
    assert!(text.matches(head).count() == 1, "patch {name}: `{head}` not found exactly once");
    let at = text.find(head).unwrap() + head.len();
    let end = text[at..].find("\n}\n").unwrap_or_else(|| panic!("patch {name}: no end of body"));
    let body = &text[at..at + end];
    assert!(
        !body.contains("\nfn ") && body.contains("pad_voice(&mut measure.voices[0], beats);"),
        "patch {name}: unexpected body"
    );
    format!("{}{}", &text[..at], &text[at + end..])
}

fn cut_from_line(text: &str, name: &str, start: &str) -> String {
    let lines: Vec<usize> = text.match_indices(start).map(|(at, _)| at).collect();
    assert!(lines.len() == 1, "patch {name}: `{start}` found {} times", lines.len());
    assert!(
        text[lines[0]..].contains("pub fn serialize_abc(") && !text[..lines[0]].contains("pub fn serialize_abc("),
        "patch {name}: the serializer does not stand after its heading"
    );
    text[..lines[0]].to_string()
}

fn constant(text: &str, name: &str) -> String {
    let head = format!("pub(crate) const {name}: usize = ");
    let lines: Vec<&str> = text.lines().filter(|line| line.starts_with(&head)).collect();
    assert!(lines.len() == 1, "document 001: `{head}` found {} times", lines.len());
    lines[0].to_string()
}

fn main() {
    let dir = source::source_dir();
    let out = PathBuf::from(std::env::var("OUT_DIR").unwrap());

    let lib = read(&dir.join("src--crates--io--src--lib.rs.txt"));
    let limits = format!(
        "{}\n{}\n",
        constant(&lib, "MAX_INPUT_BYTES"),
        constant(&lib, "MAX_ABC_LINE_BYTES")
    );
    std::fs::write(out.join("limits.rs"), limits).unwrap();

    let source = read(&dir.join("src--crates--io--src--abc--mod.rs.txt"));
    let text = cut_from_line(&source, "R2", "\n// ── serializer ─");
    let text = empty_body(&text, "R1", "fn finish_abc_measure(measure: &mut Measure, beats: f64) {");
    std::fs::write(out.join("abc_reference.rs"), &text).unwrap();

    let text = replace(
        &text,
        "P1",
        1,
        "        if line_idx >= MAX_LINES {\n",
        "        crate::probe::at(line_idx);\n        if line_idx >= MAX_LINES {\n",
    );
    let text = replace(
        &text,
        "P2",
        1,
        "        if line.is_empty() {\n            continue;\n        }\n\n        // `w:` lines under",
        "        if line.is_empty() {\n            continue;\n        }\n        crate::probe::line(line, in_header);\n\n        // `w:` lines under",
    );
    let text = replace(&text, "P3", 3, "octave -= 1", "octave = crate::probe::octave_down(octave)");
    let text = replace(&text, "P3", 3, "octave += 1", "octave = crate::probe::octave_up(octave)");
    let text = replace(
        &text,
        "P4",
        1,
        " == Some(&ch) {\n                count += 1;\n",
        " == Some(&ch) {\n                count = crate::probe::one_more(count);\n",
    );
    let text = replace(
        &text,
        "P5",
        1,
        "        if let Some(value) = token.strip_prefix(\"middle=\") {\n",
        "        if let Some(value) = token.strip_prefix(\"middle=\") {\n            crate::probe::refuse(10);\n",
    );
    let text = replace(
        &text,
        "P6",
        1,
        "acorde_core::VoltaBracket::parse_passes(",
        "crate::probe::parse_passes(",
    );
    let text = replace(
        &text,
        "P7",
        1,
        "    let mut best: Option<(Duration, u8, u64, u64)> = None;\n",
        "    crate::probe::length(length_den);\n    let mut best: Option<(Duration, u8, u64, u64)> = None;\n",
    );
    std::fs::write(out.join("abc_probe.rs"), text).unwrap();
}
