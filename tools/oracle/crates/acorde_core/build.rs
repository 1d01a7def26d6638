//! Points the crate at documents 002 and 003; they are included from where they stand, unchanged.
#[path = "../../source_dir.rs"]
mod source;

fn main() {
    let dir = source::source_dir();
    for (name, variable, expected) in [
        ("src--crates--core--src--model--pitch.rs.txt", "ACORDE_PITCH_RS", "pub enum Step {"),
        ("src--crates--core--src--model--notation.rs.txt", "ACORDE_NOTATION_RS", "pub enum Clef {"),
    ] {
        let path = dir.join(name);
        println!("cargo:rerun-if-changed={}", path.display());
        let text = std::fs::read_to_string(&path)
            .unwrap_or_else(|error| panic!("cannot read {}: {error}", path.display()));
        assert!(text.contains(expected), "{} lacks `{expected}`", path.display());
        println!("cargo:rustc-env={variable}={}", path.display());
    }
}
