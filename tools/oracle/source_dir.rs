/// The folder of the Rust source: ACORDE_SRC, absolute or relative to the repository's root. For both build scripts.
pub fn source_dir() -> std::path::PathBuf {
    println!("cargo:rerun-if-env-changed=ACORDE_SRC");
    let root = std::path::PathBuf::from(std::env::var("CARGO_MANIFEST_DIR").unwrap()).join("../../../..");
    let dir = match std::env::var_os("ACORDE_SRC") {
        Some(path) => root.join(path), // an absolute path replaces the root
        None => root.join("../shared/docs/src"),
    };
    dir.canonicalize()
        .unwrap_or_else(|error| panic!("ACORDE_SRC: no folder {}: {error}", dir.display()))
}
