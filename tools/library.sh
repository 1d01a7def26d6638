# For scripts; needs $root and goes there. prove_library proves crate abc_c and writes target/staticlib/libabc.a (tools/staticlib), unless ABC_LIB names a folder whose
# libabc.a is taken instead. build_library finds the Rust source first. build_compare builds the programs of tools/compare over the library.
prove_library() {
    cd "$root"
    if [ -n "${ABC_LIB-}" ]; then
        return
    fi
    if ! command -v rt >/dev/null 2>&1; then
        echo "rt is missing: install the Rattle toolchain and put its command rt on PATH." >&2
        exit 2
    fi
    mkdir -p target
    if ! tools/staticlib >target/staticlib.log 2>&1; then
        tail -n 20 target/staticlib.log >&2
        echo "Crate abc_c or one below it is not proved, so there is no library to run: see target/staticlib.log." >&2
        exit 1
    fi
}

build_library() {
    ACORDE_SRC=$("$root/tools/reference" --source)
    export ACORDE_SRC
    prove_library
}

build_compare() {
    cargo build --release --offline --quiet --package compare --manifest-path tools/Cargo.toml >&2
}
