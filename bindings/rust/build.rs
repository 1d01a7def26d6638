//! Links libabc.a, which `tools/staticlib` writes, from the folder in ABC_LIB or from the repository's target/staticlib, and takes down what a quote bears: the
//! commit of the sources and the toolchain's identity.
use std::collections::BTreeSet;
use std::path::{Path, PathBuf};
use std::process::Command;
use std::time::SystemTime;

/// What to run where there is no library. It has no `:`, which would end a library's name.
const MISSING: &str = "run `tools/staticlib` at the root of sindvaelo's repository, or set ABC_LIB to the folder that holds libabc.a";

fn main() {
    println!("cargo:rustc-check-cfg=cfg(abc_version)");
    println!("cargo:rerun-if-env-changed=ABC_LIB");
    println!("cargo:rerun-if-changed=build.rs");
    let manifest = PathBuf::from(std::env::var_os("CARGO_MANIFEST_DIR").unwrap());
    let root = manifest.join("../..").canonicalize().ok().filter(|root| root.join("crates.txt").is_file());
    let folder = std::env::var_os("ABC_LIB").map_or_else(|| manifest.join("../../target/staticlib"), PathBuf::from);
    let library = folder.join("libabc.a");
    println!("cargo:rerun-if-changed={}", library.display());
    let target = |what: &str| std::env::var(format!("CARGO_CFG_TARGET_{what}")).unwrap_or_default();
    if (target("ARCH").as_str(), target("OS").as_str()) != ("x86_64", "linux") {
        println!("cargo:warning=libabc.a is compiled for x86-64 Linux; on {} {} nothing can be linked", target("ARCH"), target("OS"));
    }
    let mut stale = false;
    match std::fs::read(&library) {
        Ok(archive) => {
            println!("cargo:rustc-link-search=native={}", folder.display());
            println!("cargo:rustc-link-lib=static=abc");
            let has = |call: &str| archive.windows(call.len() + 1).any(|name| name.starts_with(call.as_bytes()) && matches!(name[call.len()], 0 | b'\n'));
            // A library from before version 0.1.0 does not say its version.
            if has("abc_version") {
                println!("cargo:rustc-cfg=abc_version");
            }
            if let Some((call, version)) = [("abc_played", "0.3.0"), ("abc_parse_2_1", "0.4.0")].into_iter().find(|(call, _)| !has(call)) {
                println!("cargo:warning={} is from before version {version} and has no {call}, which linking will miss: {MISSING}", library.display());
            }
            if let Some(newer) = root.as_deref().and_then(|root| newer_source(root, &library)) {
                stale = true;
                println!("cargo:warning={} is older than {}: run `tools/staticlib` at the repository's root", library.display(), newer.display());
            }
        }
        Err(_) => {
            // `cargo check` and `cargo doc` want no library; where one is linked, the linker's complaint about this name is the sentence.
            println!("cargo:warning=no {}: nothing can be linked. To link, {MISSING}", library.display());
            println!("cargo:rustc-link-lib=static=abc (it is not built; {MISSING})");
            // Look again at the next build, whatever the age of a library that is there then: a file that is never there counts as changed.
            println!("cargo:rerun-if-changed={}", PathBuf::from(std::env::var_os("OUT_DIR").unwrap()).join("none").display());
        }
    }
    let mut commit = root.as_deref().and_then(commit).unwrap_or_else(|| "unknown".to_owned());
    if stale {
        commit += "-stale";
    }
    println!("cargo:rustc-env=SINDVAELO_COMMIT={commit}");
    println!("cargo:rustc-env=SINDVAELO_KIT={}", answer(Command::new("rt").arg("version")).unwrap_or_else(|| "unknown".to_owned()));
}

/// The first line that a command prints; none if it cannot be run, fails or prints nothing.
fn answer(command: &mut Command) -> Option<String> {
    let output = command.stderr(std::process::Stdio::null()).output().ok().filter(|output| output.status.success())?;
    let text = String::from_utf8(output.stdout).ok()?;
    text.lines().next().map(|line| line.trim().to_owned()).filter(|line| !line.is_empty())
}

/// The commit checked out at the repository's root, with `-dirty` where files that the reader or this crate are made of differ from it; none without git.
fn commit(root: &Path) -> Option<String> {
    // Without optional locks git writes nothing, so that the files watched below change with commits and checkouts alone.
    let git = |words: &[&str]| answer(Command::new("git").arg("--no-optional-locks").arg("-C").arg(root).args(words));
    // A copy of the crate inside another repository has no commit of ours.
    (Path::new(&git(&["rev-parse", "--show-toplevel"])?).canonicalize().ok()?.as_path() == root).then_some(())?;
    for file in ["HEAD", "index"] {
        println!("cargo:rerun-if-changed={}", root.join(git(&["rev-parse", "--git-path", file])?).display());
    }
    if let Some(branch) = git(&["symbolic-ref", "-q", "HEAD"]) {
        println!("cargo:rerun-if-changed={}", root.join(git(&["rev-parse", "--git-path", &branch])?).display());
    }
    for part in ["crates.txt", "include", "bindings/rust/src"] {
        println!("cargo:rerun-if-changed={}", root.join(part).display());
    }
    // Of each crate what is written by hand: out/ beside it, which git ignores, changes with every check.
    for entry in std::fs::read_dir(root.join("crates")).into_iter().flatten().filter_map(Result::ok) {
        for part in ["src", "specs", "proofs"].map(|part| entry.path().join(part)).iter().filter(|part| part.is_dir()) {
            println!("cargo:rerun-if-changed={}", part.display());
        }
    }
    let mut commit = git(&["rev-parse", "HEAD"])?;
    if git(&["status", "--porcelain", "--", "crates.txt", "crates", "include", "bindings/rust"]).is_some() {
        commit += "-dirty";
    }
    Some(commit)
}

/// A source of the library that was changed after it was written.
fn newer_source(root: &Path, library: &Path) -> Option<PathBuf> {
    let written = std::fs::metadata(library).ok()?.modified().ok()?;
    let listed = std::fs::read_to_string(root.join("crates.txt")).ok()?;
    let needs = |name: &str| -> Vec<String> {
        let line = listed.lines().filter_map(|line| line.split('#').next()?.split_once(':')).find(|(other, _)| other.split_whitespace().next() == Some(name));
        line.map_or(Vec::new(), |(_, needs)| needs.split_whitespace().map(str::to_owned).collect())
    };
    let (mut crates, mut left) = (BTreeSet::new(), vec!["abc_c".to_owned()]);
    while let Some(name) = left.pop() {
        if crates.insert(name.clone()) {
            left.extend(needs(&name));
        }
    }
    crates.iter().flat_map(|name| ["src", "specs"].map(|part| root.join("crates").join(name).join(part))).find_map(|folder| newer_in(&folder, written))
}

fn newer_in(folder: &Path, written: SystemTime) -> Option<PathBuf> {
    std::fs::read_dir(folder).ok()?.filter_map(Result::ok).find_map(|entry| {
        let path = entry.path();
        if path.is_dir() {
            return newer_in(&path, written);
        }
        (entry.metadata().ok()?.modified().ok()? > written).then_some(path)
    })
}
