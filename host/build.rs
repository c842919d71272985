//! Finds the proved library, and links it. Says what the command was built of.

use std::{
    env, fs,
    path::{Path, PathBuf},
    process::Command,
};

const VARIABLE: &str = "DAPHULLE_LIB";
const DEFAULT: &str = "../target/staticlib";
/// The crate that exports both calls.
const LIBRARY: &str = "daphulle";
/// What the command is made of, the proved library included.
const SOURCES: [&str; 4] = ["src", "build.rs", "Cargo.toml", "../crates"];

fn main() {
    println!("cargo::rerun-if-env-changed={VARIABLE}");
    let folder = env::var(VARIABLE).unwrap_or_else(|_| DEFAULT.into());
    // A relative folder is meant from this package; an absolute one replaces it in `join`.
    let package = env::var("CARGO_MANIFEST_DIR").expect("cargo sets CARGO_MANIFEST_DIR");
    let package = Path::new(&package);
    let folder = package.join(folder);
    let archive = folder.join(format!("lib{LIBRARY}.a"));
    println!("cargo::rerun-if-changed={}", archive.display());
    if !archive.is_file() {
        println!(
            "cargo::error={} is not there. Run tools/build, or set {VARIABLE} to the folder that \
             holds lib{LIBRARY}.a: `rt lib` in crates/{LIBRARY} puts it into out/ there.",
            archive.display()
        );
        return;
    }
    println!("cargo::rustc-link-search=native={}", folder.display());
    println!("cargo::rustc-link-lib=static={LIBRARY}");
    // The tests link a C program with the same file.
    println!("cargo::rustc-env=DAPHULLE_ARCHIVE={}", archive.display());
    println!("cargo::rustc-env=DAPHULLE_COMMIT={}", commit(package));
    println!("cargo::rustc-env=DAPHULLE_KIT={}", kit(&archive));
}

/// The commit that the sources are of, and whether they were changed since.
fn commit(package: &Path) -> String {
    for source in SOURCES {
        println!("cargo::rerun-if-changed={source}");
    }
    let git = |words: &[&str]| {
        let mut command = Command::new("git");
        command.arg("--no-optional-locks").current_dir(package);
        printed(command.args(words))
    };
    // The log of HEAD grows with each commit, and with each move to another one.
    let log = git(&["rev-parse", "--git-path", "logs/HEAD"]);
    if let Some(log) = log.map(PathBuf::from) {
        println!("cargo::rerun-if-changed={}", package.join(log).display());
    }
    let Some(commit) = git(&["rev-parse", "--verify", "HEAD"]) else {
        return "unknown".into();
    };
    let changes = git(&[&["status", "--porcelain", "--"], &SOURCES[..]].concat());
    match changes.as_deref() {
        Some("") => commit,
        _ => commit + ", changed",
    }
}

/// The kit that made the archive. That has the hash of its logic; `rt` says the start of its own, and
/// the name of the kit.
fn kit(archive: &Path) -> String {
    let recorded = logic(archive).unwrap_or_default();
    let said = printed(Command::new("rt").arg("--version")).unwrap_or_default();
    let line = said.lines().next().unwrap_or_default();
    let is_same = |start: &str| !start.is_empty() && recorded.starts_with(start);
    match line.split(' ').next_back() {
        Some(start) if is_same(start) => line.into(),
        _ if recorded.is_empty() => "unknown".into(),
        _ => format!("unknown, logic {recorded}"),
    }
}

/// The hash in an archive: `rattle logic=HASH`.
fn logic(archive: &Path) -> Option<String> {
    const MARK: &[u8] = b"rattle logic=";
    let bytes = fs::read(archive).ok()?;
    let at = bytes.windows(MARK.len()).position(|part| part == MARK)?;
    let hash = bytes.get(at + MARK.len()..)?.iter();
    let digits = hash.take_while(|byte| byte.is_ascii_hexdigit());
    Some(digits.map(|&byte| char::from(byte)).collect())
}

/// What a command that succeeds prints, without the last LF.
fn printed(command: &mut Command) -> Option<String> {
    let output = command.output().ok()?;
    let text = String::from_utf8(output.stdout).ok()?;
    output.status.success().then(|| text.trim_end().into())
}
