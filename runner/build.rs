//! Compiles the C with the system's compiler: what the fuzz target needs of the machine, and the calls in plain C.

use std::{
    env,
    path::{Path, PathBuf},
    process::Command,
};

/// Each archive, its sources, and the headers that they include.
const ARCHIVES: [(&str, &[&str], &[&str]); 2] = [
    ("traps", &["src/traps.c"], &[]),
    (
        "limit",
        &[
            "limit/elf.c",
            "limit/blocks.c",
            "limit/draft.c",
            "limit/late.c",
            "limit/symbols.c",
            "limit/merge.c",
        ],
        &[
            "limit/elf.h",
            "limit/blocks.h",
            "limit/merge.h",
            "limit/limit.h",
        ],
    ),
];

fn main() {
    let out = env::var("OUT_DIR").expect("cargo sets OUT_DIR");
    for (archive, sources, headers) in ARCHIVES {
        for file in sources.iter().chain(headers) {
            println!("cargo::rerun-if-changed={file}");
        }
        let stored = sources
            .iter()
            .map(|source| compiled(source, &out))
            .collect::<Option<Vec<PathBuf>>>()
            .is_some_and(|objects| {
                store(&Path::new(&out).join(format!("lib{archive}.a")), &objects)
            });
        if !stored {
            println!("cargo::error=cc or ar failed on {}", sources.join(", "));
        }
        println!("cargo::rustc-link-lib=static={archive}");
    }
    println!("cargo::rustc-link-search={out}");
}

/// The object of a source, if it can be compiled. No processor is named: any x86-64 has what is used.
fn compiled(source: &str, out: &str) -> Option<PathBuf> {
    let name = Path::new(source).file_name()?;
    let object = Path::new(out).join(name).with_extension("o");
    let status = Command::new("cc")
        .args([
            "-std=c11", "-c", "-O2", "-Wall", "-Wextra", "-Werror", source, "-o",
        ])
        .arg(&object)
        .status();
    status
        .is_ok_and(|status| status.success())
        .then_some(object)
}

fn store(archive: &Path, objects: &[PathBuf]) -> bool {
    let stored = Command::new("ar")
        .arg("rcs")
        .arg(archive)
        .args(objects)
        .status();
    stored.is_ok_and(|status| status.success())
}
