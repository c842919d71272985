//! Finds postprocess.rs and writes the lines that make it a module of this crate. Without it, or
//! with another source in its place, the crate still builds, and every job ends without a verdict,
//! with the reason.

#[path = "src/digest.rs"]
mod digest;

use std::{env, fs, path::Path};

const VARIABLE: &str = "ASM_PROCESSOR_SRC";
const DEFAULT: &str = "../../shared/docs/src/rust/src";

/// The SHA-256 of rust/src/postprocess.rs at commit f3b2f85a5b.
const DIGEST: &str = "ca5c2cb0b375477f3d7be086b45f5347d6d9746af89512e7882ec7071635dc52";

/// Stands where postprocess.rs would; `run` never gets there.
const WITHOUT: &str = "mod postprocess {
    use crate::{ConvertStatics, Encoding, Function};
    pub(crate) fn fixup_objfile(
        _: &std::path::Path, _: &[Function], _: &str, _: &str, _: &Encoding, _: bool, _: ConvertStatics,
    ) -> anyhow::Result<()> {
        Err(anyhow::anyhow!(\"postprocess.rs is not there\"))
    }
}
";

fn main() {
    println!("cargo::rerun-if-env-changed={VARIABLE}");
    let folder = env::var(VARIABLE).unwrap_or_else(|_| DEFAULT.into());
    // A relative folder is meant from this crate, where cargo runs build scripts.
    let wanted = Path::new(&folder).join("postprocess.rs");
    let source = wanted.canonicalize().ok();
    let watched = source.as_deref().unwrap_or(Path::new(&folder));
    println!("cargo::rerun-if-changed={}", watched.display());

    let read = |source| fs::read(source).expect("postprocess.rs can be read");
    let found = source.as_ref().map(|source| digest::sha256(&read(source)));
    let other = found.filter(|found| found != DIGEST);
    let other = other.map(|found| another(&wanted, &found));
    let (missing, module) = match (&source, &other) {
        (None, _) => (Some(nothing(&wanted)), WITHOUT.into()),
        (_, Some(_)) => (other.clone(), WITHOUT.into()),
        (Some(source), None) => (None, format!("#[path = {source:?}]\nmod postprocess;\n")),
    };
    if let Some(reason) = &missing {
        println!("cargo::warning={reason}");
    }
    // MISSING: why no job has a verdict. OTHER: the same, where another source is the reason.
    let constants = format!(
        "pub const MISSING: Option<&str> = {missing:?};\n\
         pub const OTHER: Option<&str> = {other:?};\n"
    );
    let out = env::var("OUT_DIR").expect("cargo sets OUT_DIR");
    let lines = constants + &module;
    fs::write(Path::new(&out).join("module.rs"), lines).expect("OUT_DIR can be written");
}

fn nothing(wanted: &Path) -> String {
    format!(
        "{} is not there. Set {VARIABLE} to the folder that holds postprocess.rs: clone the \
         repository simonlindholm/asm-processor, check out commit f3b2f85a5b and name its folder \
         rust/src.",
        wanted.display()
    )
}

fn another(wanted: &Path, found: &str) -> String {
    format!(
        "{} is another source than rust/src/postprocess.rs of simonlindholm/asm-processor at \
         commit f3b2f85a5b: its SHA-256 is {found}, not {DIGEST}.",
        wanted.display()
    )
}
