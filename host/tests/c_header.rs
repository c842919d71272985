//! C programs over the header and the library are built and run, and the header is C++ too.

mod common;

use common::{CASE_FILE, DRAFT, FIRMWARE, Folder};
use daphulle::{
    ConvertStatics, Number, Object,
    call::{self, Outcome},
};
use std::{
    fmt::Debug,
    fs,
    mem::{offset_of, size_of},
    path::Path,
    process::Command,
};

const ARCHIVE: &str = env!("DAPHULLE_ARCHIVE");
const INCLUDE: &str = concat!(env!("CARGO_MANIFEST_DIR"), "/include");
const PROGRAMS: &str = concat!(env!("CARGO_MANIFEST_DIR"), "/tests/c");
/// The archive has document 01's names. tests/install.rs has programs over the installed one.
const FLAGS: [&str; 5] = [
    "-DDAPHULLE_PLAIN_NAMES",
    "-Wall",
    "-Wextra",
    "-Werror",
    "-pedantic",
];

/// Builds a program and runs it on files.
fn check(program: &str, files: &[&Path]) {
    let folder = Folder::new();
    let built = folder.path().join("program");
    let output = Command::new("cc")
        .args(["-std=c11", "-I", INCLUDE])
        .args(FLAGS)
        .args([&format!("{PROGRAMS}/{program}"), ARCHIVE, "-o"])
        .arg(&built)
        .output()
        .unwrap();
    assert!(output.status.success(), "{output:?}");
    let run = Command::new(&built).args(files).output().unwrap();
    assert!(run.status.success(), "{run:?}");
    assert_eq!(run.stdout, b"0 differences\n");
}

#[test]
fn a_c_program_drafts() {
    let folder = Folder::new();
    let text = folder.path().join("text");
    fs::write(&text, DRAFT).unwrap();
    check("draft.c", &[Path::new(CASE_FILE), &text]);
}

#[test]
fn a_c_program_merges() {
    let files = ["c.o", "a.o", "blocks", "merged.o"].map(|name| Path::new(FIRMWARE).join(name));
    check("merge.c", &files.each_ref().map(|path| path.as_path()));
}

/// The names of the header lead to the library's symbols from C++, too.
#[test]
fn a_cpp_program_links() {
    let folder = Folder::new();
    let (source, program) = (folder.path().join("link.cpp"), folder.path().join("link"));
    let text = "#include <daphulle.h>\n#include <daphulle.h>\n\
                static daphulle_work work;\n\
                int main() {\n    daphulle_outcome r = draft(0, 0, 0, 0, 0, 0, 0, 0, 0, 0, 0, 0);\n    \
                daphulle_outcome s = merge(0, 0, 0, 0, 0, 0, 0, 0, 0, 0, 0, 0, 0, 0, 0, 0, 0, 0, 0, 0);\n    \
                daphulle_job job = daphulle_job();\n    \
                daphulle_outcome t = daphulle_draft_job(&job, &work), u = daphulle_merge_job(&job, &work);\n    \
                return r.number == DAPHULLE_LIMITS && s.number == DAPHULLE_LIMITS\n        \
                && t.number == DAPHULLE_FILE_HEADER && u.number == DAPHULLE_FILE_HEADER ? 0 : 1;\n}\n";
    fs::write(&source, text).unwrap();
    let built = Command::new("c++")
        .args(["-std=c++11", "-I", INCLUDE])
        .args(FLAGS)
        .arg(&source)
        .args([ARCHIVE, "-o"])
        .arg(&program)
        .output()
        .unwrap();
    assert!(built.status.success(), "{built:?}");
    assert!(Command::new(&program).status().unwrap().success());
}

/// `FileHeader` as `DAPHULLE_FILE_HEADER`; what stands before it begins with a line.
fn constant(before: &str, value: impl Debug) -> String {
    let mut name = ["DAPHULLE", before].concat();
    for letter in format!("{value:?}").chars() {
        if letter.is_uppercase() {
            name.push('_');
        }
        name.extend(letter.to_uppercase());
    }
    name
}

/// Every number that Rust and C both write down is the same.
#[test]
fn the_header_has_the_numbers_of_the_library() {
    let work = call::BLOCK_BUFFER + call::PLACE_BUFFER + call::STEP_BUFFER + call::INDEX_BUFFER;
    let mut equal = vec![
        // as the header says it in words
        ("590655".into(), work),
        ("sizeof(struct daphulle_work)".into(), work),
        ("DAPHULLE_FILE_LIMIT".into(), call::FILE_LIMIT),
        ("DAPHULLE_PATH_LIMIT".into(), call::PATH_LIMIT),
        ("DAPHULLE_OPEN_TABLE".into(), call::OPEN_TABLE),
        ("DAPHULLE_PLACE_TABLE".into(), call::PLACE_TABLE),
        ("DAPHULLE_BLOCK_BUFFER".into(), call::BLOCK_BUFFER),
        ("DAPHULLE_PLACE_BUFFER".into(), call::PLACE_BUFFER),
        ("DAPHULLE_STEP_BUFFER".into(), call::STEP_BUFFER),
        ("DAPHULLE_INDEX_BUFFER".into(), call::INDEX_BUFFER),
        (
            "sizeof(struct daphulle_outcome)".into(),
            size_of::<Outcome>(),
        ),
        ("FIELD(length)".into(), offset_of!(Outcome, length)),
        ("FIELD(number)".into(), offset_of!(Outcome, number)),
        ("FIELD(object)".into(), offset_of!(Outcome, object)),
        ("FIELD(place)".into(), offset_of!(Outcome, place)),
    ];
    let numbers = Number::ALL.iter().map(|&n| (constant("", n), n.code()));
    let objects = Object::ALL.iter().map(|&o| (constant("", o), o.code()));
    let modes = ConvertStatics::ALL
        .iter()
        .map(|&m| (constant("_STATICS", m), m.code()));
    let codes = numbers.chain(objects).chain(modes);
    equal.extend(codes.map(|(name, code)| (name, code as usize)));
    let mut text = String::from(
        "#include <daphulle.h>\n#define FIELD(name) offsetof(struct daphulle_outcome, name)\n",
    );
    for (name, value) in equal {
        text += &format!("_Static_assert({name} == {value}, \"differs\");\n");
    }
    let folder = Folder::new();
    let source = folder.path().join("numbers.c");
    fs::write(&source, text).unwrap();
    let checked = Command::new("cc")
        .args(["-std=c11", "-fsyntax-only", "-I", INCLUDE])
        .args(FLAGS)
        .arg(&source)
        .output()
        .unwrap();
    assert!(checked.status.success(), "{checked:?}");
}
