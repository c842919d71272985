//! The command on merges: files, settings and their defaults, exit statuses, and what a failing run
//! leaves.

mod common;

use common::{
    Folder,
    command::{ended, run, run_with},
    debug_section, known_merge, made,
};
use std::{
    ffi::{OsStr, OsString},
    fs,
    os::unix::ffi::OsStrExt,
};

const NAMES: [&str; 3] = ["a.o", "blocks", "c.o"];
const USUAL: [&str; 7] = ["merge", "c.o", "a.o", "--blocks", "blocks", "-o", "out.o"];

fn put(folder: &Folder, name: &str, bytes: &[u8]) {
    fs::write(folder.path().join(name), bytes).unwrap();
}

/// A folder with the firmware's objects.
fn known_folder() -> Folder {
    let folder = Folder::new();
    let known = known_merge();
    put(&folder, "c.o", &known.compiled);
    put(&folder, "a.o", &known.assembled);
    put(&folder, "blocks", &known.blocks);
    folder
}

/// A folder with a C of this name that has a static `n`, and nothing to splice.
fn folder_with_static(name: &OsStr) -> Folder {
    let folder = Folder::new();
    let debug = debug_section(&[(4, 2, 1)], b"n\0");
    let sections = [
        (".mdebug", &debug[..]),
        (".text", &[0; 16]),
        (".gptab", &[7; 64]),
    ];
    fs::write(folder.path().join(name), made(&sections, &[], 1)).unwrap();
    put(&folder, "a.o", &made(&[(".text", &[])], &[], 1));
    put(&folder, "blocks", b"");
    folder
}

/// The usual words with one of them changed.
fn usual_but(word: &str, new: &str) -> Vec<String> {
    let change = |old: &&str| if *old == word { new } else { *old }.into();
    USUAL.iter().map(change).collect()
}

#[test]
fn the_known_merge_between_files() {
    let folder = known_folder();
    assert_eq!(ended(&run(&folder, &USUAL)), (0, &b""[..], ""));
    let merged = fs::read(folder.path().join("out.o")).unwrap();
    assert_eq!(merged, known_merge().merged);
    assert_eq!(folder.names(), ["a.o", "blocks", "c.o", "out.o"]);
    // C itself can be the output
    assert_eq!(
        ended(&run(&folder, &usual_but("out.o", "c.o"))),
        (0, &b""[..], "")
    );
    assert_eq!(fs::read(folder.path().join("c.o")).unwrap(), merged);
}

#[test]
fn standard_input_and_output() {
    let folder = known_folder();
    let merged = known_merge().merged;
    for name in NAMES {
        let mut words = usual_but(name, "-");
        *words.last_mut().unwrap() = "-".into();
        let input = fs::read(folder.path().join(name)).unwrap();
        let output = run_with(&folder, &words, &input);
        assert_eq!(ended(&output), (0, &merged[..], ""), "{name}");
    }
    assert_eq!(folder.names(), NAMES);
}

#[test]
fn settings_and_their_defaults() {
    let folder = folder_with_static("c.o".as_ref());
    let merged = |more: &str| {
        let mut words = usual_but("out.o", "-");
        words.extend(more.split_whitespace().map(Into::into));
        let output = run(&folder, &words);
        assert_eq!(
            (output.status.code(), &output.stderr[..]),
            (Some(0), &b""[..]),
            "{more}"
        );
        output.stdout
    };
    let usual = merged("");
    let has = |object: &[u8], part: &[u8]| object.windows(part.len()).any(|window| window == part);
    assert_eq!(usual, merged("--convert-statics local --path anything"));
    assert_ne!(usual, merged("--convert-statics no"));
    assert_ne!(usual, merged("--convert-statics global"));
    assert!(has(&usual, &[7; 64]) && !has(&merged("--drop-mdebug-gptab"), &[7; 64]));
    // the path is C as given
    let named = merged("--convert-statics global-with-filename");
    assert!(has(&named, b"\0c.o:n\0"));
    let named = merged("--convert-statics global-with-filename --path d/e.o");
    assert!(has(&named, b"\0d/e.o:n\0"));
    assert!(!has(&usual, b":n\0"));
}

#[test]
fn a_path_over_its_limits() {
    let long = format!("{}c.o", "./".repeat(127));
    let folder = folder_with_static("c.o".as_ref());
    let line = format!(
        "{long}: refused 1 0 0: the path has 257 bytes, it may have 255 (it is C as given; --path \
         gives another)\n"
    );
    assert_eq!(
        ended(&run(&folder, &usual_but("c.o", &long))),
        (1, &b""[..], &line[..])
    );
    let mut words = usual_but("c.o", &long);
    words.extend(["--path".into(), "c.o".into()]);
    assert_eq!(ended(&run(&folder, &words)), (0, &b""[..], ""));
    // one that is given is refused without that hint
    words[1] = "c.o".into();
    words[8] = long;
    let line = "c.o: refused 1 0 0: the path has 257 bytes, it may have 255\n";
    assert_eq!(ended(&run(&folder, &words)), (1, &b""[..], line));

    let odd = OsStr::from_bytes(b"c\xff");
    let folder = folder_with_static(odd);
    let mut words: Vec<OsString> = USUAL.map(Into::into).to_vec();
    words[1] = odd.into();
    let line = "c\\xFF: refused 1 0 0: byte 1 of the path is 255, it must be from 1 to 127 (it is C \
                as given; --path gives another)\n";
    assert_eq!(ended(&run(&folder, &words)), (1, &b""[..], line));
    words.push("--path=c".into());
    assert_eq!(ended(&run(&folder, &words)), (0, &b""[..], ""));
}

#[test]
fn a_refusal_is_one_line_and_status_1() {
    let folder = known_folder();
    put(&folder, "out.o", b"old");
    let refused = |words: &[String], input: &[u8], line: &str| {
        let output = run_with(&folder, words, input);
        assert_eq!(ended(&output), (1, &b""[..], line));
        assert_eq!(fs::read(folder.path().join("out.o")).unwrap(), b"old");
    };
    let line = "-: refused 2 2 0: the assembled object has 0 bytes, and its file header alone takes \
                52\n";
    refused(&usual_but("a.o", "-"), b"", line);
    let line = "/dev/zero: refused 1 0 0: the assembled object has more than 1048576 bytes\n";
    refused(&usual_but("a.o", "/dev/zero"), b"", line);
    let line = "/dev/zero: refused 1 0 0: the block file has more than 1048576 bytes\n";
    refused(&usual_but("blocks", "/dev/zero"), b"", line);
    // C for A: the blocks are not assembled there
    let line = "./c.o: refused 11 2 5: block 0 (`fee`) has late words or a jump table, and the \
                assembled object has no .late_rodata\n";
    refused(&usual_but("a.o", "./c.o"), b"", line);
    let blocks = known_merge().blocks;
    let other = str::from_utf8(&blocks)
        .unwrap()
        .replace("e0123458", "e0123459");
    let line = "c.o: refused 14 1 0: block 0 (`fee`): dummy e0123459 is not in the compiled \
                object's .rodata from 44 on\n";
    refused(&usual_but("blocks", "-"), other.as_bytes(), line);
    let other = other.replace("_asmpp_t1 ", "_asmpp_t1 0");
    let line = "-:2: refused 7 0 2: ";
    let output = run_with(&folder, &usual_but("blocks", "-"), other.as_bytes());
    assert!(ended(&output).2.starts_with(line), "{output:?}");
    assert_eq!(folder.names(), ["a.o", "blocks", "c.o", "out.o"]);
}

#[test]
fn files_that_cannot_be_read_or_written() {
    let folder = known_folder();
    for (words, line) in [
        (
            usual_but("a.o", "absent"),
            "daphulle: cannot read \"absent\": No such file or directory (os error 2)\n",
        ),
        (
            usual_but("out.o", "absent/out.o"),
            "daphulle: cannot write \"absent/out.o\": No such file or directory (os error 2)\n",
        ),
    ] {
        assert_eq!(ended(&run(&folder, &words)), (2, &b""[..], line));
        assert_eq!(folder.names(), NAMES);
    }
}

#[test]
fn wrong_usage_is_status_2() {
    let folder = known_folder();
    for (more, line) in [
        (
            "--convert-statics all",
            "--convert-statics is \"all\", it must be one of no, local, global, \
             global-with-filename",
        ),
        ("--prelude blocks", "merge has no option --prelude"),
        ("d.o", "\"d.o\" is one word too many"),
    ] {
        let mut words: Vec<String> = USUAL.map(Into::into).to_vec();
        words.extend(more.split_whitespace().map(Into::into));
        let line = format!("daphulle: {line} (see daphulle --help)\n");
        assert_eq!(ended(&run(&folder, &words)), (2, &b""[..], &line[..]));
    }
    assert_eq!(folder.names(), NAMES);
}
