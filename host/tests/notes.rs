//! Notes: what an accepted job leaves out or may not mean, by the library and by the command, and as
//! errors under `--strict`.

mod common;

use common::{
    Folder, block,
    command::{ended, run, run_with},
    known_case, known_merge, made, object, patched, section_field,
};
use daphulle::{Note, NoteKind, draft, merge, notes};
use std::{ffi::OsStr, fs, os::unix::ffi::OsStrExt};

/// An object of `object` with a field of a symbol changed; the first symbol is 1.
fn with_symbol(object: &[u8], symbol: usize, field: usize, new: &[u8]) -> Vec<u8> {
    let at = section_field(object, 3, "sh_offset");
    let table = u32::from_be_bytes(object[at..at + 4].try_into().unwrap()) as usize;
    patched(object, table + 16 * symbol + field, new)
}

fn sized(object: &[u8], symbol: usize, size: u32) -> Vec<u8> {
    with_symbol(object, symbol, 8, &size.to_be_bytes())
}

fn in_section(object: &[u8], symbol: usize, index: u16) -> Vec<u8> {
    with_symbol(object, symbol, 14, &index.to_be_bytes())
}

/// The notes as lines, on a job whose draft is accepted.
fn lines(compiled: &[u8], blocks: &str) -> Vec<String> {
    assert!(draft(compiled, b"", blocks.as_bytes()).is_ok());
    let notes = notes(compiled, blocks.as_bytes());
    notes.iter().map(Note::to_string).collect()
}

#[test]
fn a_sound_job_has_none() {
    let case = known_case();
    assert_eq!(notes(&case.compiled, &case.blocks), []);
    let known = known_merge();
    assert_eq!(notes(&known.compiled, &known.blocks), []);
    let compiled = sized(&object(&[("a", 0)]), 1, 8);
    assert_eq!(lines(&compiled, &block("f", "a 8 0", "")), [""; 0]);
    // a symbol without a size
    assert_eq!(
        lines(&object(&[("a", 0)]), &block("f", "a 8 0", "")),
        [""; 0]
    );
    assert_eq!(
        lines(&compiled, &block("nothing to place", "", "")),
        [""; 0]
    );
}

#[test]
fn an_absent_label() {
    let compiled = object(&[("a", 0), ("b", 4)]);
    let blocks = [
        block("f", "a 4 0", ""),
        block("", "c 4 0", "d 4 0"),
        block("g", "b 4 0", ""),
        block("courier_cache", "_asmpp_t4 8 0", ""),
    ];
    let blocks = blocks.concat();
    assert_eq!(
        lines(&compiled, &blocks),
        [
            "block 1: no symbol c, the rest of the block is left out",
            "block 3 (courier_cache): no symbol _asmpp_t4, the rest of the block is left out",
        ]
    );
    let notes = notes(&compiled, blocks.as_bytes());
    assert_eq!(
        notes.last(),
        Some(&Note {
            kind: NoteKind::LeftOut,
            block: 3,
            desc: "courier_cache".into(),
            words: "no symbol _asmpp_t4, the rest of the block is left out".into(),
        })
    );
    // behind a line that is taken
    let sections = [(".text", &[0; 8][..]), (".data", &[0; 8])];
    let compiled = made(&sections, &[("a", ".text", 0, 1)], 1);
    assert_eq!(
        lines(&compiled, &block("f", "a 4 0", "d 4 0")),
        ["block 0 (f): no symbol d, the rest of the block is left out"]
    );
}

#[test]
fn another_size() {
    let two = object(&[("a", 0), ("b", 8)]);
    let blocks = block("f", "a 8 0", "") + &block("g", "b 4 0", "");
    assert_eq!(
        lines(&sized(&sized(&two, 1, 12), 2, 4), &blocks),
        ["block 0 (f): symbol a has size 12, the block 8"]
    );
    assert_eq!(
        lines(&sized(&sized(&two, 1, 4), 2, u32::MAX), &blocks),
        [
            "block 0 (f): symbol a has size 4, the block 8",
            "block 1 (g): symbol b has size 4294967295, the block 4",
        ]
    );
    // the first symbol of the name counts
    let twice = object(&[("a", 0), ("a", 4)]);
    let blocks = block("f", "a 4 0", "");
    assert_eq!(lines(&sized(&twice, 2, 12), &blocks), [""; 0]);
    assert_eq!(lines(&sized(&twice, 1, 12), &blocks).len(), 1);
}

#[test]
fn another_section() {
    let compiled = object(&[("a", 0)]);
    let blocks = block("f", "a 4 0", "");
    for (index, words) in [
        (0, "undefined"),
        (2, "in section .rel.text"),
        (0xfff1, "absolute"),
        (0xfff2, "of reserved index 0xfff2"),
    ] {
        assert_eq!(
            lines(&in_section(&compiled, 1, index), &blocks),
            [format!("block 0 (f): symbol a is {words}")]
        );
    }
    // C has no .data at all
    assert_eq!(
        lines(&compiled, &block("f", "", "a 4 0")),
        ["block 0 (f): symbol a is in section .text"]
    );
    // the first of a name is "the" section
    let sections = [(".text", &[0; 8][..]), (".text", &[0; 8])];
    let compiled = made(&sections, &[("a", ".text", 0, 1)], 1);
    let table = compiled
        .windows(16)
        .position(|entry| entry == [0, 0, 0, 1, 0, 0, 0, 0, 0, 0, 0, 0, 0x10, 0, 0, 1]);
    let compiled = patched(&compiled, table.unwrap() + 15, &[2]);
    assert_eq!(
        lines(&compiled, &blocks),
        ["block 0 (f): symbol a is in section .text, but not in the first of that name"]
    );
}

/// Both of a symbol, its size first; then the next line, in the order of the block.
#[test]
fn several_on_a_block() {
    let compiled = sized(&object(&[("a", 0)]), 1, 12);
    let blocks = "desc=f\ntext=\ndata=a 8 0\nrodata=b 4 0\nbss=c 4 0\njtbl=0\nend=\n";
    assert_eq!(
        lines(&compiled, blocks),
        [
            "block 0 (f): symbol a has size 12, the block 8",
            "block 0 (f): symbol a is in section .text",
            "block 0 (f): no symbol b, the rest of the block is left out",
        ]
    );
}

#[test]
fn a_note_is_one_line() {
    let blocks = block(
        &"d\x1b".repeat(40),
        &format!("{} 4 0", "l\t".repeat(40)),
        "",
    );
    let (desc, label) = ("d\\x1b".repeat(24), "l\\t".repeat(24));
    let line =
        format!("block 0 ({desc}...): no symbol {label}..., the rest of the block is left out");
    assert_eq!(lines(&object(&[]), &blocks), [line]);
}

fn put(folder: &Folder, name: &str, bytes: &[u8]) {
    fs::write(folder.path().join(name), bytes).unwrap();
}

const ABSENT: &str = "block 1 (courier_cache): no symbol _asmpp_t4, the rest of the block is left \
                      out\n";
const DRAFT: [&str; 6] = ["draft", "c.o", "--blocks", "blocks", "-o", "out"];
const MERGE: [&str; 7] = ["merge", "c.o", "a.o", "--blocks", "blocks", "-o", "out"];

/// The firmware's objects, and a block file with a block more that C does not have.
fn folder_with_a_block_left_out() -> Folder {
    let folder = Folder::new();
    let known = known_merge();
    let more = block("courier_cache", "_asmpp_t4 8 0", "");
    put(&folder, "c.o", &known.compiled);
    put(&folder, "a.o", &known.assembled);
    put(
        &folder,
        "blocks",
        &[&known.blocks, more.as_bytes()].concat(),
    );
    folder
}

#[test]
fn the_command_tells_them_and_goes_on() {
    let folder = folder_with_a_block_left_out();
    let known = known_merge();
    let line = format!("c.o: note: {ABSENT}");
    let drafted = draft(&known.compiled, daphulle::PRELUDE, &known.blocks).unwrap();
    let merged = merge(&known.merge()).unwrap();
    for (words, expected) in [(&DRAFT[..], drafted), (&MERGE, merged)] {
        assert_eq!(ended(&run(&folder, words)), (0, &b""[..], &line[..]));
        // the answer is the one without the block
        assert_eq!(fs::read(folder.path().join("out")).unwrap(), expected);
    }
}

#[test]
fn strict_takes_them_for_errors() {
    let folder = folder_with_a_block_left_out();
    let line = format!("c.o: error: {ABSENT}");
    for words in [&DRAFT[..], &MERGE] {
        let strict = [words, &["--strict"]].concat();
        assert_eq!(ended(&run(&folder, &strict)), (3, &b""[..], &line[..]));
        assert_eq!(folder.names(), ["a.o", "blocks", "c.o"]);
        put(&folder, "out", b"old");
        assert_eq!(ended(&run(&folder, &strict)), (3, &b""[..], &line[..]));
        assert_eq!(fs::read(folder.path().join("out")).unwrap(), b"old");
        fs::remove_file(folder.path().join("out")).unwrap();
    }
    // nothing to note
    put(&folder, "blocks", &known_merge().blocks);
    for words in [&DRAFT[..], &MERGE] {
        let strict = [words, &["--strict"]].concat();
        assert_eq!(ended(&run(&folder, &strict)), (0, &b""[..], ""));
    }
}

/// Notes are told of accepted jobs only.
#[test]
fn a_refusal_stands_alone() {
    let folder = folder_with_a_block_left_out();
    let line = "a.o: refused 2 2 0: the assembled object has 0 bytes, and its file header alone takes \
                52\n";
    put(&folder, "a.o", b"");
    for more in [&[][..], &["--strict"]] {
        let output = run(&folder, &[&MERGE[..], more].concat());
        assert_eq!(ended(&output), (1, &b""[..], line));
    }
    assert_eq!(folder.names(), ["a.o", "blocks", "c.o"]);
}

#[test]
fn a_line_begins_with_c_as_given() {
    let folder = folder_with_a_block_left_out();
    let known = known_merge();
    let path = |name: &[u8]| folder.path().join(OsStr::from_bytes(name));
    fs::create_dir(path(b"d")).unwrap();
    for (name, shown) in [
        (&b"./d/../c.o"[..], "./d/../c.o"),
        (b"d/c \"2\".o", "d/c \"2\".o"),
        (b"\xff\nc", "\\xFF\\nc"),
        (b"\"", "\""),
    ] {
        fs::write(path(name), &known.compiled).unwrap();
        let mut words = DRAFT.map(OsStr::new);
        words[1] = OsStr::from_bytes(name);
        let line = format!("{shown}: note: {ABSENT}");
        assert_eq!(ended(&run(&folder, &words)), (0, &b""[..], &line[..]));
    }
    let mut words = DRAFT;
    words[1] = "-";
    let line = format!("-: note: {ABSENT}");
    let output = run_with(&folder, &words, &known.compiled);
    assert_eq!(ended(&output), (0, &b""[..], &line[..]));
}
