//! The usual prelude: it is written out, it is the one of a draft for which none is given, and GNU
//! `as` makes of such a draft what its lines say. The last is left out, with a word, where `as` is
//! not installed.

mod common;

use common::{
    DRAFT, Folder,
    command::{ended, run},
    known_case, made,
    tools::{self, are_there},
};
use daphulle::{PRELUDE, draft};
use std::fs;

const TOOLS: [(&str, &str); 3] = [
    ("mips-linux-gnu-as", "binutils-mips-linux-gnu"),
    ("mips-linux-gnu-objcopy", "binutils-mips-linux-gnu"),
    ("mips-linux-gnu-nm", "binutils-mips-linux-gnu"),
];

/// A folder with these as C and block file.
fn folder_of(compiled: &[u8], blocks: &[u8]) -> Folder {
    let folder = Folder::new();
    fs::write(folder.path().join("c.o"), compiled).unwrap();
    fs::write(folder.path().join("blocks"), blocks).unwrap();
    folder
}

#[test]
fn it_is_written_out() {
    let folder = Folder::new();
    for words in [&["prelude"][..], &["prelude", "-o", "-"]] {
        assert_eq!(ended(&run(&folder, words)), (0, PRELUDE, ""));
    }
    let output = run(&folder, &["prelude", "-o", "usual.s"]);
    assert_eq!(ended(&output), (0, &b""[..], ""));
    assert_eq!(fs::read(folder.path().join("usual.s")).unwrap(), PRELUDE);
    let line =
        "daphulle: cannot write \"absent/usual.s\": No such file or directory (os error 2)\n";
    let output = run(&folder, &["prelude", "-o", "absent/usual.s"]);
    assert_eq!(ended(&output), (2, &b""[..], line));
    assert_eq!(folder.names(), ["usual.s"]);
}

#[test]
fn it_stands_where_none_is_given() {
    let case = known_case();
    let folder = folder_of(&case.compiled, &case.blocks);
    let output = run(&folder, &["draft", "c.o", "--blocks", "blocks", "-o", "-"]);
    let expected = draft(&case.compiled, PRELUDE, &case.blocks).unwrap();
    assert_eq!(ended(&output), (0, &expected[..], ""));
    // only the prelude is another than in document 01's example
    let lines = DRAFT.strip_prefix(&case.prelude[..]).unwrap();
    assert_eq!(expected, [PRELUDE, lines].concat());
    // an empty one is given
    let words = ["--prelude", "/dev/null", "--blocks", "blocks", "-o", "-"];
    let output = run(&folder, &[&["draft", "c.o"], &words[..]].concat());
    assert_eq!(ended(&output), (0, lines, ""));
}

/// The bytes of a section of what `as` makes of the draft in a folder, and its symbols.
fn assembled(folder: &Folder, sections: [&str; 2]) -> ([Vec<u8>; 2], String) {
    tools::run(folder, "daphulle draft c.o --blocks blocks -o a.s");
    tools::run(
        folder,
        "mips-linux-gnu-as --fatal-warnings -EB -mabi=32 a.s -o a.o",
    );
    let bytes = sections.map(|section| {
        let copy = format!("mips-linux-gnu-objcopy -O binary -j {section} a.o bytes");
        tools::run(folder, &copy);
        fs::read(folder.path().join("bytes")).unwrap()
    });
    let symbols = tools::run(folder, "mips-linux-gnu-nm --format=sysv a.o");
    (bytes, String::from_utf8(symbols).unwrap())
}

#[test]
fn the_example_of_document_01_is_assembled() {
    if !are_there(&TOOLS, "the usual prelude's test") {
        return;
    }
    let case = known_case();
    let folder = folder_of(&case.compiled, &case.blocks);
    let ([text, _], _) = assembled(&folder, [".text", ".data"]);
    let expected = common::words(&[0, 0, 0x03e0_0008, 0]);
    assert_eq!(text, expected);
}

#[test]
fn lines_stay_as_they_are_written() {
    if !are_there(&TOOLS, "the usual prelude's test") {
        return;
    }
    let blocks = "desc=f
text=_asmpp_t1 24 0
data=_asmpp_d1 8 0
rodata=
bss=
jtbl=0
asm=glabel f
asm=lui $at, 0x1234
asm=beqz $a0, .Lend
asm=lw $v0, 0($a1)
asm=jlabel f_case
asm=addu $v0, $v0, $at
asm=.Lend:
asm=jr $ra
asm=addiu $v0, $v0, 1
asm=endlabel f
asm=.section .data
asm=dlabel table
asm=.word 7, 8
asm=endlabel table
end=
";
    let sections = [(".text", &[0; 28][..]), (".data", &[0; 8])];
    let symbols = [("_asmpp_t1", ".text", 4, 1), ("_asmpp_d1", ".data", 0, 1)];
    let folder = folder_of(&made(&sections, &symbols, 1), blocks.as_bytes());
    let ([text, table], symbols) = assembled(&folder, [".text", ".data"]);
    let expected = [
        0, // before the block
        0x3c01_1234,
        0x1080_0002,
        0x8ca2_0000,
        0x0041_1021,
        0x03e0_0008,
        0x2442_0001,
        0, // as fills up
    ];
    assert_eq!(text, common::words(&expected));
    assert_eq!(table, common::words(&[7, 8, 0, 0]));
    // name, value, class, type, size, section
    let squeezed: String = symbols.split(' ').collect();
    for line in [
        "f|00000004|T|NOTYPE|00000018||.text",
        "f_case|00000010|T|NOTYPE|||.text",
        "table|00000000|D|OBJECT|00000008||.data",
        "_asmpp_t1_asm_start|00000004|T|NOTYPE|||.text",
        "_asmpp_t1_asm_end|0000001c|T|NOTYPE|||.text",
        "_asmpp_d1_asm_end|00000008|D|NOTYPE|||.data",
    ] {
        assert!(
            squeezed.lines().any(|other| other == line),
            "{line} in {squeezed}"
        );
    }
    // and they are merged
    let merge = "daphulle merge c.o a.o --blocks blocks -o merged.o";
    tools::run(&folder, merge);
    let merged = fs::read(folder.path().join("merged.o")).unwrap();
    assert!(merged.windows(28).any(|window| window == &text[..28]));
}
