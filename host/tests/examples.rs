//! The examples, as a user runs them: examples/make and examples/cmake build what they must and no
//! more, and the transcript in the manual is what tools/newcomer prints. Left out, with a word, where
//! the tools are not installed.

mod common;

use common::{Folder, command::COMMAND, tools::are_there};
use std::{fs, os::unix::fs::symlink, path::Path, process::Command};

/// The tools, and Debian's packages of them.
const TOOLS: [(&str, &str); 5] = [
    ("make", "make"),
    ("mips-linux-gnu-gcc", "gcc-mips-linux-gnu"),
    ("mips-linux-gnu-as", "binutils-mips-linux-gnu"),
    ("mips-linux-gnu-ld", "binutils-mips-linux-gnu"),
    ("qemu-mips", "qemu-user"),
];

const ROOT: &str = concat!(env!("CARGO_MANIFEST_DIR"), "/..");
const MANUAL: &str = include_str!("../../docs/MANUAL.md");

/// A folder with the examples' files, the script, and the command where they look for it.
fn copied() -> Folder {
    let folder = Folder::new();
    for part in ["examples/make", "examples/cmake", "tools"] {
        fs::create_dir_all(folder.path().join(part)).unwrap();
    }
    let files = [
        "examples/make/Makefile",
        "examples/make/board.c",
        "examples/make/board.h",
        "examples/make/fee.c",
        "examples/make/fee.s",
        "examples/cmake/CMakeLists.txt",
        "examples/cmake/mips.cmake",
        "tools/newcomer",
    ];
    for file in files {
        fs::copy(Path::new(ROOT).join(file), folder.path().join(file)).unwrap();
    }
    let release = folder.path().join("host/target/release");
    fs::create_dir_all(&release).unwrap();
    symlink(COMMAND, release.join("daphulle")).unwrap();
    folder
}

/// What a command prints, run in the folder; it succeeds.
fn printed(folder: &Folder, line: &str) -> String {
    let output = Command::new("sh")
        .args(["-c", line])
        .current_dir(folder.path())
        .env("LC_ALL", "C")
        .env_remove("MAKEFLAGS")
        .env_remove("MAKELEVEL")
        .output()
        .unwrap();
    assert!(output.status.success(), "{line}: {output:?}");
    assert!(output.stderr.is_empty(), "{line}: {output:?}");
    String::from_utf8(output.stdout).unwrap()
}

/// Puts other text into a file.
fn edit(folder: &Folder, file: &str, old: &str, new: &str) {
    let path = folder.path().join(file);
    let text = fs::read_to_string(&path).unwrap();
    assert!(text.contains(old), "{old} is not in {file}");
    fs::write(path, text.replace(old, new)).unwrap();
}

/// What make did: for each of its lines the file that it made.
fn made(folder: &Folder) -> Vec<String> {
    let lines = printed(folder, "make -C examples/make --no-print-directory");
    let output = |line: &str| Some(line.split(" -o build/").nth(1)?.to_string());
    lines.lines().filter_map(output).collect()
}

#[test]
fn make_builds_what_changed_and_nothing_else() {
    if !are_there(&TOOLS, "examples/make") {
        return;
    }
    let folder = copied();
    let run = || printed(&folder, "make -s -C examples/make run");
    let spliced = ["fee.blocks", "fee.c.o", "fee.a.s", "fee.a.o", "fee.o"];
    assert_eq!(
        made(&folder),
        [&["board.o"], &spliced[..], &["board"]].concat()
    );
    let in_c = printed(&folder, "make -s -C examples/make run-c");
    assert!(in_c.starts_with("240 + 240 cents\n"), "{in_c}");
    assert_eq!(run(), in_c);
    assert_eq!(made(&folder), [""; 0]);

    // a routine of the same size: nothing is compiled
    edit(&folder, "examples/make/fee.s", "120, 90", "130, 90");
    let without_compiling = ["fee.blocks", "fee.a.s", "fee.a.o", "fee.o", "board"];
    assert_eq!(made(&folder), without_compiling);
    assert!(run().starts_with("260 + 260 cents\n"));
    assert_eq!(made(&folder), [""; 0]);
    // one of another size: its own source is compiled
    edit(
        &folder,
        "examples/make/fee.s",
        "    mult ",
        "    nop\n    mult ",
    );
    assert_eq!(made(&folder), [&spliced[..], &["board"]].concat());
    assert!(run().starts_with("260 + 260 cents\n"));
    // assembly in the source itself
    edit(
        &folder,
        "examples/make/fee.c",
        "$v0, $v0, $v0",
        "$v0, $v0, $zero",
    );
    assert_eq!(made(&folder), without_compiling);
    assert!(run().starts_with("260 + 130 cents\n"));
    // what has no routines, and what both include
    edit(&folder, "examples/make/board.c", "\" + \"", "\" and \"");
    assert_eq!(made(&folder), ["board.o", "board"]);
    assert!(run().starts_with("260 and 130 cents\n"));
    edit(
        &folder,
        "examples/make/board.h",
        "extern int opened[4];",
        "extern int opened[];",
    );
    let but_blocks = ["board.o", "fee.c.o", "fee.a.s", "fee.a.o", "fee.o", "board"];
    assert_eq!(made(&folder), but_blocks);
    assert_eq!(made(&folder), [""; 0]);
}

/// A file of assembly that is gone is a fault of the line that names it, and make goes on where it is
/// named no more.
#[test]
fn make_goes_on_behind_a_fault() {
    if !are_there(&TOOLS, "examples/make") {
        return;
    }
    let folder = copied();
    made(&folder);
    let asm = |name: &str| folder.path().join("examples/make").join(name);
    fs::rename(asm("fee.s"), asm("price.s")).unwrap();
    let line = "! make -C examples/make 2>&1";
    let told = printed(&folder, line);
    assert!(told.contains("fee.c:27: cannot read \"fee.s\""), "{told}");
    edit(
        &folder,
        "examples/make/fee.c",
        "(\"fee.s\")",
        "(\"price.s\")",
    );
    let spliced = ["fee.blocks", "fee.a.s", "fee.a.o", "fee.o", "board"];
    assert_eq!(made(&folder), spliced);
}

#[test]
fn cmake_builds_the_same_program() {
    let tools = [&TOOLS[..], &[("cmake", "cmake")]].concat();
    if !are_there(&tools, "examples/cmake") {
        return;
    }
    let folder = copied();
    let build = "cmake --build examples/cmake/build";
    let place = "-S examples/cmake -B examples/cmake/build";
    let toolchain = format!("{}/examples/cmake/mips.cmake", folder.path().display());
    printed(
        &folder,
        &format!("cmake -G 'Unix Makefiles' {place} --toolchain {toolchain} 2>&1"),
    );
    let run = || printed(&folder, "qemu-mips examples/cmake/build/board");
    let compiled = |told: &str| told.matches("Building C object").count();
    assert_eq!(compiled(&printed(&folder, build)), 2);
    assert_eq!(run(), printed(&folder, "make -s -C examples/make run-c"));
    edit(&folder, "examples/make/fee.s", "120, 90", "130, 90");
    assert_eq!(compiled(&printed(&folder, build)), 0);
    assert!(run().starts_with("260 + 260 cents\n"));
    edit(
        &folder,
        "examples/make/fee.s",
        "    mult ",
        "    nop\n    mult ",
    );
    assert_eq!(compiled(&printed(&folder, build)), 1);
    assert!(run().starts_with("260 + 260 cents\n"));
    let told = printed(&folder, build);
    assert!(!told.contains("Generating"), "{told}");
}

/// The command that the manual has for sources of asm-processor, word for word.
#[test]
fn the_way_in_from_asm_processor() {
    if !are_there(&TOOLS, "the way in from asm-processor") {
        return;
    }
    let (_, section) = MANUAL.split_once("\n## From asm-processor\n").unwrap();
    let (_, script) = section.split_once("```sh\n").unwrap();
    let (script, _) = script.split_once("```").unwrap();
    let folder = copied();
    let line = format!(
        "cd examples/make && mkdir build && PATH=../../host/target/release:$PATH\n{script}"
    );
    assert_eq!(printed(&folder, &line), "");
    let at = folder.path().join("examples/make/build");
    assert!(
        fs::read(at.join("blocks"))
            .unwrap()
            .starts_with(b"desc=fee.s\ntext=_asmpp_t1 144 0\n")
    );
    assert!(
        fs::read(at.join("fee.c"))
            .unwrap()
            .starts_with(b"#line 1 \"fee.c\"\n")
    );
}

#[test]
fn the_transcript_of_the_manual() {
    if !are_there(&TOOLS, "the transcript") {
        return;
    }
    let title = "\n## From clone to a running program\n";
    let (_, section) = MANUAL.split_once(title).unwrap();
    let (_, block) = section.split_once("```text\n$ cd ").unwrap();
    let (shown, _) = block.split_once("```").unwrap();
    let printed = printed(&copied(), "tools/newcomer");
    assert_eq!(format!("$ cd {shown}"), printed);
}
