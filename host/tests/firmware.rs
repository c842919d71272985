//! Firmware from C to a running program, with Debian's MIPS compiler, assembler and linker: the
//! program with the routine as assembly, spliced in by draft and merge, prints what it prints with
//! the routine in C. Left out, with a word, where the tools are not installed.

mod common;

use common::{
    FIRMWARE, Folder,
    tools::{are_there, run},
};
use std::{env, ffi::OsStr, fs, path::Path, process::Command};

/// The tools, and Debian's packages of them.
const TOOLS: [(&str, &str); 4] = [
    ("mips-linux-gnu-gcc", "gcc-mips-linux-gnu"),
    ("mips-linux-gnu-as", "binutils-mips-linux-gnu"),
    ("mips-linux-gnu-ld", "binutils-mips-linux-gnu"),
    ("qemu-mips", "qemu-user"),
];

/// o32 without position-independent code, as firmware has it. Sections, constants and functions
/// stay in the order of the source.
const COMPILE: &str = "-mabi=32 -march=mips32r2 -mfpxx -mno-abicalls -fno-pic -G0 -ffreestanding \
                       -fno-toplevel-reorder -fno-merge-constants \
                       -fno-asynchronous-unwind-tables -Wall -Wextra -Werror -Wa,-mno-pdr -c";
const ASSEMBLE: &str = "-EB -mabi=32 -march=mips32r2 -mfpxx -mno-pdr";

/// Whether the tools are there; a word where they are not.
fn has_tools() -> bool {
    are_there(&TOOLS, "the firmware")
}

/// What the program prints with the routine in C.
fn expected(folder: &Folder, level: &str) -> Vec<u8> {
    let compile = format!("mips-linux-gnu-gcc {COMPILE} {level} FIRMWARE/board.c");
    run(folder, &format!("{compile} -DROUTINE_IN_C -o whole.o"));
    run(folder, "mips-linux-gnu-ld -EB whole.o -o whole");
    let printed = run(folder, "qemu-mips whole");
    assert!(printed.ends_with(b"behind\n"), "{level}");
    printed
}

#[test]
fn a_spliced_program_prints_what_the_program_in_c_prints() {
    if !has_tools() {
        return;
    }
    for level in ["-O0", "-O1", "-O2", "-Os"] {
        let folder = Folder::new();
        let run = |line: &str| run(&folder, line);
        run(&format!(
            "mips-linux-gnu-gcc {COMPILE} {level} FIRMWARE/board.c -o c.o"
        ));
        // its own prelude and the usual one
        let [own, usual] = ["--prelude FIRMWARE/prelude", ""].map(|prelude| {
            run(&format!(
                "daphulle draft c.o {prelude} --blocks FIRMWARE/blocks -o a.s"
            ));
            run(&format!("mips-linux-gnu-as {ASSEMBLE} a.s -o a.o"));
            fs::read(folder.path().join("a.o")).unwrap()
        });
        assert_eq!(own, usual, "{level}");
        run("daphulle merge c.o a.o --blocks FIRMWARE/blocks -o board.o");
        run("mips-linux-gnu-ld -EB board.o -o board");
        assert_eq!(run("qemu-mips board"), expected(&folder, level), "{level}");
    }
}

/// The README's commands, word for word.
#[test]
fn the_commands_of_the_readme() {
    if !has_tools() {
        return;
    }
    let readme = fs::read_to_string(concat!(env!("CARGO_MANIFEST_DIR"), "/README.md")).unwrap();
    let mut scripts = readme
        .split("```sh\n")
        .filter_map(|rest| rest.split("```").next());
    let script = scripts.find(|script| script.contains("qemu-mips")).unwrap();
    let command = Path::new(env!("CARGO_BIN_EXE_daphulle"));
    let path = [
        command.parent().unwrap().as_os_str(),
        &env::var_os("PATH").unwrap(),
    ];
    let folder = Folder::new();
    let output = Command::new("sh")
        .args(["-e", "-c", script])
        .env("DIR", FIRMWARE)
        .env("PATH", path.join(OsStr::new(":")))
        .current_dir(folder.path())
        .output()
        .unwrap();
    assert!(output.status.success(), "{output:?}");
    assert_eq!(output.stdout, expected(&folder, "-O2"));
}
