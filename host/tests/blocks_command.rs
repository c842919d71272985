//! `daphulle blocks`: block files of C with `GLOBAL_ASM` and of lists of spans, by the library and
//! by the command. What needs Debian's MIPS tools is left out, with a word, where they are not
//! installed.

mod common;

use common::{
    Folder, Symbol,
    command::{ended, run as run_command, run_with},
    known_merge, made,
    tools::{are_there, run},
};
use daphulle::describe::{Described, Named, Tools, of_source, of_spans};
use std::{
    collections::HashMap,
    fs,
    path::{Path, PathBuf},
};

/// The tools, and Debian's packages of them.
const TOOLS: [(&str, &str); 2] = [
    ("mips-linux-gnu-gcc", "gcc-mips-linux-gnu"),
    ("mips-linux-gnu-as", "binutils-mips-linux-gnu"),
];

const MANUAL: &str = include_str!("../../docs/MANUAL.md");

const COMPILE: &str = "mips-linux-gnu-gcc -mabi=32 -march=mips32r2 -mfpxx -mno-abicalls -fno-pic \
                       -G0 -ffreestanding -fno-asynchronous-unwind-tables -Wall -Wextra -Werror \
                       -Wa,-mno-pdr -iquote . -c t.c -o c.o";
const ASSEMBLE: &str = "mips-linux-gnu-as -EB -mabi=32 -march=mips32r2 -mfpxx -mno-pdr";

fn has_tools() -> bool {
    are_there(&TOOLS, "blocks of C with GLOBAL_ASM")
}

fn write(folder: &Folder, name: &str, text: impl AsRef<[u8]>) {
    fs::write(folder.path().join(name), text).unwrap();
}

fn text_of(folder: &Folder, name: &str) -> String {
    fs::read_to_string(folder.path().join(name)).unwrap()
}

/// `daphulle blocks f.c`, with the placeholders in t.c and the blocks in b; how it ended.
fn blocks(folder: &Folder, more: &[&str]) -> (i32, String) {
    let words = ["blocks", "f.c", "--placeholders", "t.c", "-o", "b"];
    let words = [&words, more].concat();
    let output = run_command(folder, &words);
    let (status, _, error) = ended(&output);
    (status, error.into())
}

/// Blocks, and from there to a merged object. The draft and the merge refuse what has a wrong size
/// or stands at a wrong place; nothing is noted.
fn splice(folder: &Folder, level: &str) {
    assert_eq!(blocks(folder, &["--as", ASSEMBLE]), (0, "".into()));
    for line in [
        &format!("{COMPILE} {level}")[..],
        "daphulle draft c.o --blocks b --strict -o a.s",
        &format!("{ASSEMBLE} a.s -o a.o"),
        "daphulle merge c.o a.o --blocks b --strict -o m.o",
    ] {
        run(folder, line);
    }
}

/// The values of an object's names.
fn values(folder: &Folder, object: &str) -> HashMap<String, u32> {
    let listed = run(folder, &format!("mips-linux-gnu-nm {object}"));
    let listed = String::from_utf8(listed).unwrap();
    let value = |line: &str| {
        let [value, _, name] = line.split_whitespace().collect::<Vec<_>>()[..] else {
            return None;
        };
        Some((name.to_string(), u32::from_str_radix(value, 16).unwrap()))
    };
    listed.lines().filter_map(value).collect()
}

#[test]
fn help_fits_one_screen() {
    let folder = Folder::new();
    let output = run_command(&folder, &["blocks", "--help"]);
    let (status, text, error) = ended(&output);
    let text = str::from_utf8(text).unwrap();
    assert_eq!((status, error), (0, ""));
    assert!(text.lines().count() <= 24 && text.lines().all(|line| line.len() <= 80));
    assert!(text.starts_with("Usage: daphulle blocks SOURCE --placeholders T "));
}

/// The manual's list of the firmware's spans gives its block file, byte for byte.
#[test]
fn a_list_of_spans() {
    let folder = Folder::new();
    let known = String::from_utf8(known_merge().blocks).unwrap();
    let lines = |key: &str| -> String {
        let lines = known.lines().filter_map(|line| line.strip_prefix(key));
        lines.flat_map(|line| [line, "\n"]).collect()
    };
    let [asm, late] = ["asm=", "late="].map(lines);
    fs::create_dir(folder.path().join("asm")).unwrap();
    write(&folder, "asm/fee.s", format!("{asm}.late_rodata\n{late}"));
    // the firmware's block has a name of its own, this one the file's
    let known = known.replace("desc=fee\n", "desc=fee.s\n");
    let (_, list) = MANUAL.split_once("```text\n# file part ").unwrap();
    let (list, _) = list.split_once("```").unwrap();
    let list = format!("# file part {list}");
    write(&folder, "list", &list);
    let words = ["blocks", "--spans", "list", "--base-dir=asm", "-ob"];
    assert_eq!(ended(&run_command(&folder, &words)), (0, &b""[..], ""));
    assert_eq!(text_of(&folder, "b"), known);

    // from standard input to standard output; the rule for make names what was read
    let words = [
        "blocks",
        "--spans=-",
        "--base-dir=asm",
        "--deps=d",
        "-o",
        "-",
    ];
    let output = run_with(&folder, &words, list.as_bytes());
    assert_eq!(ended(&output), (0, known.as_bytes(), ""));
    assert_eq!(text_of(&folder, "d"), "-: asm/fee.s\n\nasm/fee.s:\n");

    // another file is another block, and so is the same one further down
    write(&folder, "asm/other", "nop\n");
    let list = "other text t1 4\n\n# none\nother\tdata  d1 4\nfee.s text t2 4\nother text t3 4 8\n";
    let output = run_with(&folder, &words, list.as_bytes());
    let text = String::from_utf8(output.stdout).unwrap();
    let spans: Vec<_> = text
        .lines()
        .filter(|line| line.starts_with("text="))
        .collect();
    assert_eq!(spans, ["text=t1 4 0", "text=t2 4 0", "text=t3 4 8"]);
}

#[test]
fn a_fault_of_a_list_names_its_line() {
    let folder = Folder::new();
    write(&folder, "f.s", "nop\n.section .sdata\n");
    write(&folder, "g.s", "nop\n");
    const FORMS: &str = "behind the file must stand `text`, `data`, `rodata` or `bss` with LABEL \
                         SIZE and perhaps ALIGN8, `late` with dummies, or `jtbl` with BYTES";
    for (list, fault) in [
        ("g.s\n", format!("-:1: {FORMS}")),
        ("\ng.s text l\n", format!("-:2: {FORMS}")),
        ("g.s text l 4 0 0\n", format!("-:1: {FORMS}")),
        ("g.s late\n", format!("-:1: {FORMS}")),
        ("g.s tekst l 4\n", format!("-:1: {FORMS}")),
        ("g.s text l four\n", "-:1: `four` is no number".into()),
        (
            "g.s late e012345\n",
            "-:1: `e012345` is not 8 hex digits".into(),
        ),
        (
            "g.s text l 4\ng.s text m 4\n",
            "-:2: the block has `text` already".into(),
        ),
        (
            "g.s jtbl 4\ng.s jtbl 4\n",
            "-:2: the block has `jtbl` already".into(),
        ),
        (
            "f.s text l 4\n",
            "f.s:2: section .sdata is none of .text, .data, .rodata, .bss and .late_rodata".into(),
        ),
        (
            "no.s text l 4\n",
            "-:1: cannot read \"no.s\": No such file or directory (os error 2)".into(),
        ),
    ] {
        let words = ["blocks", "--spans", "-", "-o", "b"];
        let output = run_with(&folder, &words, list.as_bytes());
        assert_eq!(ended(&output), (2, &b""[..], &format!("{fault}\n")[..]));
    }
    assert_eq!(folder.names(), ["f.s", "g.s"]);
}

/// An assembler that gives every part of the only routine a size: of `alone` bytes, and what is
/// missing to a multiple of `align` before.
struct Pretended {
    part: &'static str,
    alone: u32,
    align: u32,
}

impl Tools for Pretended {
    fn read(&mut self, path: &Path) -> Result<Vec<u8>, String> {
        match path.to_str() {
            Some("f.s") => Ok(b"glabel f\nnop\n.late_rodata\n.word 1\n".to_vec()),
            _ => Err("there is no such file".into()),
        }
    }

    fn assemble(&mut self, text: &[u8]) -> Result<Vec<u8>, String> {
        let text = str::from_utf8(text).unwrap();
        let shift = text.split(".space ").nth(1);
        let shift: u32 = shift.map_or(0, |rest| rest.lines().next().unwrap().parse().unwrap());
        let parts = ["t", "d", "r", "b", "l"].map(|part| {
            let size = match part {
                _ if part == self.part => shift.next_multiple_of(self.align) - shift + self.alone,
                "t" => 8,
                _ => 0,
            };
            [("start", shift), ("end", shift + size)]
                .map(|(end, value)| (format!("_asmpp_{part}1_asm_{end}"), value))
        });
        let symbols: Vec<Symbol> = parts
            .iter()
            .flatten()
            .map(|(name, value)| (&name[..], ".text", *value, 1))
            .collect();
        Ok(made(&[(".text", &[0; 8])], &symbols, 1))
    }
}

fn described(source: &str, tools: &mut impl Tools) -> Result<Described, String> {
    let named = |name, bytes| Named {
        name: Path::new(name),
        bytes,
    };
    let described = of_source(
        named("f.c", source.as_bytes()),
        named("prelude", b""),
        Path::new(""),
        tools,
    );
    described.map_err(|fault| fault.to_string())
}

/// Sizes and alignments come from the assembler's labels alone.
#[test]
fn sizes_are_the_assemblers() {
    let source = "GLOBAL_ASM(\"f.s\")\n";
    let block = |part, alone, align| {
        let described = described(source, &mut Pretended { part, alone, align })?;
        let blocks = String::from_utf8(described.blocks).unwrap();
        let lines = blocks.lines().map(String::from).collect::<Vec<_>>();
        Ok::<_, String>((lines, String::from_utf8(described.source).unwrap()))
    };
    for (part, line, alone, align, expected) in [
        ("t", 1, 12, 1, "text=_asmpp_t1 12 0"),
        ("t", 1, 12, 4, "text=_asmpp_t1 12 0"),
        ("d", 2, 7, 1, "data=_asmpp_d1 7 0"),
        ("d", 2, 8, 8, "data=_asmpp_d1 8 8"),
        ("r", 3, 4, 8, "rodata=_asmpp_r1 4 8"),
        ("b", 4, 16, 16, "bss=_asmpp_b1 16 8"),
        // a dummy, and the rest; the end is made a multiple of 8
        ("l", 6, 4, 1, "dummy=e0123456"),
        ("l", 7, 4, 1, "jtbl=4"),
        ("l", 10, 4, 1, "late=.word 1"),
        ("l", 11, 4, 1, "late=.space 4"),
        ("l", 7, 24, 8, "jtbl=20"),
        ("l", 11, 24, 8, "end="),
    ] {
        let (lines, text) = block(part, alone, align).unwrap();
        assert_eq!(lines[line], expected, "{lines:?}");
        let reserved = match part {
            "l" => format!(
                ".balign 8\\n.word 0xe0123456\\n.space {}",
                alone.next_multiple_of(8) - 4
            ),
            _ => format!(
                ".balign {}\\n_asmpp_{part}1:\\n.space {alone}\\n",
                align.max(4)
            ),
        };
        assert!(text.contains(&reserved), "{text}");
    }
    for (part, alone, align, fault) in [
        (
            "t",
            6,
            1,
            "f.s: .text has 6 bytes, which are no whole words",
        ),
        (
            "t",
            0,
            1,
            "f.s: nothing here assembles to bytes outside .late_rodata",
        ),
        (
            "d",
            0,
            8,
            "f.s: .data asks for an alignment, and has no bytes",
        ),
        (
            "r",
            1_048_577,
            1,
            "f.s: .rodata has more than 1048576 bytes",
        ),
        (
            "l",
            u32::MAX - 20,
            1,
            "f.s: .late_rodata has more than 1048576 bytes",
        ),
        ("d", 4, 32, "f.s: .data asks for an alignment over 16"),
        ("l", 4, 16, "f.s: .late_rodata asks for an alignment over 8"),
    ] {
        assert_eq!(block(part, alone, align), Err(fault.into()));
    }
}

/// All lines keep their numbers, and what is no routine stays as it is.
#[test]
fn lines_keep_their_numbers() {
    let mut tools = Pretended {
        part: "t",
        alone: 4,
        align: 1,
    };
    let inner = "int a;\n#pragma GLOBAL_ASM(\nglabel f\nnop\n)\nint b;";
    let described = described(inner, &mut tools).unwrap();
    let text = String::from_utf8(described.source).unwrap();
    let lines: Vec<_> = text.lines().collect();
    let placeholder = "__asm__(\".pushsection .text\\n.balign 4\\n_asmpp_t1:\\n.space 4\\n\
                       .size _asmpp_t1, 4\\n.popsection\");";
    let expected = [
        "#line 1 \"f.c\"",
        "int a;",
        placeholder,
        "",
        "",
        "",
        "int b;",
    ];
    assert_eq!(lines, expected);
    assert_eq!(described.files, [""; 0].map(PathBuf::from));
    let blocks = String::from_utf8(described.blocks).unwrap();
    assert!(
        blocks.starts_with("desc=f.c:2\ntext=_asmpp_t1 4 0\n"),
        "{blocks}"
    );
    assert!(
        blocks.contains("\nglabel=f\njtbl=0\nasm=glabel f\nasm=nop\nend=\n"),
        "{blocks}"
    );

    // a source without routines asks no assembler
    let plain = "int GLOBAL_ASM_count;\r\nint MY_GLOBAL_ASM(int);\n";
    let described = self::described(plain, &mut tools).unwrap();
    assert_eq!(described.blocks, b"");
    let text = String::from_utf8(described.source).unwrap();
    assert_eq!(text, format!("#line 1 \"f.c\"\n{plain}"));
}

#[test]
fn a_fault_of_a_source_names_its_line() {
    let mut tools = Pretended {
        part: "t",
        alone: 4,
        align: 1,
    };
    const FORM: &str = "this is neither GLOBAL_ASM(\"PATH\") nor GLOBAL_ASM( alone on its line";
    for (source, fault) in [
        ("\nGLOBAL_ASM(f.s)\n", format!("f.c:2: {FORM}")),
        ("GLOBAL_ASM(\"\")\n", format!("f.c:1: {FORM}")),
        (
            "GLOBAL_ASM(\"a\") GLOBAL_ASM(\"b\")\n",
            format!("f.c:1: {FORM}"),
        ),
        (
            "GLOBAL_ASM(\nnop\n",
            "f.c:1: no line behind this begins with `)`".into(),
        ),
        (
            "GLOBAL_ASM(\nnop\n.previous\n)\n",
            "f.c:3: .previous is not followed here: name the section with .section".into(),
        ),
        (
            "GLOBAL_ASM(\"g.s\")\n",
            "f.c:1: there is no such file".into(),
        ),
    ] {
        assert_eq!(described(source, &mut tools), Err(fault));
    }
}

/// Whatever the bytes are, there is an answer.
#[test]
fn noise() {
    struct Anything(Vec<u8>);
    impl Tools for Anything {
        fn read(&mut self, _: &Path) -> Result<Vec<u8>, String> {
            Ok(self.0.clone())
        }
        fn assemble(&mut self, _: &[u8]) -> Result<Vec<u8>, String> {
            Ok(self.0.clone())
        }
    }
    const PIECES: [&[u8]; 24] = [
        b"GLOBAL_ASM(",
        b"GLOBAL_ASM(\"",
        b"\")",
        b")",
        b"#pragma ",
        b"\n",
        b"\r\n",
        b"/*",
        b"*/",
        b"\"",
        b"\\",
        b";",
        b"#",
        b"x:",
        b".section ",
        b".late_rodata",
        b".text",
        b"glabel ",
        b" text l 4 ",
        b" late e0123456",
        b" jtbl 4294967295",
        b"\xff\0",
        b" ",
        b"\x7fELF\x01\x02\x01",
    ];
    let mut state = 1_u64;
    let mut next = || {
        state = state.wrapping_mul(6364136223846793005).wrapping_add(1);
        (state >> 33) as usize
    };
    let mut text = |most: usize| -> Vec<u8> {
        let pieces = (0..next() % most).map(|_| PIECES[next() % PIECES.len()]);
        pieces.collect::<Vec<_>>().concat()
    };
    let mut accepted = 0;
    for _ in 0..20_000 {
        let (source, file) = (text(24), text(16));
        let named = |bytes| Named {
            name: Path::new("n"),
            bytes,
        };
        let tools = &mut Anything(file);
        let of_source = of_source(named(&source), named(b""), Path::new(""), tools);
        let of_spans = of_spans(named(&source), Path::new(""), tools);
        accepted += usize::from(of_source.is_ok()) + usize::from(of_spans.is_ok());
        for fault in [of_source.err(), of_spans.err()].into_iter().flatten() {
            assert!(!fault.words.is_empty());
        }
    }
    assert!(accepted > 1000, "{accepted}");
}

/// Of every kind of directive, with alignments that the assembler makes by itself and ones that are
/// asked for, behind parts of odd sizes.
#[test]
fn what_is_measured_is_merged() {
    if !has_tools() {
        return;
    }
    let folder = Folder::new();
    let first = "glabel first /* .data */\n    lui $t1, %hi(first_real)\n    jr $ra ; nop\n\
                 .rdata\nglabel first_text\n.asciz \"; .late_rodata # \\\"\"\n.data\n\
                 glabel first_bytes\n.byte 1, 2, 3\n.late_rodata\n.late_rodata_alignment 4\n\
                 glabel first_float\n.float 1.5\n.bss\nglabel first_space\n.space 3\n";
    let second = "glabel second\n    jr $ra\n    nop\n.align 4\nglabel second_entry\n    nop\n\
                  .section .rodata, \"a\"\nglabel second_real\n.double 2.5\n.half 7\n\
                  .section .data\n.byte 9\n.balign 16\nglabel second_words\n.word 1, first\n\
                  .section .late_rodata\nglabel second_late\n.float 0.5\nglabel second_double\n\
                  .double 3.25\nglabel second_cases\n.word .Lone, .Ltwo\n.text\n.Lone:\n    nop\n\
                  .Ltwo:\n    lui $t0, %hi(second_cases)\n.bss\nglabel second_space\n.space 16\n";
    let third = ".data\nglabel third_blob\n.incbin \"third.s\", 0, 6\n";
    write(&folder, "first.s", first);
    write(&folder, "second.s", second);
    write(&folder, "third.s", third);
    let source = "extern const char first_text[];\nint before(int x) { return x + 1; }\n\
                  char odd_data = 1;\nchar odd_bss;\nconst char odd_text[] = \"odd\";\n\
                  GLOBAL_ASM(\"first.s\")\nconst char *between(void) { return first_text; }\n\
                  #pragma GLOBAL_ASM(\"second.s\")\nchar odd_too = 2;\n\
                  GLOBAL_ASM(\"third.s\");\nconst char last[] = \"last\";\n\
                  double scaled(double x) { return x * 7.25; }\n\
                  int chosen(int x) { switch (x) { case 0: return 5; case 1: return 9; \
                  case 2: return 4; case 3: return 1; case 4: return 77; case 5: return x * x; \
                  default: return 0; } }\n";
    write(&folder, "f.c", source);
    for level in ["-O0", "-O2", "-O2 -fno-toplevel-reorder", "-Os"] {
        splice(&folder, level);
        let values = values(&folder, "m.o");
        let at = |name: &str| values[name];
        assert_eq!(at("second_real") % 8, 0, "{level}");
        assert_eq!(at("second_double") % 8, 0, "{level}");
        assert_eq!(at("second_words") % 16, 0, "{level}");
        assert_eq!(at("second_entry") % 16, 0, "{level}");
        // what stands behind each other in the source does so in the object
        let order = [at("before"), at("first"), at("between"), at("second")];
        let is_kept = order.is_sorted();
        assert!(
            is_kept || !level.contains("-fno-toplevel-reorder"),
            "{level}"
        );
        assert!(!values.keys().any(|name| name.starts_with("_asmpp_")));
    }
}

/// Where the preprocessor leaves a routine out, its late words go too.
#[test]
fn a_routine_that_is_left_out() {
    if !has_tools() {
        return;
    }
    let folder = Folder::new();
    let source = "#ifndef IN_C\nGLOBAL_ASM(\nglabel f\n    jr $ra\n    nop\n.late_rodata\n\
                  glabel f_late\n.word 7\n)\n#else\nint f(void);\nint f(void) { return 1; }\n\
                  #endif\nconst int kept[1] = {0x12345};\n";
    write(&folder, "f.c", source);
    splice(&folder, "-fno-toplevel-reorder");
    // the late word stands behind what C has, at a multiple of 8
    let rodata = |object: &str| {
        let line = format!("mips-linux-gnu-objcopy -O binary -j .rodata {object} rodata");
        run(&folder, &line);
        let bytes = fs::read(folder.path().join("rodata")).unwrap();
        let end = bytes.iter().rposition(|byte| *byte != 0).unwrap();
        bytes[..=end].to_vec()
    };
    let kept = [0, 1, 0x23, 0x45];
    assert_eq!(rodata("m.o"), [&kept[..], &[0; 7], &[7]].concat());
    run(&folder, &format!("{COMPILE} -DIN_C"));
    assert_eq!(rodata("c.o"), kept);
    let words = ["draft", "c.o", "--blocks", "b", "-o", "a.s"];
    let note = "c.o: note: block 0 (f.c:2): no symbol _asmpp_t1, the rest of the block is left out";
    let output = run_command(&folder, &words);
    assert_eq!(ended(&output), (0, &b""[..], &format!("{note}\n")[..]));
}

/// The assembler's own messages name the lines of the files; a routine sees what the one before
/// defined, as in the draft.
#[test]
fn what_the_assembler_refuses() {
    if !has_tools() {
        return;
    }
    let folder = Folder::new();
    write(
        &folder,
        "f.c",
        "int a;\nGLOBAL_ASM(\"f.s\")\nGLOBAL_ASM(\nlw\n)\n",
    );
    write(
        &folder,
        "f.s",
        "nop\n.data\n.word 1\n.text\nnop\nbogus $1\n",
    );
    let (status, error) = blocks(&folder, &["--as", ASSEMBLE]);
    assert_eq!(status, 2);
    assert!(error.contains("\nf.s:6: Error: "), "{error}");
    assert!(error.contains("\nf.c:4: Error: "), "{error}");
    assert!(
        error.ends_with(&format!("\ndaphulle: \"{ASSEMBLE}\" failed\n")),
        "{error}"
    );
    assert_eq!(folder.names(), ["f.c", "f.s"]);

    write(&folder, "f.c", "GLOBAL_ASM(\"f.s\")\nGLOBAL_ASM(\"f.s\")\n");
    write(&folder, "f.s", "glabel f\nnop\n");
    let (status, error) = blocks(&folder, &["--as", ASSEMBLE]);
    assert_eq!(status, 2);
    assert!(
        error.contains("symbol `f' is already defined\nf.s:1: "),
        "{error}"
    );

    write(&folder, "f.c", "GLOBAL_ASM(\"f.s\")\n");
    let little = blocks(&folder, &["--as", "mips-linux-gnu-as -EL"]);
    let unreadable = "f.c: the assembler's object cannot be read: it must be ELF, 32-bit and \
                      big-endian (GNU as: -EB)\n";
    assert_eq!(little, (2, unreadable.into()));
    write(&folder, "f.s", "nop\n.sdata\n.word 1\n");
    let elsewhere = "f.c: the routines have bytes in section .sdata, which is none of .text, \
                     .data, .rodata, .bss and .late_rodata\n";
    assert_eq!(blocks(&folder, &["--as", ASSEMBLE]), (2, elsewhere.into()));

    // a prelude of the user's, for the sizes too
    write(&folder, "f.s", "two\n");
    let prelude =
        ".macro two\nnop\nnop\n.endm\n.macro glabel label\n.global \\label\n\\label:\n.endm\n";
    write(&folder, "p", prelude);
    let made = blocks(
        &folder,
        &["--as", ASSEMBLE, "--prelude", "p", "--deps", "a $b#d"],
    );
    assert_eq!(made, (0, "".into()));
    assert!(text_of(&folder, "b").contains("\ntext=_asmpp_t1 8 0\n"));
    assert_eq!(
        text_of(&folder, "a $b#d"),
        "b: f.c p f.s\n\nf.c:\n\np:\n\nf.s:\n"
    );
}

/// The command that stands for an assembler is the shell's; without `--as` it is `AS`.
#[test]
fn an_assembler_that_makes_nothing() {
    let folder = Folder::new();
    write(&folder, "f.c", "GLOBAL_ASM(\nnop\n)\n");
    let failed = blocks(&folder, &["--as", "echo x: no >&2; false"]);
    let message = "x: no\ndaphulle: \"echo x: no >&2; false\" failed\n";
    assert_eq!(failed, (2, message.into()));
    let (status, error) = blocks(&folder, &["--as", ":"]);
    assert_eq!(status, 2);
    assert!(
        error.starts_with("daphulle: \":\" made nothing: "),
        "{error}"
    );
    let output = std::process::Command::new(common::command::COMMAND)
        .args(["blocks", "f.c", "--placeholders", "t.c", "-o", "b"])
        .env("AS", "echo mine >&2; false")
        .current_dir(folder.path())
        .output()
        .unwrap();
    let (status, _, error) = ended(&output);
    assert_eq!(status, 2);
    assert!(error.starts_with("mine\n"), "{error}");
    assert_eq!(folder.names(), ["f.c"]);
}
