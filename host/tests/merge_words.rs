//! The line of every refusal that only a merge can give, on small inputs.

mod common;

use common::{Symbol, debug_section, made, patched, section_field, words};
use daphulle::{ConvertStatics, Merge, merge};

/// Two objects and a block file that merge, until something is changed.
struct Parts {
    c: Vec<(&'static str, Vec<u8>)>,
    c_symbols: Vec<Symbol<'static>>,
    a: Vec<(&'static str, Vec<u8>)>,
    a_symbols: Vec<Symbol<'static>>,
    a_locals: u32,
    blocks: String,
    mode: ConvertStatics,
    drops: bool,
}

/// A block with four bytes of .text at 8, two late words and a jump table of two words.
fn parts() -> Parts {
    let late = [words(&[0xe012_3456, 0xe012_3457]), vec![0; 8]].concat();
    Parts {
        c: vec![
            (".text", vec![0; 16]),
            (".rodata", late),
            (".reginfo", vec![0; 24]),
        ],
        c_symbols: vec![("_asmpp_t1", ".text", 8, 1)],
        a: vec![
            (".text", vec![1; 12]),
            (".late_rodata", vec![2; 24]),
            (".reginfo", vec![0; 24]),
        ],
        a_symbols: vec![
            ("_asmpp_t1_asm_start", ".text", 8, 1),
            ("_asmpp_t1_asm_end", ".text", 12, 1),
            ("_asmpp_late_rodata_start", ".late_rodata", 8, 1),
            ("_asmpp_late_rodata_end", ".late_rodata", 24, 1),
            ("constant", ".late_rodata", 8, 1),
        ],
        a_locals: 1,
        blocks: "desc=one\ntext=_asmpp_t1 4 0\ndata=\nrodata=\nbss=\ndummy=e0123456\n\
                 dummy=e0123457\njtbl=8\nend=\n"
            .into(),
        mode: ConvertStatics::Local,
        drops: false,
    }
}

impl Parts {
    fn object(sections: &[(&str, Vec<u8>)], symbols: &[Symbol], locals: u32) -> Vec<u8> {
        let sections: Vec<_> = sections
            .iter()
            .map(|(name, bytes)| (*name, &bytes[..]))
            .collect();
        made(&sections, symbols, locals)
    }

    fn compiled(&self) -> Vec<u8> {
        Parts::object(&self.c, &self.c_symbols, 1)
    }

    /// The line of its refusal.
    fn line(&self) -> String {
        self.line_with(&self.compiled())
    }

    fn line_with(&self, compiled: &[u8]) -> String {
        let result = merge(&Merge {
            compiled,
            assembled: &Parts::object(&self.a, &self.a_symbols, self.a_locals),
            blocks: self.blocks.as_bytes(),
            path: b"c.o",
            drop_mdebug_gptab: self.drops,
            convert_statics: self.mode,
        });
        result.map_or_else(|error| common::line(&error), |_| "merged".into())
    }
}

type Change = fn(&mut Parts);

/// Checks the lines of changed parts.
fn check(refusals: &[(Change, &str)]) {
    assert_eq!(parts().line(), "merged");
    for (change, line) in refusals {
        let mut parts = parts();
        change(&mut parts);
        assert_eq!(parts.line(), *line);
    }
}

fn relocation(offset: u32, symbol: u32) -> Vec<u8> {
    words(&[offset, symbol << 8 | 2])
}

#[test]
fn number_1_names_the_file_and_the_path() {
    let (compiled, blocks) = (parts().compiled(), parts().blocks);
    let long = vec![b'x'; 1_048_577];
    let line = |assembled: &[u8], path: &[u8]| {
        let result = merge(&Merge {
            compiled: &compiled,
            assembled,
            blocks: blocks.as_bytes(),
            path,
            drop_mdebug_gptab: false,
            convert_statics: ConvertStatics::No,
        });
        common::line(&result.unwrap_err())
    };
    for (assembled, path, expected) in [
        (
            &long[..],
            &b"c.o"[..],
            "a.o: refused 1 0 0: the assembled object has more than 1048576 bytes",
        ),
        (
            b"",
            &long[..256],
            "c.o: refused 1 0 0: the path has 256 bytes, it may have 255",
        ),
        (
            b"",
            "é.o".as_bytes(),
            "c.o: refused 1 0 0: byte 0 of the path is 195, it must be from 1 to 127",
        ),
        (
            b"",
            b"c\0",
            "c.o: refused 1 0 0: byte 1 of the path is 0, it must be from 1 to 127",
        ),
        // A is read behind C and the block file
        (
            b"",
            &long[..255],
            "a.o: refused 2 2 0: the assembled object has 0 bytes, and its file header alone takes 52",
        ),
    ] {
        assert_eq!(line(assembled, path), expected);
    }
}

#[test]
fn number_10_names_the_table() {
    check(&[
        (
            |parts| {
                parts
                    .c
                    .extend([(".pdr", vec![0; 4]), (".rel.pdr", relocation(0, 1))])
            },
            "c.o: refused 10 1 5: section 5 (`.rel.pdr`) of the compiled object: it has relocations for \
             section 4 (`.pdr`), and only those for the first .text, .data, .rodata and .bss can be \
             carried",
        ),
        (
            |parts| {
                parts.c.push((".gptab", vec![0; 8]));
                parts.c.push((".rel.gptab", vec![]));
                parts.drops = true;
            },
            "c.o: refused 10 1 4: section 4 (`.rel.gptab`) of the compiled object: it is for section 8 \
             (`.gptab`), which is dropped",
        ),
        (
            |parts| {
                parts.c.push((".gptab", vec![0; 8]));
                parts.c_symbols.push(("far", ".gptab", 0, 1));
                parts.drops = true;
            },
            "c.o: refused 10 1 7: section 7 (`.gptab`) of the compiled object: it is dropped, and symbol \
             2 (`far`) of the compiled object is in it",
        ),
    ]);
    // the table of that name is for another section, or of another type
    let mut parts = parts();
    parts.c.push((".rel.rodata", vec![]));
    parts.a.push((".rel.late_rodata", relocation(8, 5)));
    let compiled = parts.compiled();
    assert_eq!(parts.line(), "merged");
    let sh_info = section_field(&compiled, 4, "sh_info");
    assert_eq!(
        parts.line_with(&patched(&compiled, sh_info, &words(&[1]))),
        "c.o: refused 10 1 4: section 4 (`.rel.rodata`) of the compiled object: the assembled object's \
         relocations for .late_rodata join it, but its sh_info is 1, and .rodata is section 2"
    );
    let sh_type = section_field(&compiled, 4, "sh_type");
    assert_eq!(
        parts.line_with(&patched(&compiled, sh_type, &words(&[1]))),
        "c.o: refused 10 1 4: section 4 (`.rel.rodata`) of the compiled object: the assembled object's \
         relocations for .late_rodata join it, but its sh_type is 0x1, theirs 0x9"
    );
}

#[test]
fn number_11_names_what_is_missing() {
    check(&[
        (
            |parts| parts.c[0].1.truncate(10),
            "c.o: refused 11 1 1: block 0 (`one`), `text=_asmpp_t1`: it ends at 12, past the end of the \
             compiled object's .text, 10",
        ),
        (
            |parts| parts.a[0].1.truncate(11),
            "a.o: refused 11 2 1: block 0 (`one`), `text=_asmpp_t1`: it ends at 12, past the end of the \
             assembled object's .text, 11",
        ),
        (
            |parts| parts.c_symbols[0].2 = 6,
            "c.o: refused 11 1 1: block 0 (`one`), `text=_asmpp_t1`: its place 6 is no multiple of 4",
        ),
        (
            |parts| parts.blocks = parts.blocks.replace("t1 4 0", "t1 3 0"),
            "c.o: refused 11 1 1: block 0 (`one`), `text=_asmpp_t1`: its size 3 is no multiple of 4",
        ),
        (
            |parts| parts.blocks = parts.blocks.replace("bss=", "bss=_asmpp_t1 4 0"),
            "a.o: refused 11 2 4: block 0 (`one`), `bss=_asmpp_t1`: the assembled object has no .bss",
        ),
        (
            |parts| parts.blocks = parts.blocks.replace("\ndata=", "\ndata=_asmpp_t1 4 0"),
            "c.o: refused 11 1 2: block 0 (`one`), `data=_asmpp_t1`: the compiled object has no .data",
        ),
        (
            |parts| drop(parts.a.remove(1)),
            "a.o: refused 11 2 5: block 0 (`one`) has late words or a jump table, and the assembled \
             object has no .late_rodata",
        ),
        (
            |parts| drop(parts.c.remove(1)),
            "c.o: refused 11 1 3: block 0 (`one`) has late words or a jump table, and the compiled \
             object has no .rodata",
        ),
        (
            |parts| drop(parts.a.remove(2)),
            "a.o: refused 11 2 6: the compiled object has a .reginfo, and the assembled object has none",
        ),
        (
            |parts| parts.a.push((".data", vec![0; 3])),
            "c.o: refused 11 1 2: the compiled object has no .data, and the assembled object's .data has \
             3 bytes for it",
        ),
    ]);
}

#[test]
fn number_12_names_the_label() {
    check(&[
        (
            |parts| parts.a_symbols[0].0 = "other",
            "a.o: refused 12 2 0: block 0 (`one`), `text=_asmpp_t1`: the assembled object has no symbol \
             `_asmpp_t1_asm_start`",
        ),
        (
            |parts| parts.a_symbols[0].2 = 4,
            "a.o: refused 12 2 0: block 0 (`one`), `text=_asmpp_t1`: `_asmpp_t1_asm_start` of the \
             assembled object is at 4, it must be at 8",
        ),
        (
            |parts| parts.a_symbols[1].1 = ".reginfo",
            "a.o: refused 12 2 0: block 0 (`one`), `text=_asmpp_t1`: `_asmpp_t1_asm_end` of the \
             assembled object is in section 3 (`.reginfo`), it must be in .text",
        ),
        (
            |parts| parts.a_symbols[1].1 = "",
            "a.o: refused 12 2 0: block 0 (`one`), `text=_asmpp_t1`: `_asmpp_t1_asm_end` of the \
             assembled object is undefined, it must be in .text",
        ),
    ]);
}

#[test]
fn number_13_names_the_late_labels() {
    check(&[
        (
            |parts| parts.a_symbols[2].0 = "other",
            "a.o: refused 13 2 0: the assembled object has no symbol `_asmpp_late_rodata_start`",
        ),
        (
            |parts| parts.a_symbols[3].1 = ".text",
            "a.o: refused 13 2 0: `_asmpp_late_rodata_end` of the assembled object is in section 1 \
             (`.text`), it must be in .late_rodata",
        ),
        (
            |parts| parts.a_symbols[3].2 = 20,
            "a.o: refused 13 2 0: the late words of the assembled object are from 8 to 20 of \
             .late_rodata, and the dummies and jump tables of the block file ask for 16 bytes",
        ),
        (
            |parts| parts.a[1].1.truncate(23),
            "a.o: refused 13 2 0: the late words of the assembled object end at 24, past the end of \
             .late_rodata, 23",
        ),
    ]);
}

#[test]
fn number_14_names_the_dummy() {
    check(&[
        (
            |parts| parts.c[1].1[7] = 0,
            "c.o: refused 14 1 0: block 0 (`one`): dummy e0123457 is not in the compiled object's .rodata \
             from 4 on",
        ),
        (
            |parts| parts.c[1].1 = words(&[0, 0, 0xe012_3456]),
            "c.o: refused 14 1 0: block 0 (`one`): behind dummy e0123456 at 8 of the compiled object's \
             .rodata are fewer than 4 bytes",
        ),
        (
            |parts| parts.c[1].1.truncate(15),
            "c.o: refused 14 1 0: block 0 (`one`): its jump table from 8 to 16 passes the end of the \
             compiled object's .rodata, 15",
        ),
        (
            |parts| {
                parts.blocks = parts.blocks.replace("dummy=e0123456\ndummy=e0123457\n", "");
                parts.a_symbols[3].2 = 16;
            },
            "c.o: refused 14 1 0: block 0 (`one`): it has a jump table and no dummy before it",
        ),
    ]);
}

#[test]
fn numbers_15_and_16_name_the_symbol() {
    check(&[
        (
            |parts| parts.a_symbols.push(("here", ".reginfo", 0, 1)),
            "a.o: refused 15 2 6: symbol 6 (`here`) of the assembled object: it is in section 3 \
             (`.reginfo`), it must be in the first .text, .data, .rodata, .bss or .late_rodata, \
             absolute or undefined",
        ),
        (
            |parts| {
                parts.a.push((".bss", vec![0; 4]));
                parts.a_symbols.push(("here", ".bss", 0, 1));
            },
            "a.o: refused 15 2 6: symbol 6 (`here`) of the assembled object: it is in .bss, and the \
             compiled object has no .bss",
        ),
        (
            |parts| parts.a.push((".rel.text", relocation(8, 1))),
            "a.o: refused 15 2 1: symbol 1 (`_asmpp_t1_asm_start`) of the assembled object: a relocation \
             uses it, and its name begins with `_asmpp_`",
        ),
        (
            |parts| parts.a_symbols[4].2 = 9,
            "a.o: refused 16 2 5: symbol 5 (`constant`) of the assembled object: it is at 9 of \
             .late_rodata, where no late word starts",
        ),
        (
            |parts| {
                parts.a_symbols.insert(0, ("", ".late_rodata", 0, 0));
                parts.a_locals = 2;
                parts.a.push((".rel.text", relocation(8, 1)));
            },
            "a.o: refused 16 2 1: symbol 1 of the assembled object: it is at 0 of .late_rodata, where no \
             late word starts (labels of late words must be global)",
        ),
    ]);
}

/// Entries of a debug section (value, type, storage class) in front of C's other sections.
fn with_debug(parts: &mut Parts, entries: &[(u32, u32, u32)], names: &[u8]) {
    parts
        .c
        .insert(0, (".mdebug", debug_section(entries, names)));
}

#[test]
fn number_17_names_the_entry() {
    check(&[
        (|parts| with_debug(parts, &[(4, 2, 1)], b"n\0"), "merged"),
        (
            |parts| with_debug(parts, &[(4, 2, 1), (4, 2, 5)], b"n\0"),
            "c.o: refused 17 1 1: the debug section of the compiled object: entry 1: its static (`n`) has \
             storage class 5, no section's",
        ),
        (
            |parts| with_debug(parts, &[(4, 2, 3)], b"n\0"),
            "c.o: refused 17 1 0: the debug section of the compiled object: entry 0: its static (`n`) is \
             in .bss, which is not there",
        ),
        (
            |parts| with_debug(parts, &[(4, 2, 1)], &[b'n'; 1025]),
            "c.o: refused 17 1 0: the debug section of the compiled object: entry 0: the name at 232 has \
             1025 bytes, it may have 1024",
        ),
        (
            |parts| with_debug(parts, &[(0, 6, 0), (0, 6, 0), (0, 8, 0)], b"n\0"),
            "c.o: refused 17 1 3: the debug section of the compiled object: file 0 ends at scope level 1, \
             not at 0",
        ),
        (
            |parts| with_debug(parts, &vec![(4, 2, 1); 4097], b"n\0"),
            "c.o: refused 17 1 4096: the debug section of the compiled object: entry 4096: its static \
             (`n`) is one more than 4096",
        ),
        (
            |parts| parts.c.push((".mdebug", vec![0; 79])),
            "c.o: refused 17 1 0: the debug section of the compiled object: its header is cut off at 79 \
             bytes",
        ),
    ]);
    // nothing is read in mode no, but the section moves
    let mut parts = parts();
    parts.mode = ConvertStatics::No;
    parts.c.push((".mdebug", vec![0; 96]));
    let (compiled, headers) = (parts.compiled(), 40 * 8);
    let moved = [
        &compiled[..compiled.len() - headers],
        &[0; 4],
        &compiled[compiled.len() - headers..],
    ];
    let (mut moved, at) = (moved.concat(), section_field(&compiled, 4, "sh_offset"));
    let end = (moved.len() - headers) as u32;
    moved[32..36].copy_from_slice(&words(&[end]));
    let offset = u32::from_be_bytes(compiled[at..at + 4].try_into().unwrap());
    let moved = patched(&moved, at + 4, &words(&[offset + 4]));
    assert_eq!(
        parts.line_with(&moved),
        "c.o: refused 17 1 0: section 4 (`.mdebug`) of the compiled object moves, and does not begin with \
         a debug header: 96 bytes and magic 7009 hex"
    );
}

#[test]
fn numbers_18_and_19_name_the_symbols() {
    check(&[
        (
            |parts| parts.c_symbols.push(("lost", "", 0, 0)),
            "c.o: refused 18 0 1: symbol 2 (`lost`) of the compiled object is local and undefined",
        ),
        (
            |parts| parts.a_symbols.push(("", ".text", 0, 1)),
            "a.o: refused 18 0 1: symbol 6 of the assembled object has no name and is not local",
        ),
        (
            |parts| {
                with_debug(parts, &[(4, 2, 1)], b"\0");
                parts.mode = ConvertStatics::Global;
            },
            "c.o: refused 18 0 1: static 0 of the compiled object has no name and is not local",
        ),
        (
            |parts| {
                parts.c_symbols.push(("one", ".text", 4, 1));
                parts.a_symbols.push(("one", ".text", 8, 1));
            },
            "a.o: refused 19 0 2: one name at two places: symbol 2 (`one`) of the compiled object is at \
             4, in section 1 (`.text`); symbol 6 (`one`) of the assembled object is at 8, in section \
             1 (`.text`)",
        ),
        (
            // a late word stands at another place in C
            |parts| parts.c_symbols.push(("constant", ".rodata", 8, 1)),
            "a.o: refused 19 0 1: one name at two places: symbol 2 (`constant`) of the compiled object is \
             at 8, in section 2 (`.rodata`); symbol 5 (`constant`) of the assembled object is at 0, \
             in section 2 (`.rodata`)",
        ),
        (
            |parts| {
                with_debug(parts, &[(4, 2, 1)], b"n\0");
                parts.c_symbols.push(("n", ".text", 0, 1));
            },
            "c.o: refused 19 0 2: one name at two places: symbol 2 (`n`) of the compiled object is at 0, \
             in section 2 (`.text`); static 0 (`n`) of the compiled object is at 4, in section 2 \
             (`.text`)",
        ),
    ]);
}

#[test]
fn number_20_names_the_relocation() {
    check(&[
        // a replaced word and a word of a jump table may use a name that goes
        (
            |parts| {
                parts.c.push((".rel.text", relocation(8, 1)));
                parts.c.push((".rel.rodata", relocation(12, 1)));
            },
            "merged",
        ),
        (
            |parts| parts.c.push((".rel.text", relocation(4, 1))),
            "c.o: refused 20 1 4: section 4 (`.rel.text`) of the compiled object: its relocation at 4 uses \
             symbol 1 (`_asmpp_t1`) of the compiled object, which is not in the result",
        ),
        (
            |parts| parts.a.push((".rel.text", relocation(4, 9))),
            "a.o: refused 20 2 4: section 4 (`.rel.text`) of the assembled object: its relocation at 4 \
             uses symbol 9 of the assembled object, which is not in the result",
        ),
        (
            |parts| parts.a.push((".rel.late_rodata", relocation(4, 5))),
            "a.o: refused 20 2 4: section 4 (`.rel.late_rodata`) of the assembled object: its relocation \
             at 4 is at no late word that moves",
        ),
    ]);
}
