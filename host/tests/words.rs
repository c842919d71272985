//! The line of every refusal that a draft can give, on small inputs, and the words of any refusal
//! that the inputs do not show.

mod common;

use common::{Case, block, known_case, known_merge, object, patched, section_field, with_field};
use daphulle::{Asked, Draft, Inputs, Number, Object, Refusal, draft, words};

/// Checks the line of each refusal: compiled object, block file, line.
fn check(refusals: &[(Vec<u8>, &[u8], &str)]) {
    for (compiled, blocks, line) in refusals {
        match draft(compiled, b"", blocks) {
            Err(error) => assert_eq!(common::line(&error), *line),
            other => panic!("{other:?} where this was expected: {line}"),
        }
    }
}

/// Checks the lines of objects alone.
fn check_objects(refusals: &[(Vec<u8>, &str)]) {
    for (compiled, line) in refusals {
        check(&[(compiled.clone(), b"", line)]);
    }
}

#[test]
fn number_1_names_the_input() {
    let Case {
        compiled,
        prelude,
        blocks,
    } = known_case();
    let long = vec![0; 1_048_577];
    for (files, line) in [
        (
            [&long, &prelude, &blocks],
            "c.o: refused 1 0 0: the compiled object has more than 1048576 bytes",
        ),
        (
            [&compiled, &long, &blocks],
            "prelude: refused 1 0 0: the prelude has more than 1048576 bytes",
        ),
        (
            [&compiled, &prelude, &long],
            "blocks: refused 1 0 0: the block file has more than 1048576 bytes",
        ),
    ] {
        let refused = draft(files[0], files[1], files[2]).unwrap_err();
        assert_eq!(common::line(&refused), line);
    }
}

#[test]
fn number_2_names_the_field() {
    let sound = object(&[]);
    let with = |at, bytes: &[u8]| patched(&sound, at, bytes);
    check_objects(&[
        (
            vec![],
            "c.o: refused 2 1 0: the compiled object has 0 bytes, and its file header alone takes 52",
        ),
        (
            sound[..51].to_vec(),
            "c.o: refused 2 1 51: the compiled object has 51 bytes, and its file header alone takes 52",
        ),
        (
            with(0, b"#"),
            "c.o: refused 2 1 0: EI_MAG0 of the compiled object is 35, it must be 127 (7F hex)",
        ),
        (
            with(1, b"e"),
            "c.o: refused 2 1 1: EI_MAG1 of the compiled object is 101, it must be 69 (E)",
        ),
        (
            with(2, b"l"),
            "c.o: refused 2 1 2: EI_MAG2 of the compiled object is 108, it must be 76 (L)",
        ),
        (
            with(3, b"f"),
            "c.o: refused 2 1 3: EI_MAG3 of the compiled object is 102, it must be 70 (F)",
        ),
        (
            with(4, &[2]),
            "c.o: refused 2 1 4: EI_CLASS of the compiled object is 2, it must be 1 (ELFCLASS32)",
        ),
        (
            with(5, &[1]),
            "c.o: refused 2 1 5: EI_DATA of the compiled object is 1, it must be 2 (big-endian)",
        ),
        (
            with(16, &[0, 2]),
            "c.o: refused 2 1 16: e_type of the compiled object is 2, it must be 1 (ET_REL)",
        ),
        (
            with(18, &[0, 62]),
            "c.o: refused 2 1 18: e_machine of the compiled object is 62, it must be 8 (EM_MIPS)",
        ),
        (
            with(28, &[0, 0, 0, 52]),
            "c.o: refused 2 1 28: e_phoff of the compiled object is 52, it must be 0",
        ),
        (
            with(32, &[0; 4]),
            "c.o: refused 2 1 32: e_shoff of the compiled object is 0, it must not be",
        ),
        (
            with(46, &[0, 64]),
            "c.o: refused 2 1 46: e_shentsize of the compiled object is 64, it must be 40",
        ),
        (
            with(50, &[0, 0]),
            "c.o: refused 2 1 50: e_shstrndx of the compiled object is 0, it must not be",
        ),
    ]);
}

#[test]
fn number_3_names_the_section() {
    let sound = object(&[]);
    let with = |index, field, value| with_field(&sound, index, field, value);
    check_objects(&[
        (
            patched(&sound, 48, &[0, 0]),
            "c.o: refused 3 1 0: the compiled object has 0 sections (e_shnum), it may have 1 to 128",
        ),
        (
            patched(&sound, 48, &[0, 129]),
            "c.o: refused 3 1 0: the compiled object has 129 sections (e_shnum), it may have 1 to 128",
        ),
        (
            patched(&sound, 48, &[0, 6]),
            "c.o: refused 3 1 5: section 5 of the compiled object: its header lies outside the file",
        ),
        (
            with(0, "sh_type", 1),
            "c.o: refused 3 1 0: section 0 of the compiled object: sh_type is 1, it must be 0 there",
        ),
        (
            with(0, "sh_size", 8),
            "c.o: refused 3 1 0: section 0 of the compiled object: sh_size is 8, it must be 0 there",
        ),
        (
            with(1, "sh_type", 0),
            "c.o: refused 3 1 1: section 1 (`.text`) of the compiled object: sh_type is 0, which is for \
             section 0 alone",
        ),
        (
            with(1, "sh_flags", 0x86),
            "c.o: refused 3 1 1: section 1 (`.text`) of the compiled object: sh_flags has SHF_LINK_ORDER",
        ),
        (
            with(1, "sh_entsize", 5),
            "c.o: refused 3 1 1: section 1 (`.text`) of the compiled object: sh_size 16 is no multiple of \
             sh_entsize 5",
        ),
        (
            with(1, "sh_size", 0xffff_ffff),
            "c.o: refused 3 1 1: section 1 (`.text`) of the compiled object: sh_size 4294967295 at \
             sh_offset 52 passes the file's end, 325",
        ),
        (
            with(1, "sh_addralign", 131_072),
            "c.o: refused 3 1 1: section 1 (`.text`) of the compiled object: sh_addralign is 131072, it \
             may be 65536 at most",
        ),
        (
            with(1, "sh_type", 8),
            "c.o: refused 3 1 1: section 1 (`.text`) of the compiled object: sh_type is 0x8, for this \
             name it must be 0x1",
        ),
    ]);
}

#[test]
fn number_4_names_the_section() {
    let sound = object(&[]);
    // the t of `.text` in the names, and their last byte
    let letter = section_field(&sound, 0, "sh_name") - 33 + 2;
    check_objects(&[
        (
            patched(&sound, 50, &[0, 1]),
            "c.o: refused 4 1 0: e_shstrndx of the compiled object is 1, which is no string table",
        ),
        (
            patched(&sound, 50, &[0, 9]),
            "c.o: refused 4 1 0: e_shstrndx of the compiled object is 9, which is no string table",
        ),
        (
            with_field(&sound, 2, "sh_name", 33),
            "c.o: refused 4 1 2: the name of section 2 of the compiled object has no zero end",
        ),
        (
            patched(&sound, letter, &[0xe9]),
            "c.o: refused 4 1 1: the name of section 1 (`.\\xe9ext`) of the compiled object has a byte \
             over 127",
        ),
    ]);
}

#[test]
fn number_5_names_the_symbol() {
    let sound = object(&[("alpha", 0), ("beta", 4)]);
    let table = 52 + 16 + 8;
    let with = |index, field, value| with_field(&sound, index, field, value);
    let many: Vec<_> = (0..4096).map(|_| ("s", 0)).collect();
    check_objects(&[
        (
            with(3, "sh_type", 1),
            "c.o: refused 5 1 0: the compiled object has no symbol table",
        ),
        (
            with(3, "sh_entsize", 8),
            "c.o: refused 5 1 0: section 3 (`.symtab`) of the compiled object: sh_entsize is 8, for \
             symbols it must be 16",
        ),
        (
            with(3, "sh_link", 1),
            "c.o: refused 5 1 0: section 3 (`.symtab`) of the compiled object: sh_link is 1, which is no \
             string table",
        ),
        (
            with(3, "sh_size", 0),
            "c.o: refused 5 1 0: section 3 (`.symtab`) of the compiled object has 0 symbols, entry 0 \
             included; it may have 1 to 4096",
        ),
        (
            object(&many),
            "c.o: refused 5 1 0: section 3 (`.symtab`) of the compiled object has 4097 symbols, entry 0 \
             included; it may have 1 to 4096",
        ),
        (
            patched(&sound, table + 7, &[1]),
            "c.o: refused 5 1 0: symbol 0 of the compiled object: it must be zeros",
        ),
        (
            patched(&sound, table + 16, &[0, 0, 1, 0]),
            "c.o: refused 5 1 1: symbol 1 of the compiled object: its name has no zero end",
        ),
        (
            patched(&sound, table + 32 + 14, &[0, 5]),
            "c.o: refused 5 1 2: symbol 2 (`beta`) of the compiled object: st_shndx is 5, there are 5 \
             sections",
        ),
        (
            patched(&sound, table + 32 + 14, &[0xff, 0xff]),
            "c.o: refused 5 1 2: symbol 2 (`beta`) of the compiled object: st_shndx is 65535, there are \
             5 sections",
        ),
    ]);
    // the string table's first byte is where the empty name of symbol 0 stands
    let names_at = sound.len() - 5 * 40 - 33 - "alpha.beta.".len();
    check_objects(&[(
        patched(&sound, names_at, b"x"),
        "c.o: refused 5 1 0: symbol 0 (`x.text`) of the compiled object: its name must be empty",
    )]);
}

#[test]
fn number_6_names_the_table() {
    let sound = object(&[]);
    let rela = with_field(&sound, 2, "sh_type", 4);
    let with = |index, field, value| with_field(&sound, index, field, value);
    check_objects(&[
        (
            with(2, "sh_entsize", 4),
            "c.o: refused 6 1 2: section 2 (`.rel.text`) of the compiled object: sh_entsize is 4, for \
             REL it must be 8",
        ),
        (
            rela,
            "c.o: refused 6 1 2: section 2 (`.rel.text`) of the compiled object: sh_entsize is 8, for \
             RELA it must be 12",
        ),
        (
            with(2, "sh_info", 5),
            "c.o: refused 6 1 2: section 2 (`.rel.text`) of the compiled object: sh_info is 5, there are \
             5 sections",
        ),
        (
            with(2, "sh_link", 4),
            "c.o: refused 6 1 2: section 2 (`.rel.text`) of the compiled object: sh_link is 4, the symbol \
             table is section 3",
        ),
    ]);
}

#[test]
fn number_7_shows_the_line() {
    let sound = object(&[]);
    let many = block("", "", "").repeat(1024) + "x";
    let start = "desc=\ntext=\ndata=\nrodata=\nbss=\n";
    let file = |rest: &str| [start, rest].concat();
    for (file, line) in [
        (
            "x".into(),
            "blocks:1: refused 7 0 1: line 1 of the block file has no LF at its end: `x`",
        ),
        (
            "x\n".into(),
            "blocks:1: refused 7 0 1: line 1 of the block file is `x`, where `desc=` must stand",
        ),
        (
            format!("{}\u{1}é'\n", "long ".repeat(9)),
            "blocks:1: refused 7 0 1: line 1 of the block file is `long long long long long long long long \
             long \\x01\\xc3\\xa9...`, where `desc=` must stand",
        ),
        (
            "desc=\n".into(),
            "blocks:2: refused 7 0 2: the block file ends before line 2, where `text=` must stand",
        ),
        (
            "desc=\ntext=t 4\n".into(),
            "blocks:2: refused 7 0 2: line 2 of the block file is `text=t 4`, but `text=` takes \
             nothing, or `label size align8` with single spaces: a size up to 1048576, an align8 up \
             to 8, no leading zeros",
        ),
        (
            "desc=\n\n".into(),
            "blocks:2: refused 7 0 2: line 2 of the block file is empty, where `text=` must stand",
        ),
        (
            file("asm=\n"),
            "blocks:6: refused 7 0 6: line 6 of the block file is `asm=`, where `glabel=`, `dummy=` or `jtbl=` \
             must stand",
        ),
        (
            file("glabel=a b\n"),
            "blocks:6: refused 7 0 6: line 6 of the block file is `glabel=a b`, but `glabel=` takes a \
             label without a space",
        ),
        (
            file("dummy=0123456\n"),
            "blocks:6: refused 7 0 6: line 6 of the block file is `dummy=0123456`, but `dummy=` takes \
             8 lowercase hex digits",
        ),
        (
            file("dummy=01234567\nglabel=g\n"),
            "blocks:7: refused 7 0 7: line 7 of the block file is `glabel=g`, where `dummy=` or `jtbl=` must \
             stand",
        ),
        (
            file("jtbl=08\n"),
            "blocks:6: refused 7 0 6: line 6 of the block file is `jtbl=08`, but `jtbl=` takes a \
             number up to 1048576 without a leading zero",
        ),
        (
            file("jtbl=8\nlate=\nend= \n"),
            "blocks:8: refused 7 0 8: line 8 of the block file is `end= `, but `end=` takes nothing",
        ),
        (
            file("jtbl=8\nlate=\nend="),
            "blocks:8: refused 7 0 8: line 8 of the block file has no LF at its end: `end=`",
        ),
        (
            many,
            "blocks:9217: refused 7 0 9217: line 9217 of the block file starts another block, and 1024 are \
             allowed",
        ),
    ] {
        check(&[(sound.clone(), file.as_bytes(), line)]);
    }
}

#[test]
fn numbers_8_and_9_name_the_block() {
    let sound = object(&[("a", 8), ("b", 12), ("b", 100), ("c", 16)]);
    let first = block("one", "a 8 0", "");
    for (file, line) in [
        (
            block("one", "a 0 0", ""),
            "blocks:2: refused 8 1 0: block 0 (`one`), `text=a`: its size is 0",
        ),
        (
            first.clone() + &block("", "absent 0 0", ""),
            "blocks:11: refused 8 1 1: block 1, `text=absent`: its size is 0",
        ),
        (
            first.clone() + &block("two", "b 4 0", ""),
            "blocks:11: refused 8 1 1: block 1 (`two`), `text=b`: it is at 12, below 16, the end of the block \
             before in .text",
        ),
        (
            // the block in between is off, and its other line with it
            first.clone() + &block("off", "absent 4 0", "a 0 0") + &block("on", "c 4 0", "a 4 4"),
            "blocks:21: refused 9 1 2: block 2 (`on`), `data=a`: align8 is 4, at 8 it must be 0 or 8",
        ),
        (
            block("one", "b 4 8", ""),
            "blocks:2: refused 9 1 0: block 0 (`one`), `text=b`: align8 is 8, at 12 it must be 0 or 4",
        ),
        (
            block("\u{1b}[31mred`", "b 4 1", ""),
            "blocks:2: refused 9 1 0: block 0 (`\\x1b[31mred``), `text=b`: align8 is 1, at 12 it must be 0 or \
             4",
        ),
    ] {
        check(&[(sound.clone(), file.as_bytes(), line)]);
    }
}

#[test]
fn number_21_says_the_length() {
    // 2^30 - 1 lines of `nop`, and 199 bytes
    let file = block("", "far 4 0", "");
    check(&[(
        object(&[("far", 0xffff_fffc)]),
        file.as_bytes(),
        "out: refused 21 0 4294967491: the result has 4294967491 bytes, the output may have \
         16777216",
    )]);
}

/// Inputs that do not show the fault of a refusal get the clause of its number, nothing else.
#[test]
fn words_are_not_made_up() {
    let Case {
        compiled,
        prelude,
        blocks,
    } = known_case();
    let merge = known_merge();
    let draft = Draft {
        compiled: &compiled,
        prelude: &prelude,
        blocks: &blocks,
    };
    let name_clause =
        "e_shstrndx names no string table, or a section name has no zero end or a byte over 127";
    let place_clause =
        "a size is 0, or a place is below the end of the block before in that section";
    let limits_clause =
        "an input is over its limit, a setting is unknown, or a working buffer is below its size";
    let clash_clause = "a relocation table of the compiled object cannot be carried, or a dropped section is referred to";
    let missing_clause = "a section is missing, a block passes its end, or a .text place or size is no multiple of 4";
    let section_clause = "a symbol of the assembled object has no section in the result, or a relocation uses a name that begins with `_asmpp_`";
    for (number, clause) in [
        (Number::Limits, limits_clause),
        (Number::FileHeader, "a file header is not as it must be"),
        (
            Number::SectionHeader,
            "a section count or a section header is not as it must be",
        ),
        (Number::SectionName, name_clause),
        (Number::SymbolTable, "a symbol table is not as it must be"),
        (
            Number::RelocationTable,
            "a relocation table is not as it must be",
        ),
        (Number::BlockFile, "the block file is not as it must be"),
        (Number::BlockPlace, place_clause),
        (
            Number::BlockAlignment,
            "an align8 is not 0 and not 8 - (place mod 8)",
        ),
        (Number::Clash, clash_clause),
        (Number::MissingSection, missing_clause),
        (
            Number::BlockLabels,
            "a block's start or end label is not in the assembled object at the block's place",
        ),
        (
            Number::LateLabels,
            "the late labels do not span the late words",
        ),
        (
            Number::LateStep,
            "a late word or a jump table finds no place",
        ),
        (Number::SymbolSection, section_clause),
        (
            Number::LateSymbol,
            "a symbol of .late_rodata is at no late word",
        ),
        (Number::Statics, "the debug section is not as it must be"),
        (
            Number::LooseSymbol,
            "a symbol is local and undefined, or neither named nor local",
        ),
        (Number::NameTwice, "a name is defined at two places"),
        (
            Number::LostEntry,
            "a relocation's symbol is not in the result, or its late offset does not move",
        ),
        (Number::OutputRoom, "the output is shorter than the result"),
    ] {
        for asked in [Asked::Draft(draft), Asked::Merge(merge.merge())] {
            let room = usize::MAX;
            for &object in Object::ALL {
                for place in [0, 1, 4, 60, u64::MAX] {
                    let inputs = Inputs { asked, room };
                    let words = words(&inputs, number, object, place);
                    assert_eq!(words, clause, "{place}");
                    // the place of 7 is its line, whatever the block file has there
                    let line = Refusal::of(&inputs, number, object, place).line;
                    let is_line = number == Number::BlockFile;
                    assert_eq!(line, is_line.then_some(place as usize));
                }
            }
        }
    }
}
