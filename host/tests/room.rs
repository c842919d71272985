//! Room for results: enough for what is largest, so that no call is made twice, and not much more.

mod common;

use common::{
    block, debug_section, in_time, known_case, known_merge, line, made, object, with_field,
};
use daphulle::{ConvertStatics, DRAFT_LIMIT, Merge, draft, draft_room, merge, merge_room};

/// The length of a draft, and the room for it.
fn drafted(compiled: &[u8], prelude: &[u8], blocks: &[u8]) -> (usize, usize) {
    let text = draft(compiled, prelude, blocks).unwrap();
    (text.len(), draft_room(compiled, prelude, blocks))
}

/// The length of a result, and the room for it.
fn merged(merge: &Merge) -> (usize, usize) {
    (daphulle::merge(merge).unwrap().len(), merge_room(merge))
}

/// That the room is enough, and is at most so many times as long.
fn check((length, room): (usize, usize), times: usize) {
    assert!(length <= room, "{room} for {length}");
    assert!(room <= times * length, "{room} for {length}");
}

#[test]
fn the_known_results() {
    let case = known_case();
    check(drafted(&case.compiled, &case.prelude, &case.blocks), 4);
    let known = known_merge();
    check(
        drafted(&known.compiled, daphulle::PRELUDE, &known.blocks),
        4,
    );
    check(merged(&known.merge()), 2);
}

/// A label far above all bytes of C: its place asks for padding, but only in .text.
#[test]
fn a_draft_with_much_padding() {
    for place in [1 << 20, (1 << 24) - 1000] {
        let compiled = object(&[("far", place), ("near", 8)]);
        let text = block("", "far 4 0", "");
        check(drafted(&compiled, b"", text.as_bytes()), 2);
        let data = block("", "near 4 0", "far 4 0");
        check(drafted(&compiled, b"", data.as_bytes()), 4);
    }
    // one that is refused has as much room as can be lent
    let compiled = object(&[("far", u32::MAX - 3)]);
    let blocks = block("", "far 4 0", "");
    let room = draft_room(&compiled, b"", blocks.as_bytes());
    assert!(room > DRAFT_LIMIT && draft(&compiled, b"", blocks.as_bytes()).is_err());
}

/// The shortest lines that ask for the longest ones, as many as there can be.
#[test]
fn a_draft_of_small_blocks() {
    let symbols: Vec<_> = (0..1024_u32)
        .map(|number| (format!("{number:x}"), 1_000_000 + 8 * number))
        .collect();
    let named: Vec<_> = symbols
        .iter()
        .map(|(name, place)| (&name[..], *place))
        .collect();
    let blocks: String = symbols
        .iter()
        .map(|(name, _)| {
            let keys = ["text", "data", "rodata", "bss"];
            let lines = keys.map(|key| format!("{key}={name} 4 0\n")).concat();
            format!("desc=\n{lines}jtbl=0\nlate=\nend=\n")
        })
        .collect();
    check(drafted(&object(&named), b"", blocks.as_bytes()), 2);
}

fn of<'a>(compiled: &'a [u8], assembled: &'a [u8], path: &'a [u8]) -> Merge<'a> {
    Merge {
        compiled,
        assembled,
        blocks: b"",
        path,
        drop_mdebug_gptab: false,
        convert_statics: ConvertStatics::GlobalWithFilename,
    }
}

/// 4,096 statics, each with a path before its name and a count behind it.
#[test]
fn a_merge_with_many_statics() {
    let mut entries = vec![(0, 6, 0), (0, 6, 0)];
    entries.extend([(4, 2, 1); 4096]);
    entries.extend([(0, 8, 0), (0, 8, 0)]);
    let debug = debug_section(&entries, b"name\0");
    let sections = [(".mdebug", &debug[..]), (".text", &[0; 16])];
    let compiled = made(&sections, &[], 1);
    let assembled = made(&[(".text", &[])], &[], 1);
    check(merged(&of(&compiled, &assembled, &[b'p'; 255])), 2);
}

/// Sections that are far apart, and relocations of A for which C has no section.
#[test]
fn a_merge_with_alignment_and_new_sections() {
    let sections: [(_, &[u8]); 3] = [(".text", &[0; 16]), (".data", &[0; 16]), (".rodata", &[])];
    let mut compiled = made(&sections, &[], 1);
    for index in 1..=6 {
        compiled = with_field(&compiled, index, "sh_addralign", 65_536);
    }
    let entries = common::words(&[0, 1 << 8 | 2, 4, 1 << 8 | 2]);
    let sections: [(_, &[u8]); 4] = [
        (".text", &[0; 16]),
        (".data", &[0; 16]),
        (".rel.text", &entries),
        (".rel.data", &entries),
    ];
    let assembled = made(&sections, &[("far", "", 0, 1)], 1);
    check(merged(&of(&compiled, &assembled, b"")), 2);
}

/// Files of a debug section that share their entries, 180 million in all: a call that is refused at
/// once does not wait for a look at each of them.
#[test]
fn a_debug_section_of_many_files() {
    let (files, entries) = (9000_u32, 20_000_u32);
    let files_at = 52 + 96;
    let entries_at = files_at + 72 * files;
    let mut debug = vec![0; 96 + 72 * files as usize + 12 * entries as usize];
    let mut put = |at: u32, word: u32| {
        debug[at as usize..][..4].copy_from_slice(&word.to_be_bytes());
    };
    for (at, word) in [(36, entries_at), (72, files), (76, files_at)] {
        put(at, word);
    }
    for file in 0..files {
        put(96 + 72 * file + 20, entries);
    }
    let sections = [(".mdebug", &debug[..]), (".text", &[0; 16])];
    let compiled = made(&sections, &[], 1);
    let assembled = made(&[(".text", &[])], &[], 1);
    let job = Merge {
        blocks: b"no block",
        ..of(&compiled, &assembled, b"")
    };
    let refused = in_time(|| merge(&job).unwrap_err());
    assert!(line(&refused).starts_with("blocks:1: refused 7 0 1: "));
}

/// A call that is refused before anything is written has no need of room.
#[test]
fn inputs_that_cannot_be_read() {
    let long = vec![b'#'; 1_048_577];
    assert_eq!(draft_room(&object(&[]), &long, b""), 0);
    assert_eq!(merge_room(&of(&long, b"", b"")), 0);
    assert!(draft_room(b"", b"", b"") < 1000 && merge_room(&of(b"", b"", b"")) < 1000);
    assert!(merge(&of(b"", b"", b"")).is_err());
}
