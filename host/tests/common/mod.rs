//! Inputs for the tests, and a folder for their files.

// Each test program uses a part of this.
#![allow(dead_code)]

pub mod command;
pub mod tools;

use daphulle::{Asked, ConvertStatics, Draft, Error, Inputs, JobFile, Merge, Number, Object};
use std::{
    env, fs,
    path::{Path, PathBuf},
    process,
    sync::atomic::{AtomicUsize, Ordering},
    time::{Duration, Instant},
};

/// The draft of document 01's example.
pub const DRAFT: &[u8] = b".set noat
.section .text
nop
nop
.section .text
glabel _asmpp_t1_asm_start
.text
jr $ra
.section .text
glabel _asmpp_t1_asm_end
";

pub const CASE_FILE: &str = concat!(
    env!("CARGO_MANIFEST_DIR"),
    "/../crates/draft/data/draft.case"
);

/// Compiled object, prelude and block file.
pub struct Case {
    pub compiled: Vec<u8>,
    pub prelude: Vec<u8>,
    pub blocks: Vec<u8>,
}

/// Document 01's example: three lengths of four bytes, then the bytes of each file.
pub fn known_case() -> Case {
    let bytes = fs::read(CASE_FILE).unwrap();
    let (lengths, mut rest) = bytes.split_at(12);
    let mut files = lengths.as_chunks::<4>().0.iter().map(|length| {
        let (file, after) = rest.split_at(u32::from_be_bytes(*length) as usize);
        rest = after;
        file.to_vec()
    });
    let mut file = || files.next().unwrap();
    Case {
        compiled: file(),
        prelude: file(),
        blocks: file(),
    }
}

/// The firmware's objects: compiled and assembled by Debian's gcc 12.2 and binutils 2.40 as
/// tests/firmware.rs does it (-O2), and merged by the unchanged Rust.
pub struct KnownMerge {
    pub compiled: Vec<u8>,
    pub assembled: Vec<u8>,
    pub blocks: Vec<u8>,
    pub merged: Vec<u8>,
}

pub const FIRMWARE: &str = concat!(env!("CARGO_MANIFEST_DIR"), "/tests/firmware");

pub fn known_merge() -> KnownMerge {
    let read = |name| fs::read(Path::new(FIRMWARE).join(name)).unwrap();
    KnownMerge {
        compiled: read("c.o"),
        assembled: read("a.o"),
        blocks: read("blocks"),
        merged: read("merged.o"),
    }
}

impl KnownMerge {
    /// The merge of its objects that gives the merged one.
    pub fn merge(&self) -> Merge<'_> {
        Merge {
            compiled: &self.compiled,
            assembled: &self.assembled,
            blocks: &self.blocks,
            path: b"c.o",
            drop_mdebug_gptab: false,
            convert_statics: ConvertStatics::Local,
        }
    }
}

/// A symbol of a made object: name, section (empty: undefined), value, binding (0 local, 1 global).
pub type Symbol<'a> = (&'a str, &'a str, u32, u8);

/// An object of sections, then `.shstrtab`, `.symtab` (of that sh_info) and `.strtab`; only a
/// `.gptab` stands behind these. Types go by the names; `.rel.NAME` and `.rela.NAME` are for NAME.
pub fn made(sections: &[(&str, &[u8])], symbols: &[Symbol], locals: u32) -> Vec<u8> {
    let (tail, front): (Vec<_>, Vec<_>) = sections.iter().partition(|(name, _)| *name == ".gptab");
    let mut every: Vec<&str> = front.iter().map(|(name, _)| *name).collect();
    every.extend([".shstrtab", ".symtab", ".strtab"]);
    every.extend(tail.iter().map(|(name, _)| *name));
    let index = |name: &str| {
        every
            .iter()
            .position(|other| *other == name)
            .map_or(0, |at| at + 1)
    };
    let mut names = vec![0];
    let starts = every.iter().map(|name| {
        let start = names.len();
        names.extend(name.bytes().chain([0]));
        start as u32
    });
    let starts: Vec<_> = starts.collect();
    let (mut strings, mut table) = (vec![0], vec![0; 16]);
    for (name, section, value, binding) in symbols {
        table.extend(words(&[strings.len() as u32, *value, 0]));
        table.extend(words(&[u32::from(*binding) << 28 | index(section) as u32]));
        strings.extend(name.bytes().chain([0]));
    }
    let tables = [&names[..], &table, &strings];
    let contents = front.iter().map(|(_, bytes)| *bytes).chain(tables);
    let contents = contents.chain(tail.iter().map(|(_, bytes)| *bytes));
    let (mut body, mut headers) = (vec![], vec![0; 40]);
    for ((name, start), bytes) in every.iter().zip(starts).zip(contents) {
        let symtab = index(".symtab") as u32;
        let target = |from| index(&name[from..]) as u32;
        let [kind, link, info, entry] = match *name {
            ".bss" => [8, 0, 0, 0],
            ".reginfo" => [0x7000_0006, 0, 0, 0],
            ".gptab" => [0x7000_0003, 0, 0, 0],
            ".mdebug" => [0x7000_0005, 0, 0, 0],
            ".symtab" => [2, symtab + 1, locals, 16],
            ".shstrtab" | ".strtab" => [3, 0, 0, 0],
            name if name.starts_with(".rela.") => [4, symtab, target(5), 12],
            name if name.starts_with(".rel.") => [9, symtab, target(4), 8],
            _ => [1, 0, 0, 0],
        };
        let (offset, size) = (52 + body.len() as u32, bytes.len() as u32);
        headers.extend(words(&[
            start, kind, 0, 0, offset, size, link, info, 1, entry,
        ]));
        body.extend(if kind == 8 { &[] } else { bytes });
    }
    let mut file = b"\x7fELF\x01\x02\x01".to_vec();
    file.resize(16, 0);
    let (headers_at, count) = (52 + body.len() as u32, every.len() as u32 + 1);
    file.extend(words(&[0x0001_0008, 1, 0, 0, headers_at, 0, 52 << 16, 40]));
    file.extend(words(&[count << 16 | index(".shstrtab") as u32]));
    [file, body, headers].concat()
}

/// A debug section that begins at an offset of 52: a file of these entries (value, type, storage
/// class), each with the first of the names.
pub fn debug_section(entries: &[(u32, u32, u32)], names: &[u8]) -> Vec<u8> {
    let (files_at, symbols_at) = (52 + 96, 52 + 96 + 72);
    let names_at = symbols_at + 12 * entries.len() as u32;
    let mut header = vec![0; 96];
    header[..2].copy_from_slice(&[0x70, 0x09]);
    let fields = [
        (32, entries.len() as u32),
        (36, symbols_at),
        (56, names.len() as u32),
        (60, names_at),
        (72, 1),
        (76, files_at),
    ];
    for (at, field) in fields {
        header[at..at + 4].copy_from_slice(&u32::to_be_bytes(field));
    }
    let mut file = vec![0; 72];
    file[20..24].copy_from_slice(&(entries.len() as u32).to_be_bytes());
    let entries = entries.iter();
    let entries =
        entries.flat_map(|&(value, kind, storage)| words(&[0, value, kind << 26 | storage << 21]));
    [header, file, entries.collect(), names.to_vec()].concat()
}

pub fn words(words: &[u32]) -> Vec<u8> {
    words.iter().flat_map(|word| word.to_be_bytes()).collect()
}

/// An object with sections 1 `.text`, 2 `.rel.text`, 3 `.symtab` and 4 `.strtab`, which names the
/// sections too, and with global symbols in `.text`.
pub fn object(symbols: &[(&str, u32)]) -> Vec<u8> {
    let mut names = b"\0.text\0.rel.text\0.symtab\0.strtab\0".to_vec();
    let mut table = vec![0; 16];
    for &(name, value) in symbols {
        table.extend(words(&[names.len() as u32, value, 0, 0x1000_0001]));
        names.extend(name.bytes());
        names.push(0);
    }
    let mut file = b"\x7fELF\x01\x02\x01".to_vec();
    file.resize(16, 0);
    let headers_at = (52 + 16 + 8 + table.len() + names.len()) as u32;
    let (header_size, section_size) = (52 << 16, 40);
    file.extend(words(&[0x0001_0008, 1, 0, 0, headers_at, 0]));
    file.extend(words(&[header_size, section_size, 5 << 16 | 4]));
    let mut headers = vec![0; 40];
    // bytes; sh_name, sh_type, sh_link, sh_info, sh_entsize
    for (bytes, [name, kind, link, info, entry]) in [
        (&[0; 16][..], [1, 1, 0, 0, 0]),
        (&[0, 0, 0, 0, 0, 0, 1, 4], [7, 9, 3, 1, 8]),
        (&table, [17, 2, 4, 1, 16]),
        (&names, [25, 3, 0, 0, 0]),
    ] {
        let (offset, size) = (file.len() as u32, bytes.len() as u32);
        headers.extend(words(&[
            name, kind, 0, 0, offset, size, link, info, 4, entry,
        ]));
        file.extend(bytes);
    }
    file.extend(headers);
    file
}

/// The offset of a section header's field, by the gABI's layout.
pub fn section_field(object: &[u8], index: usize, field: &str) -> usize {
    const FIELDS: [&str; 10] = [
        "sh_name",
        "sh_type",
        "sh_flags",
        "sh_addr",
        "sh_offset",
        "sh_size",
        "sh_link",
        "sh_info",
        "sh_addralign",
        "sh_entsize",
    ];
    let headers = u32::from_be_bytes(object[32..36].try_into().unwrap()) as usize;
    let position = FIELDS.iter().position(|&name| name == field).unwrap();
    headers + 40 * index + 4 * position
}

/// The bytes with others in their place from an offset on.
pub fn patched(bytes: &[u8], at: usize, new: &[u8]) -> Vec<u8> {
    let mut bytes = bytes.to_vec();
    bytes[at..at + new.len()].copy_from_slice(new);
    bytes
}

/// The object with a section header's field changed.
pub fn with_field(object: &[u8], index: usize, field: &str, value: u32) -> Vec<u8> {
    let at = section_field(object, index, field);
    patched(object, at, &value.to_be_bytes())
}

/// A block with a `text=` and a `data=` line.
pub fn block(desc: &str, text: &str, data: &str) -> String {
    format!(
        "desc={desc}\ntext={text}\ndata={data}\nrodata=\nbss=\njtbl=0\nasm=nop\nlate=.word 1\nend=\n"
    )
}

/// A new folder that goes away with all it holds.
pub struct Folder(PathBuf);

impl Folder {
    pub fn new() -> Folder {
        static COUNT: AtomicUsize = AtomicUsize::new(0);
        let count = COUNT.fetch_add(1, Ordering::Relaxed);
        let name = format!("daphulle-test-{}-{count}", process::id());
        let path = env::temp_dir().join(name);
        fs::create_dir(&path).unwrap();
        Folder(path)
    }

    pub fn path(&self) -> &Path {
        &self.0
    }

    /// The names of what it holds, in order.
    pub fn names(&self) -> Vec<String> {
        let entries = fs::read_dir(&self.0).unwrap();
        let name = |entry: fs::DirEntry| entry.file_name().into_string().unwrap();
        let mut names: Vec<_> = entries.map(|entry| name(entry.unwrap())).collect();
        names.sort();
        names
    }
}

impl Drop for Folder {
    fn drop(&mut self) {
        // Nothing can be done about a folder that does not go.
        let _ = fs::remove_dir_all(&self.0);
    }
}

/// The gate has a release build.
const IN_TIME: Duration = match cfg!(debug_assertions) {
    true => Duration::from_secs(5),
    false => Duration::from_millis(300),
};

/// Something that is done in time, by the quickest of three runs: others use the machine, too.
pub fn in_time<T>(work: impl Fn() -> T) -> T {
    let run = |_| {
        let start = Instant::now();
        (work(), start.elapsed())
    };
    let runs = (0..3).map(run);
    let (done, time) = runs.min_by_key(|(_, time)| *time).unwrap();
    assert!(time < IN_TIME, "{time:?}");
    done
}

/// The line of an error as the command tells it, with its usual names of the files.
pub fn line(error: &Error) -> String {
    let Error::Refused(refusal) = error else {
        return error.to_string();
    };
    let name = match refusal.file {
        JobFile::Compiled => "c.o",
        JobFile::Assembled => "a.o",
        JobFile::Prelude => "prelude",
        JobFile::Blocks => "blocks",
        JobFile::Output => "out",
        other => panic!("{other:?}"),
    };
    match refusal.line {
        Some(line) => format!("{name}:{line}: {refusal}"),
        None => format!("{name}: {refusal}"),
    }
}

/// The general clause of a refusal, which names nothing.
pub fn clause(number: Number, of: Object, place: u64) -> String {
    let nothing = Draft {
        compiled: &object(&[]),
        prelude: b"",
        blocks: b"",
    };
    let inputs = Inputs {
        asked: Asked::Draft(nothing),
        room: usize::MAX,
    };
    daphulle::words(&inputs, number, of, place)
}
