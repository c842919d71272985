//! Merges of a given size, to be timed.

use crate::{
    debug::{DEBUG, Debug},
    job::{Job, Settings},
    object::{Entry, Index, PROGBITS, Parts, Section, Symbol, Table, object_of, section},
    random::Random,
};

/// How many of each a merge has. A quarter of the blocks has late words and a jump table.
#[derive(Clone, Copy)]
pub struct Size {
    pub blocks: usize,
    /// Names in each object besides labels; half of them are in both.
    pub names: usize,
    /// Of each object.
    pub relocations: usize,
    /// Tables of C over the bytes of one.
    pub tables: usize,
    pub statics: usize,
    pub spelling: Spelling,
}

/// How the names are spelled.
#[derive(Clone, Copy)]
pub enum Spelling {
    Plain,
    /// All of an object are one name.
    Equal,
    /// Each is the end of one string of about this length.
    Shared(usize),
    /// The words of eight bytes of all have one sum, by which an index of names may go.
    OneSum,
}

/// The rows of the table.
pub fn sizes() -> Vec<(String, Size)> {
    let spelling = Spelling::Plain;
    let small = Size {
        blocks: 10,
        names: 18,
        relocations: 20,
        tables: 1,
        statics: 4,
        spelling,
    };
    let typical = Size {
        blocks: 128,
        names: 256,
        relocations: 256,
        tables: 1,
        statics: 64,
        spelling,
    };
    let mut rows = vec![("small".to_string(), small), ("typical".into(), typical)];
    for n in [1, 2, 4, 8] {
        let (name, names) = (format!("{n} x names"), 440 * n);
        rows.push((name, Size { names, ..typical }));
    }
    for n in [1, 2, 4, 8] {
        let (name, blocks) = (format!("{n} x blocks"), 100 * n);
        rows.push((name, Size { blocks, ..typical }));
    }
    for n in [1, 2, 4, 8] {
        let (name, relocations) = (format!("{n} x relocations"), 2000 * n);
        rows.push((
            name,
            Size {
                relocations,
                ..typical
            },
        ));
    }
    for n in [1, 2, 4, 8] {
        let (name, statics) = (format!("{n} x statics"), 512 * n);
        rows.push((name, Size { statics, ..typical }));
    }
    let full = Size {
        names: 3500,
        relocations: 4000,
        statics: 4096,
        ..typical
    };
    rows.push(("largest".into(), full));
    let hostile = |names: usize, spelling: Spelling| Size {
        names,
        spelling,
        ..small
    };
    rows.push(("equal names".into(), hostile(3000, Spelling::Equal)));
    for names in [750, 1500, 3000] {
        rows.push(("names of one sum".into(), hostile(names, Spelling::OneSum)));
    }
    for (names, length) in [
        (250, 1000),
        (500, 1000),
        (1000, 1000),
        (250, 4000),
        (250, 16_000),
    ] {
        let name = format!("ends of one string of {length} bytes and more");
        rows.push((name, hostile(names, Spelling::Shared(length))));
    }
    let shared = Size {
        relocations: 4000,
        tables: 118,
        ..small
    };
    rows.push(("118 tables over the same bytes".into(), shared));
    rows
}

impl Spelling {
    /// Name `k` of so many, which `tag` may set apart.
    fn name(self, tag: &str, k: usize, names: usize) -> String {
        match self {
            Spelling::Plain => format!("{tag}_{k}"),
            Spelling::Equal => "one".into(),
            Spelling::Shared(length) => "x".repeat(length + names - k),
            Spelling::OneSum => {
                const TURNS: [&str; 6] = ["abc", "acb", "bac", "bca", "cab", "cba"];
                let turns = (0..8).map(|i| TURNS[k / 6usize.pow(i) % 6]);
                let turns: Vec<&[u8]> = turns.map(str::as_bytes).collect();
                let bytes = (0..24).map(|i| char::from(turns[i % 8][i / 8]));
                bytes.collect()
            }
        }
    }

    /// Whether names stand for themselves, whatever tag they have.
    fn is_plain(self) -> bool {
        matches!(self, Spelling::Plain)
    }
}

impl Size {
    pub fn is_hostile(self) -> bool {
        !self.spelling.is_plain() || self.tables > 1
    }
}

/// A merge of this size, which is accepted.
pub fn merge(size: Size) -> Job {
    let mut blocks = String::new();
    let (mut of_c, mut of_a) = (names(size, true), names(size, false));
    let (mut rodata, mut late) = (vec![], 8);
    for block in 0..size.blocks {
        blocks += &format!("desc=function {block}\n");
        for (key, name, bytes) in [("text", ".text", 16), ("data", ".data", 8)] {
            let label = format!("_asmpp_{}{block}", &key[..1]);
            let place = 2 * bytes * block;
            blocks += &format!("{key}={label} {bytes} 0\n");
            of_a.push(symbol(format!("{label}_asm_start"), name, place));
            of_a.push(symbol(format!("{label}_asm_end"), name, place + bytes));
            of_c.push(symbol(label, name, place));
        }
        blocks += &format!("rodata=\nbss=\nglabel=a_{block}\n");
        let table = if block % 4 == 0 { 8 } else { 0 };
        for dummy in (0..table / 4).map(|k| 0xe000_0001 + (2 * block + k) as u32) {
            blocks += &format!("dummy={dummy:08x}\n");
            rodata.extend(dummy.to_be_bytes());
            late += 4;
        }
        rodata.extend(vec![1; table]);
        late += table;
        blocks += &format!("jtbl={table}\nend=\n");
    }
    let late_labels = [("start", 8), ("end", late)];
    let late_labels = late_labels
        .map(|(end, value)| symbol(format!("_asmpp_late_rodata_{end}"), ".late_rodata", value));
    of_a.extend(late_labels);
    let plain = |name: &str, length: usize| {
        let mut part = section(name, PROGBITS);
        part.data = (0..length).map(|i| i as u8).collect();
        part.align = 16;
        part
    };
    let length = 32 * size.blocks + 16;
    let mut own = plain(".rodata", 0);
    own.data = rodata;
    let of_c_sections = vec![plain(".text", length), plain(".data", length / 2), own];
    let of_a_sections = vec![
        plain(".text", length),
        plain(".data", length / 2),
        plain(".late_rodata", late),
    ];
    let last = debug(size).into_iter().collect();
    Job {
        compiled: sharing(object(size, of_c_sections, last, of_c, 20)),
        second: object(Size { tables: 1, ..size }, of_a_sections, vec![], of_a, 0),
        blocks: blocks.into_bytes(),
        merge: Some(Settings {
            path: b"c.o".to_vec(),
            flag: 0,
            mode: u32::from(size.statics > 0),
        }),
    }
}

fn symbol(name: String, section: &'static str, value: usize) -> Symbol {
    Symbol {
        name,
        value: value as u32,
        index: Index::Named(section),
        info: 16,
    }
}

/// The names of an object: half of them are in both, defined in one of the two.
fn names(size: Size, compiled: bool) -> Vec<Symbol> {
    let tag = if compiled { "c" } else { "a" };
    let shared = size.names / 2;
    let names = (0..size.names).map(|k| {
        let own = k >= shared;
        let name = size
            .spelling
            .name(if own { tag } else { "both" }, k, size.names);
        // One place for each name; those that are not plain are one and the same in both.
        let place = if matches!(size.spelling, Spelling::Equal) {
            0
        } else {
            4 * k
        };
        let mut symbol = symbol(name, ".data", place);
        if !own && (k % 2 == 0) == compiled && !matches!(size.spelling, Spelling::Equal) {
            (symbol.index, symbol.value) = (Index::Stored(0), 0);
        }
        symbol
    });
    names.collect()
}

/// Relocations of .text, between the blocks or in them, for names.
fn object(
    size: Size,
    sections: Vec<Section>,
    last: Vec<Section>,
    symbols: Vec<Symbol>,
    from: u32,
) -> Vec<u8> {
    let entries = (0..size.relocations).map(|i| Entry {
        offset: from + 32 * (i % size.blocks.max(1)) as u32,
        symbol: 1 + i % size.names,
        kind: 5,
        addend: 0,
    });
    let table = |entries| Table {
        target: ".text",
        goal: ".text",
        rela: false,
        entries,
    };
    let empty = (1..size.tables).map(|_| table(vec![]));
    let tables = [table(entries.collect())].into_iter().chain(empty);
    let parts = Parts {
        sections,
        last,
        symbols,
        tables: tables.collect(),
        locals: 1,
        merged: Some(!size.spelling.is_plain()),
    };
    // A seed whose object has none of the forms that document 01 refuses.
    object_of(&mut Random::new(1, 2), parts)
}

/// Every table over the bytes of the first.
fn sharing(mut file: Vec<u8>) -> Vec<u8> {
    let headers: Vec<usize> = headers(&file).collect();
    let mut tables = headers.into_iter().filter(|&at| word(&file, at + 4) == 9);
    let first = tables.next().map(|at| at + 16..at + 24);
    let others: Vec<usize> = tables.collect();
    for at in others {
        file.copy_within(first.clone().unwrap_or_default(), at + 16);
    }
    file
}

/// A debug section with a file of statics.
fn debug(size: Size) -> Option<Section> {
    const STATIC: u32 = 2 << 26 | 2 << 21;
    let mut debug = Debug::default();
    let mut entries = vec![[0, 0, 11 << 26]];
    for k in 0..size.statics {
        entries.push([debug.strings.len() as u32, 4 * k as u32, STATIC]);
        debug.strings.extend(format!("static_{k}\0").bytes());
    }
    entries.push([0, 0, 8 << 26]);
    debug.files.push(entries);
    let mut part = section(".mdebug", DEBUG);
    (part.data, part.offsets) = debug.bytes(&mut Random::new(1, 3));
    (size.statics > 0).then_some(part)
}

/// How many symbols an object has.
pub fn symbols(file: &[u8]) -> usize {
    entries(file).count()
}

/// Where the entries of an object's symbol table stand.
pub fn entries(file: &[u8]) -> impl Iterator<Item = usize> + use<> {
    let table = headers(file).find(|at| word(file, at + 4) == 2);
    let (from, size) = table.map_or((0, 0), |at| (word(file, at + 16), word(file, at + 20)));
    (from..from + size).step_by(16)
}

/// Where the section headers stand.
fn headers(file: &[u8]) -> impl Iterator<Item = usize> {
    let (from, many) = (word(file, 32), word(file, 48) >> 16);
    (0..many).map(move |i| from + 40 * i)
}

pub fn word(file: &[u8], at: usize) -> usize {
    match file.get(at..at + 4) {
        Some(b) => u32::from_be_bytes([b[0], b[1], b[2], b[3]]) as usize,
        None => 0,
    }
}
