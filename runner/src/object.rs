//! Makes relocatable objects: sections in any order, several string tables, symbols of every
//! kind, REL and RELA tables. They look valid; `damage.rs` takes care of the rest.

use crate::random::Random;

pub const SECTIONS: [&str; 4] = [".text", ".data", ".rodata", ".bss"];

pub const PROGBITS: u32 = 1;
const SYMTAB: u32 = 2;
const STRTAB: u32 = 3;
const RELA: u32 = 4;
pub const NOBITS: u32 = 8;
const REL: u32 = 9;

#[derive(Clone)]
pub struct Symbol {
    pub name: String,
    pub value: u32,
    pub index: Index,
    pub info: u8,
}

#[derive(Clone, Copy, PartialEq)]
pub enum Index {
    /// The first section of this name, if there is one, else undefined.
    Named(&'static str),
    /// The last section of this name.
    Last(&'static str),
    /// As it is: undefined, absolute, common or another reserved index.
    Stored(u16),
}

/// What document 01 refuses and the Rust accepts; each is rare.
struct Shape {
    little_endian: bool,
    /// e_shentsize.
    header_size: usize,
    /// Whether e_shnum is 0 and the count stands in section 0.
    count_in_section_0: bool,
    /// Sections beyond the usual ones.
    more_sections: usize,
    no_symbols: bool,
}

impl Shape {
    fn new(random: &mut Random) -> Shape {
        let rare = random.below(1500);
        Shape {
            little_endian: rare == 0,
            header_size: if rare == 1 { 44 } else { 40 },
            count_in_section_0: rare == 2,
            more_sections: if rare == 3 {
                random.between(100, 130)
            } else {
                0
            },
            no_symbols: rare == 4,
        }
    }

    fn words(&self, to: &mut Vec<u8>, words: &[u32]) {
        for word in words {
            to.extend(match self.little_endian {
                true => word.to_le_bytes(),
                false => word.to_be_bytes(),
            });
        }
    }

    fn halves(&self, to: &mut Vec<u8>, halves: &[u16]) {
        for half in halves {
            to.extend(match self.little_endian {
                true => half.to_le_bytes(),
                false => half.to_be_bytes(),
            });
        }
    }
}

#[derive(Clone, Default)]
pub struct Section {
    pub name: String,
    pub kind: u32,
    pub flags: u32,
    /// Of a section without bytes.
    pub size: usize,
    pub data: Vec<u8>,
    /// Words of its bytes that count from the section's start, and in the file from the file's.
    pub offsets: Vec<usize>,
    pub align: u32,
    /// Of a relocation table: the name of the section that it is for.
    goal: &'static str,
    link: u32,
    info: u32,
    entry: u32,
}

/// A relocation table named after the first section of a name.
pub struct Table {
    pub target: &'static str,
    /// The name of the section that it is for.
    pub goal: &'static str,
    pub rela: bool,
    pub entries: Vec<Entry>,
}

/// An entry of a table; its symbol is counted from 1.
pub struct Entry {
    pub offset: u32,
    pub symbol: usize,
    pub kind: u8,
    pub addend: u32,
}

/// What an object is made of: sections that may stand in any order, and those behind all others.
pub struct Parts {
    pub sections: Vec<Section>,
    pub last: Vec<Section>,
    pub symbols: Vec<Symbol>,
    pub tables: Vec<Table>,
    /// The symbol table's sh_info.
    pub locals: u32,
    /// Whether names that end another's are shared with it; chance decides where nothing is said.
    pub merged: Option<bool>,
}

/// An object with these symbols after entry 0.
pub fn object(random: &mut Random, symbols: &[Symbol]) -> Vec<u8> {
    let shape = &Shape::new(random);
    let symbols = if shape.no_symbols { &[] } else { symbols };
    let mut sections = plain_sections(random);
    sections.resize(
        sections.len() + shape.more_sections,
        section(".more", PROGBITS),
    );
    random.shuffle(&mut sections);
    let tables = add_tables(random, &mut sections);
    if random.once_in(2) {
        random.shuffle(&mut sections);
    }
    sections.insert(0, Section::default());
    let symtab = position(&sections, ".symtab").expect("it was pushed");
    relocations(random, shape, &mut sections, symtab, symbols.len() + 1);
    let locals = 1 + symbols.iter().filter(|s| s.info < 16).count() as u32;
    finish(random, shape, sections, tables, symbols, (locals, None))
}

/// An object of these parts.
pub fn object_of(random: &mut Random, parts: Parts) -> Vec<u8> {
    let shape = &Shape::new(random);
    let mut sections = parts.sections;
    sections.resize(
        sections.len() + shape.more_sections,
        section(".more", PROGBITS),
    );
    let names = add_tables(random, &mut sections);
    for table in &parts.tables {
        let (prefix, kind) = if table.rela {
            (".rela", RELA)
        } else {
            (".rel", REL)
        };
        let mut relocations = section(&format!("{prefix}{}", table.target), kind);
        for entry in &table.entries {
            let info = (entry.symbol as u32) << 8 | u32::from(entry.kind);
            shape.words(&mut relocations.data, &[entry.offset, info]);
            if table.rela {
                shape.words(&mut relocations.data, &[entry.addend]);
            }
        }
        (relocations.entry, relocations.align) = (if table.rela { 12 } else { 8 }, 4);
        relocations.goal = table.goal;
        sections.push(relocations);
    }
    if random.once_in(2) {
        random.shuffle(&mut sections);
    }
    sections.insert(0, Section::default());
    sections.extend(parts.last);
    let symtab = position(&sections, ".symtab").expect("it was pushed") as u32;
    for i in 0..sections.len() {
        if [REL, RELA].contains(&sections[i].kind) {
            let goal = position(&sections, sections[i].goal).unwrap_or(0) as u32;
            (sections[i].link, sections[i].info) = (symtab, goal);
        }
    }
    let table = (parts.locals, parts.merged);
    finish(random, shape, sections, names, &parts.symbols, table)
}

/// The first section of a name.
fn position(sections: &[Section], name: &str) -> Option<usize> {
    sections.iter().position(|s| s.name == name)
}

/// Adds string tables and the symbol table; gives the name of the symbols' string table.
fn add_tables(random: &mut Random, sections: &mut Vec<Section>) -> &'static str {
    // The symbols' names may stand in the table of the sections' names.
    let shared = random.once_in(8);
    let strings_name = if shared { ".shstrtab" } else { ".strtab" };
    for name in [".shstrtab", strings_name, ".stabstr"] {
        let there = sections.iter().any(|s| s.name == name);
        if !there && (name != ".stabstr" || random.once_in(4)) {
            sections.push(section(name, STRTAB));
        }
    }
    sections.push(section(".symtab", SYMTAB));
    strings_name
}

/// Fills the string tables and the symbol table, and lays all out.
fn finish(
    random: &mut Random,
    shape: &Shape,
    mut sections: Vec<Section>,
    strings_name: &str,
    symbols: &[Symbol],
    (locals, merged): (u32, Option<bool>),
) -> Vec<u8> {
    let symtab = position(&sections, ".symtab").expect("it was pushed");
    let names_in = position(&sections, ".shstrtab").expect("it was pushed");
    let strings_in = position(&sections, strings_name).expect("it was pushed");
    let mut strings = Strings::new(merged.unwrap_or_else(|| random.once_in(4)));
    let mut entries = vec![0; if shape.no_symbols { 0 } else { 16 }];
    for symbol in symbols {
        let index = match symbol.index {
            Index::Named(name) => position(&sections, name).unwrap_or(0) as u16,
            Index::Last(name) => sections.iter().rposition(|s| s.name == name).unwrap_or(0) as u16,
            Index::Stored(index) => index,
        };
        shape.words(
            &mut entries,
            &[
                strings.add(&symbol.name),
                symbol.value,
                random.below(40) as u32,
            ],
        );
        entries.extend([symbol.info, random.below(4) as u8]);
        shape.halves(&mut entries, &[index]);
    }
    let mut names = match strings_in == names_in {
        true => strings,
        false => {
            sections[strings_in].data = strings.bytes;
            Strings::new(random.once_in(4))
        }
    };
    let offsets: Vec<u32> = sections.iter().map(|s| names.add(&s.name)).collect();
    sections[names_in].data = names.bytes;
    let symbol_table = &mut sections[symtab];
    (symbol_table.data, symbol_table.link) = (entries, strings_in as u32);
    (symbol_table.info, symbol_table.entry) = (locals, 16);
    file(random, shape, &sections, &offsets, names_in)
}

/// An empty section.
pub fn section(name: &str, kind: u32) -> Section {
    let (name, align) = (name.into(), 1);
    Section {
        name,
        kind,
        align,
        ..Section::default()
    }
}

/// The four sections of blocks, where they are there, and others.
fn plain_sections(random: &mut Random) -> Vec<Section> {
    let mut sections = vec![];
    for name in SECTIONS {
        for _ in 0..*random.pick(&[0, 1, 1, 1, 1, 1, 1, 1, 2]) {
            let size = 4 * random.below(40) + random.below(2) * random.below(4);
            let mut section = section(name, if name == ".bss" { NOBITS } else { PROGBITS });
            section.flags = random.below(8) as u32;
            section.align = *random.pick(&[0, 1, 4, 8, 16]);
            section.size = size;
            if name != ".bss" {
                section.data = random.bytes(size);
            }
            sections.push(section);
        }
    }
    for (name, kind) in [
        (".reginfo", 0x7000_0006),
        (".mdebug", 0x7000_0005),
        (".gptab.data", 0x7000_0003),
        (".late_rodata", PROGBITS),
        (".comment", PROGBITS),
        ("", PROGBITS),
    ] {
        if random.once_in(5) {
            let mut section = section(name, kind);
            section.data = random.bytes(24);
            sections.push(section);
        }
    }
    sections
}

/// Relocation tables for some of the sections, REL and RELA.
fn relocations(
    random: &mut Random,
    shape: &Shape,
    sections: &mut Vec<Section>,
    symtab: usize,
    symbols: usize,
) {
    for target in 1..sections.len() {
        if sections[target].kind != PROGBITS || !random.once_in(2) {
            continue;
        }
        let (prefix, kind, entry) = *random.pick(&[(".rel", REL, 8), (".rela", RELA, 12)]);
        let name = format!("{prefix}{}", sections[target].name);
        let mut relocations = section(&name, kind);
        for _ in 0..random.below(4) {
            let offset = random.below(sections[target].data.len() + 1) as u32;
            let info = (random.below(symbols) << 8 | random.below(16)) as u32;
            shape.words(&mut relocations.data, &[offset, info]);
            if kind == RELA {
                shape.words(&mut relocations.data, &[random.word() as u32]);
            }
        }
        (relocations.link, relocations.info) = (symtab as u32, target as u32);
        (relocations.entry, relocations.align) = (entry, 4);
        sections.push(relocations);
    }
}

/// Names that are looked for at the end of a string table first.
const LONG: usize = 1000;

/// A string table; names that end another's are shared with it where `merged` is set.
struct Strings {
    bytes: Vec<u8>,
    merged: bool,
}

impl Strings {
    fn new(merged: bool) -> Strings {
        Strings {
            bytes: vec![0],
            merged,
        }
    }

    fn add(&mut self, name: &str) -> u32 {
        let mut ended = name.as_bytes().to_vec();
        ended.push(0);
        if name.is_empty() {
            return 0;
        }
        if self.merged && name.len() > LONG && self.bytes.ends_with(&ended) {
            return (self.bytes.len() - ended.len()) as u32;
        }
        if self.merged {
            let found = self.bytes.windows(ended.len()).position(|w| w == ended);
            if let Some(at) = found {
                return at as u32;
            }
        }
        self.bytes.extend(ended);
        (self.bytes.len() - name.len() - 1) as u32
    }
}

/// Header, section headers and bytes; the headers stand in front of the bytes or behind them.
fn file(
    random: &mut Random,
    shape: &Shape,
    sections: &[Section],
    names: &[u32],
    names_in: usize,
) -> Vec<u8> {
    let in_front = random.once_in(4);
    let mut body = vec![];
    let all_headers = shape.header_size * sections.len();
    let start = 52 + if in_front { all_headers } else { 0 };
    let mut headers = vec![];
    for (section, name) in sections.iter().zip(names) {
        let align = section.align.max(1) as usize;
        if section.kind != 0 && section.kind != NOBITS {
            body.resize((start + body.len()).next_multiple_of(align) - start, 0);
        }
        let (offset, size) = match section.kind {
            0 if shape.count_in_section_0 => (0, sections.len()),
            0 => (0, 0),
            NOBITS => (start + body.len(), section.size),
            _ => (start + body.len(), section.data.len()),
        };
        let placed = body.len();
        body.extend(&section.data);
        for &at in &section.offsets {
            if let Some(word) = body[placed..].get_mut(at..at + 4) {
                let old = u32::from_be_bytes([word[0], word[1], word[2], word[3]]);
                word.copy_from_slice(&old.wrapping_add(offset as u32).to_be_bytes());
            }
        }
        let [offset, size] = [offset as u32, size as u32];
        let first = [*name, section.kind, section.flags, 0, offset, size];
        let rest = [section.link, section.info, section.align, section.entry];
        shape.words(&mut headers, &first);
        shape.words(&mut headers, &rest);
        headers.resize(headers.len() + shape.header_size - 40, 0);
    }
    body.resize((start + body.len()).next_multiple_of(4) - start, 0);
    let headers_at = if in_front { 52 } else { start + body.len() };
    let data = if shape.little_endian { 1 } else { 2 };
    let mut file = vec![0x7f, b'E', b'L', b'F', 1, data, 1];
    file.resize(16, 0);
    let count = if shape.count_in_section_0 {
        0
    } else {
        sections.len()
    };
    shape.halves(&mut file, &[1, 8]);
    shape.words(
        &mut file,
        &[1, 0, 0, headers_at as u32, random.word() as u32],
    );
    let [size, count, names_in] = [shape.header_size, count, names_in].map(|n| n as u16);
    shape.halves(&mut file, &[52, 0, 0, size, count, names_in]);
    let (one, two) = if in_front {
        (headers, body)
    } else {
        (body, headers)
    };
    file.extend(one);
    file.extend(two);
    file
}
