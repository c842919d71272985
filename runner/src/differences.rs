//! The rows of docs/DIFFERENCES.md that a job can meet, by their first column: what document 01
//! refuses and the Rust accepts.

use crate::{
    job::{Job, Kind},
    port::Refusal,
};
use std::{ffi::OsStr, os::unix::ffi::OsStrExt, path::Path};

pub const EI_DATA: &str = "EI_DATA 1 (little-endian)";
pub const ENTRY_SIZE: &str = "e_shentsize other than 40";
pub const NO_SECTIONS: &str = "e_shnum 0";
pub const MANY_SECTIONS: &str = "more than 128 sections";
pub const NULL_SECTION: &str =
    "section 0 of another type or with a size; a later section of type 0";
pub const ALIGNMENT: &str = "sh_addralign over 65,536";
pub const SECTION_TYPE: &str =
    ".text, .data, .rodata, .late_rodata, .bss or .reginfo of another type";
pub const SYMBOL_COUNT: &str = "no entries in the symbol table, or more than 4,096";
pub const SYMBOL_ZERO: &str = "symbol 0 not all zeros, or with a name";
pub const SYMBOL_INDEX: &str = "a symbol's section index from the count to FEFF hex";
pub const RELOCATION_SIZE: &str =
    "relocations longer than 8 bytes (REL) or 12 (RELA), or of another size in an empty table";
pub const REL_LINK: &str = "a relocation table whose sh_link is not the symbol table";
pub const FILE_LIMIT: &str = "C, A, prelude or block file over 1,048,576 bytes";
pub const PATH: &str = "a path over 255 bytes, or with a byte over 127";
pub const STEM: &str = "a path whose file has a stem of over 239 bytes";
pub const STALE: &str = "a relocation table of C with entries for another section than its first .text, .data, .rodata or .bss";
pub const DROPPED: &str = "a symbol or a relocation table of C that refers to a dropped section";
pub const CLASH: &str = "A's relocations join a table of C of another type or for another section";
pub const SECOND_SECTION: &str =
    "a symbol of A that is taken over, in a second section of one of the five names";
pub const STATICS: &str = "a static whose name is over 1,024 bytes, or more than 4,096 statics";

const FILE_LENGTH: usize = 1_048_576;
const SECTIONS: usize = 128;
const SYMBOLS: usize = 4096;
const RESERVED: usize = 0xff00;

const SYMTAB: u32 = 2;
const RELA: u32 = 4;
const NOBITS: u32 = 8;
const REL: u32 = 9;
const GPTAB: u32 = 0x7000_0003;
const DEBUG: u32 = 0x7000_0005;

const PATH_LENGTH: usize = 255;
const STATIC_COUNT: usize = 4096;
const STATIC_NAME: usize = 1024;

/// A's sections, and C's that each goes to.
const FIVE: [(&[u8], &[u8]); 5] = [
    (b".text", b".text"),
    (b".data", b".data"),
    (b".rodata", b".rodata"),
    (b".bss", b".bss"),
    (b".late_rodata", b".rodata"),
];

/// The types that document 01 asks of the first section of a name.
const TYPES: [(&[u8], u32); 6] = [
    (b".text", 1),
    (b".data", 1),
    (b".rodata", 1),
    (b".late_rodata", 1),
    (b".bss", 8),
    (b".reginfo", 0x7000_0006),
];

/// The row of a refusal of a job that the Rust accepts; none if it is on no row. A row is known by
/// its own condition on the job's bytes: number, object and place alone say nothing of them.
pub fn row(refusal: Refusal, job: &Job) -> Option<&'static str> {
    let Refusal {
        number,
        object,
        place,
    } = refusal;
    let c = Fields(&job.compiled);
    let merge = job.kind() == Kind::Merge;
    let place = place as usize;
    let rows = match (number, object) {
        (1, 0) if place == 0 => vec![(FILE_LIMIT, over_limit(job)), (PATH, other_path(job))],
        (2..=6, 1) => object_rows(&c, number, place),
        (2..=6, 2) if merge => object_rows(&Fields(&job.second), number, place),
        (10, 1) if merge && place < c.sections() => clash_rows(job, place),
        (15, 2) if merge => vec![(SECOND_SECTION, Fields(&job.second).in_second(place))],
        (17, 1) if job.merge.as_ref().is_some_and(|settings| settings.mode > 0) => {
            vec![(STATICS, c.over_statics(place))]
        }
        _ => vec![],
    };
    let met = rows.into_iter().find(|(_, met)| *met);
    met.map(|(row, _)| row)
}

/// Whether the Rust cannot have a job: the name of its temporary file would be too long.
pub fn long_stem(job: &Job) -> bool {
    const STEM_LENGTH: usize = 239;
    let path = job.merge.as_ref().map(|settings| &settings.path);
    let stem = path.and_then(|path| Path::new(OsStr::from_bytes(path)).file_stem());
    stem.is_some_and(|stem| stem.len() > STEM_LENGTH)
}

type Rows = Vec<(&'static str, bool)>;

/// The rows about one object, for refusals 2 to 6.
fn object_rows(object: &Fields, number: u32, place: usize) -> Rows {
    let count = object.sections();
    match (number, place) {
        (2, 5) => vec![(EI_DATA, object.0.get(5) == Some(&1))],
        // The Rust accepts a larger one.
        (2, 46) => vec![(ENTRY_SIZE, object.half(46) > 40)],
        (3, 0) if count == 0 => vec![(NO_SECTIONS, true)],
        (3, 0) if count > SECTIONS => vec![(MANY_SECTIONS, true)],
        (3, i) if i < count => vec![
            (NULL_SECTION, object.null_section(i)),
            (ALIGNMENT, object.section(i, 32) > 65_536),
            (SECTION_TYPE, object.other_type(i)),
        ],
        (5, 0) => vec![
            (SYMBOL_COUNT, object.other_symbol_count()),
            (SYMBOL_ZERO, object.symbol_zero()),
        ],
        (5, k) => vec![(SYMBOL_INDEX, object.wild_index(k))],
        (6, t) if t < count => vec![
            (RELOCATION_SIZE, object.odd_relocations(t)),
            (REL_LINK, object.other_link(t)),
        ],
        _ => vec![],
    }
}

/// The rows of refusal 10, about a section of C.
fn clash_rows(job: &Job, place: usize) -> Rows {
    let (c, a) = (Fields(&job.compiled), Fields(&job.second));
    let stay = c.stay(job.merge.as_ref().map_or(0, |settings| settings.flag));
    let target = c.section(place, 28) as usize;
    let four = FIVE[..4]
        .iter()
        .any(|(name, _)| c.first(name) == Some(target));
    let stale = c.relocations(place) && c.section(place, 20) > 0 && !four;
    let symbols = c.symbols().unwrap_or(0);
    let missed = place >= stay && (0..symbols).any(|k| c.symbol_index(k) == place);
    let dropped = missed || c.relocations(place) && target >= stay;
    let joins = (0..a.sections()).any(|table| {
        let of = FIVE.iter().find(|(name, _)| {
            a.relocations(table) && a.first(name) == Some(a.section(table, 28) as usize)
        });
        let Some((name, goal)) = of else {
            return false;
        };
        let held = a.first(name).is_some_and(|i| !a.held(i).is_empty());
        let (kind, prefix) = (
            a.section(table, 4),
            if a.section(table, 4) == REL {
                &b".rel"[..]
            } else {
                b".rela"
            },
        );
        held && a.section(table, 20) > 0
            && c.first(&[prefix, goal].concat()) == Some(place)
            && (c.section(place, 4) != kind || Some(target) != c.first(goal))
    });
    vec![(STALE, stale), (DROPPED, dropped), (CLASH, joins)]
}

fn over_limit(job: &Job) -> bool {
    let files = [&job.compiled, &job.second, &job.blocks];
    files.iter().any(|file| file.len() > FILE_LENGTH)
}

fn other_path(job: &Job) -> bool {
    let path = job.merge.as_ref().map(|settings| &settings.path);
    path.is_some_and(|path| path.len() > PATH_LENGTH || !path.is_ascii())
}

/// Fields of an object; 0, or no bytes, where they are not there.
struct Fields<'a>(&'a [u8]);

impl<'a> Fields<'a> {
    fn word(&self, at: usize) -> u32 {
        match self.0.get(at..) {
            Some([a, b, c, d, ..]) => u32::from_be_bytes([*a, *b, *c, *d]),
            _ => 0,
        }
    }

    fn half(&self, at: usize) -> usize {
        match self.0.get(at..) {
            Some([a, b, ..]) => u16::from_be_bytes([*a, *b]).into(),
            _ => 0,
        }
    }

    fn sections(&self) -> usize {
        self.half(48)
    }

    fn section(&self, index: usize, field: usize) -> u32 {
        self.word(self.word(32) as usize + 40 * index + field)
    }

    fn contents(&self, index: usize) -> &'a [u8] {
        let [start, size] = [16, 20].map(|field| self.section(index, field) as usize);
        self.0.get(start..start + size).unwrap_or_default()
    }

    /// The bytes of a section, which one of type NOBITS has not.
    fn held(&self, index: usize) -> &'a [u8] {
        match self.section(index, 4) {
            NOBITS => &[],
            _ => self.contents(index),
        }
    }

    /// The first section of a name.
    fn first(&self, name: &[u8]) -> Option<usize> {
        (0..self.sections()).find(|&i| self.name(i) == name)
    }

    /// How many sections the drop flag leaves.
    fn stay(&self, flag: u32) -> usize {
        let debug = |i: usize| flag == 1 && [GPTAB, DEBUG].contains(&self.section(i, 4));
        let count = self.sections();
        (0..count).rev().find(|&i| !debug(i)).map_or(0, |i| i + 1)
    }

    fn name(&self, index: usize) -> &'a [u8] {
        let names = self.contents(self.half(50));
        let rest = names.get(self.section(index, 0) as usize..);
        let rest = rest.unwrap_or_default();
        rest.split(|&b| b == 0).next().unwrap_or_default()
    }

    fn null_section(&self, index: usize) -> bool {
        match index {
            0 => self.section(0, 4) != 0 || self.section(0, 20) != 0,
            _ => self.section(index, 4) == 0,
        }
    }

    /// The first section of a name that asks for another type.
    fn other_type(&self, index: usize) -> bool {
        let name = self.name(index);
        let asked = TYPES.iter().find(|(asked, _)| *asked == name);
        asked.is_some_and(|(_, kind)| *kind != self.section(index, 4))
            && (0..index).all(|i| self.name(i) != name)
    }

    fn symtab(&self) -> Option<usize> {
        (0..self.sections()).find(|&i| self.section(i, 4) == SYMTAB)
    }

    fn symbols(&self) -> Option<usize> {
        self.symtab().map(|i| self.section(i, 20) as usize / 16)
    }

    fn other_symbol_count(&self) -> bool {
        self.symbols()
            .is_some_and(|count| count == 0 || count > SYMBOLS)
    }

    fn symbol_zero(&self) -> bool {
        let Some(table) = self.symtab() else {
            return false;
        };
        let entry = self.contents(table).get(..16).unwrap_or_default();
        let strings = self.contents(self.section(table, 24) as usize);
        entry.iter().any(|&b| b != 0) || strings.first().is_some_and(|&b| b != 0)
    }

    /// A symbol whose section index is neither a section nor reserved.
    fn wild_index(&self, symbol: usize) -> bool {
        let (Some(table), Some(count)) = (self.symtab(), self.symbols()) else {
            return false;
        };
        let at = self.section(table, 16) as usize + 16 * symbol.min(count) + 14;
        symbol < count && (self.sections()..RESERVED).contains(&self.half(at))
    }

    /// The section index of a symbol.
    fn symbol_index(&self, symbol: usize) -> usize {
        let table = self.symtab().map_or(0, |i| self.section(i, 16) as usize);
        self.half(table + 16 * symbol + 14)
    }

    /// A symbol in a section of one of the five names that is not the first of its name.
    fn in_second(&self, symbol: usize) -> bool {
        if symbol >= self.symbols().unwrap_or(0) {
            return false;
        }
        let index = self.symbol_index(symbol);
        let name = self.name(index);
        index < self.sections()
            && FIVE.iter().any(|(five, _)| *five == name)
            && self.first(name) != Some(index)
    }

    /// Whether the walk over the statics passes a limit at this entry.
    fn over_statics(&self, entry: usize) -> bool {
        let Some(debug) = self.first(b".mdebug") else {
            return false;
        };
        let header = self.section(debug, 16) as usize;
        let [files, files_at, entries_at, names_at] =
            [72, 76, 36, 60].map(|field| self.word(header + field) as usize);
        let (mut passed, mut statics) = (0, 0);
        for file in (0..files).map(|i| files_at + 72 * i) {
            let [names, first, count] = [8, 16, 20].map(|field| self.word(file + field) as usize);
            for at in (0..count).map(|j| entries_at + 12 * (first + j)) {
                let kind = self.word(at + 8) >> 26;
                let is_static = kind == 2 || kind == 14;
                if passed == entry {
                    let name = self.0.get(names_at + names + self.word(at) as usize..);
                    let name = name.unwrap_or_default().split(|&b| b == 0).next();
                    let long = name.is_some_and(|name| name.len() > STATIC_NAME);
                    return is_static && (long || statics == STATIC_COUNT);
                }
                passed += 1;
                statics += usize::from(is_static);
            }
        }
        false
    }

    fn relocations(&self, table: usize) -> bool {
        [REL, RELA].contains(&self.section(table, 4))
    }

    /// Entries that the Rust reads although they have not the size of their type.
    fn odd_relocations(&self, table: usize) -> bool {
        let least = if self.section(table, 4) == REL { 8 } else { 12 };
        self.relocations(table)
            && match (self.section(table, 20), self.section(table, 36)) {
                (0, entry) => entry != 0 && entry != least,
                (_, entry) => entry > least,
            }
    }

    fn other_link(&self, table: usize) -> bool {
        self.relocations(table) && Some(self.section(table, 24) as usize) != self.symtab()
    }
}

#[cfg(test)]
mod tests;
