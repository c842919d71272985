//! Reads an object for the words of a refusal and for notes. The bytes may be anything: what cannot
//! be read is `None`. Names are the gABI's; fields are big-endian, as document 01 asks.

use crate::refusal::JobFile;
use std::collections::{HashMap, HashSet};
use std::ffi::CStr;

pub(crate) const HEADER_SIZE: usize = 52;
pub(crate) const SECTION_SIZE: usize = 40;
pub(crate) const SYMBOL_SIZE: usize = 16;

pub(crate) const SHT_NULL: u32 = 0;
pub(crate) const SHT_PROGBITS: u32 = 1;
pub(crate) const SHT_SYMTAB: u32 = 2;
pub(crate) const SHT_STRTAB: u32 = 3;
pub(crate) const SHT_RELA: u32 = 4;
pub(crate) const SHT_NOBITS: u32 = 8;
pub(crate) const SHT_REL: u32 = 9;
pub(crate) const SHT_MIPS_GPTAB: u32 = 0x7000_0003;
pub(crate) const SHT_MIPS_DEBUG: u32 = 0x7000_0005;
pub(crate) const SHT_MIPS_REGINFO: u32 = 0x7000_0006;
pub(crate) const SHF_LINK_ORDER: u32 = 0x80;
pub(crate) const SHN_UNDEF: u32 = 0;
pub(crate) const SHN_LORESERVE: u32 = 0xff00;
pub(crate) const SHN_ABS: u32 = 0xfff1;
pub(crate) const SHN_XINDEX: u32 = 0xffff;

const E_SHOFF: usize = 32;
const E_SHNUM: usize = 48;
const E_SHSTRNDX: usize = 50;

/// The byte at an offset.
pub(crate) fn byte(bytes: &[u8], at: usize) -> Option<u32> {
    bytes.get(at).map(|&byte| byte.into())
}

/// The field of two bytes at an offset.
pub(crate) fn half(bytes: &[u8], at: usize) -> Option<u32> {
    let field = bytes.get(at..)?.first_chunk()?;
    Some(u16::from_be_bytes(*field).into())
}

/// The field of four bytes at an offset.
pub(crate) fn word(bytes: &[u8], at: usize) -> Option<u32> {
    let field = bytes.get(at..)?.first_chunk()?;
    Some(u32::from_be_bytes(*field))
}

/// The string at an offset of a string table, if it has a zero end. For many strings of one table
/// see `Strings`.
pub(crate) fn string(table: &[u8], at: u32) -> Option<&[u8]> {
    let rest = table.get(at as usize..)?;
    Some(CStr::from_bytes_until_nul(rest).ok()?.to_bytes())
}

/// A string table in hand. Thousands of names may share one long string, so the ends are looked for
/// once: a name is then found without a walk along its bytes.
pub(crate) struct Strings<'a> {
    table: &'a [u8],
    /// Where its zero bytes are.
    ends: Vec<usize>,
}

impl<'a> Strings<'a> {
    pub fn of(table: &'a [u8]) -> Strings<'a> {
        let bytes = table.iter().enumerate();
        let zeros = bytes.filter(|(_, byte)| **byte == 0).map(|(at, _)| at);
        Strings {
            table,
            ends: zeros.collect(),
        }
    }

    /// The string at an offset, if it has a zero end.
    pub fn get(&self, at: u32) -> Option<&'a [u8]> {
        let at = at as usize;
        let end = self.ends.partition_point(|&end| end < at);
        self.table.get(at..*self.ends.get(end)?)
    }
}

/// The first of these that has a name. In one string table two names of the same length share bytes
/// only where they start at the same byte. So each start is compared once, and all that is compared
/// is no more than the tables hold.
pub(crate) fn first_named<'n, T>(
    items: impl IntoIterator<Item = T>,
    name_of: impl Fn(&T) -> Option<&'n [u8]>,
    name: &[u8],
) -> Option<T> {
    let mut compared = HashSet::new();
    items.into_iter().find(|item| {
        name_of(item).is_some_and(|found| {
            found.len() == name.len() && compared.insert(found.as_ptr()) && found == name
        })
    })
}

/// What a section index that is none says of its symbol.
pub(crate) fn no_section(st_shndx: u32) -> Option<String> {
    match st_shndx {
        SHN_UNDEF => Some("undefined".into()),
        SHN_ABS => Some("absolute".into()),
        index => (index >= SHN_LORESERVE).then(|| format!("of reserved index {index:#x}")),
    }
}

pub(crate) struct SectionHeader {
    pub sh_name: u32,
    pub sh_type: u32,
    pub sh_flags: u32,
    pub sh_offset: u32,
    pub sh_size: u32,
    pub sh_link: u32,
    pub sh_info: u32,
    pub sh_addralign: u32,
    pub sh_entsize: u32,
}

impl SectionHeader {
    /// The bytes of an entry where the section is a relocation table.
    pub fn relocation_size(&self) -> Option<usize> {
        match self.sh_type {
            SHT_REL => Some(8),
            SHT_RELA => Some(12),
            _ => None,
        }
    }
}

/// An object, and what people call it.
#[derive(Clone, Copy)]
pub(crate) struct ObjectFile<'a> {
    pub title: &'static str,
    pub bytes: &'a [u8],
}

impl<'a> ObjectFile<'a> {
    pub fn new(file: JobFile, bytes: &'a [u8]) -> ObjectFile<'a> {
        let title = file.title();
        ObjectFile { title, bytes }
    }

    pub fn section_count(self) -> Option<usize> {
        Some(half(self.bytes, E_SHNUM)? as usize)
    }

    pub fn section_names_index(self) -> Option<usize> {
        Some(half(self.bytes, E_SHSTRNDX)? as usize)
    }

    /// The header of a section that the count has, if it lies inside the file.
    pub fn section(self, index: usize) -> Option<SectionHeader> {
        if index >= self.section_count()? {
            return None;
        }
        let start = word(self.bytes, E_SHOFF)? as usize;
        let at = start.checked_add(index.checked_mul(SECTION_SIZE)?)?;
        let header = self.bytes.get(at..)?.get(..SECTION_SIZE)?;
        Some(SectionHeader {
            sh_name: word(header, 0)?,
            sh_type: word(header, 4)?,
            sh_flags: word(header, 8)?,
            sh_offset: word(header, 16)?,
            sh_size: word(header, 20)?,
            sh_link: word(header, 24)?,
            sh_info: word(header, 28)?,
            sh_addralign: word(header, 32)?,
            sh_entsize: word(header, 36)?,
        })
    }

    /// The bytes of a section. NOBITS holds none.
    pub fn contents(self, section: &SectionHeader) -> Option<&'a [u8]> {
        if section.sh_type == SHT_NOBITS {
            return Some(&[]);
        }
        let rest = self.bytes.get(section.sh_offset as usize..)?;
        rest.get(..section.sh_size as usize)
    }

    /// The bytes of a section that is a string table.
    pub fn strings(self, index: usize) -> Option<&'a [u8]> {
        let section = self.section(index)?;
        let is_table = section.sh_type == SHT_STRTAB;
        is_table.then(|| self.contents(&section)).flatten()
    }

    pub fn section_name(self, index: usize) -> Option<&'a [u8]> {
        let strings = self.strings(self.section_names_index()?)?;
        string(strings, self.section(index)?.sh_name)
    }

    /// The headers that lie inside the file, with their indices. They stand in a row, so that
    /// none lies inside behind one that does not.
    pub fn sections(self) -> impl Iterator<Item = (usize, SectionHeader)> {
        (0..).map_while(move |index| Some((index, self.section(index)?)))
    }

    /// All section names in hand.
    pub fn section_strings(self) -> Option<Strings<'a>> {
        Some(Strings::of(self.strings(self.section_names_index()?)?))
    }

    /// "The" section of a name without a zero: the first.
    pub fn section_named(self, name: &[u8]) -> Option<usize> {
        let strings = self.strings(self.section_names_index()?)?;
        let mut sections = self.sections();
        // As many bytes as the name has are looked at, however long the other is.
        let is_named = |section: &SectionHeader| {
            let rest = strings.get(section.sh_name as usize..);
            let behind = rest.and_then(|rest| rest.strip_prefix(name));
            behind.is_some_and(|behind| behind.first() == Some(&0))
        };
        let (index, _) = sections.find(|(_, section)| is_named(section))?;
        Some(index)
    }

    /// The first symbol table, with its index.
    pub fn symbol_table(self) -> Option<(usize, SectionHeader)> {
        let mut sections = self.sections();
        sections.find(|(_, section)| section.sh_type == SHT_SYMTAB)
    }

    /// The relocation tables for a section, with their indices.
    pub fn tables_of(self, section: usize) -> impl Iterator<Item = (usize, SectionHeader)> {
        self.sections().filter(move |(_, table)| {
            table.relocation_size().is_some() && table.sh_info as usize == section
        })
    }

    /// The entries of a relocation table.
    pub fn relocations(self, table: &SectionHeader) -> impl Iterator<Item = Relocation> + use<'a> {
        let entries = self.contents(table).unwrap_or_default();
        let size = table.relocation_size().unwrap_or(entries.len().max(1));
        entries.chunks_exact(size).filter_map(|entry| {
            Some(Relocation {
                offset: word(entry, 0)?,
                symbol: (word(entry, 4)? >> 8) as usize,
            })
        })
    }

    pub fn symbols(self) -> Option<Symbols<'a>> {
        let (_, table) = self.symbol_table()?;
        Some(Symbols {
            entries: self.contents(&table)?,
            strings: Strings::of(self.strings(table.sh_link as usize)?),
        })
    }
}

/// A symbol table in hand, with its strings.
pub(crate) struct Symbols<'a> {
    entries: &'a [u8],
    strings: Strings<'a>,
}

#[derive(Clone, Copy)]
pub(crate) struct Symbol<'a> {
    /// Its 16 bytes.
    pub entry: &'a [u8],
    /// `None` where the name has no zero end.
    pub name: Option<&'a [u8]>,
    pub st_value: u32,
    pub st_size: u32,
    pub st_shndx: u32,
    /// By its binding.
    pub is_local: bool,
}

/// What the words need of a relocation.
pub(crate) struct Relocation {
    pub offset: u32,
    pub symbol: usize,
}

impl<'a> Symbols<'a> {
    pub fn iter(&self) -> impl Iterator<Item = Symbol<'a>> {
        let entries = self.entries.chunks_exact(SYMBOL_SIZE);
        entries.filter_map(|entry| self.read(entry))
    }

    pub fn get(&self, index: usize) -> Option<Symbol<'a>> {
        self.read(self.entries.chunks_exact(SYMBOL_SIZE).nth(index)?)
    }

    fn read(&self, entry: &'a [u8]) -> Option<Symbol<'a>> {
        Some(Symbol {
            entry,
            name: self.strings.get(word(entry, 0)?),
            st_value: word(entry, 4)?,
            st_size: word(entry, 8)?,
            st_shndx: half(entry, 14)?,
            is_local: byte(entry, 12)? >> 4 == 0,
        })
    }

    /// The first symbol of each label that has one; `None` where a name has no zero end. Names may
    /// share one long string: those of other lengths than the labels have are not looked at, and of
    /// those that start at the same byte only the first is. What is left to hash has 64 MiB at
    /// most: 4,096 names of 16 KiB, of 64 lengths, in 64 strings.
    pub fn first_of<'l>(
        &self,
        labels: impl Iterator<Item = &'l [u8]>,
    ) -> Option<HashMap<&'a [u8], Symbol<'a>>> {
        let lengths: HashSet<_> = labels.map(<[u8]>::len).collect();
        let (mut first, mut starts) = (HashMap::new(), HashSet::new());
        for symbol in self.iter() {
            let name = symbol.name?;
            if lengths.contains(&name.len()) && starts.insert(name.as_ptr()) {
                first.entry(name).or_insert(symbol);
            }
        }
        Some(first)
    }
}
