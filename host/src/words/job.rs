//! A merge's inputs, read again for the words of 10 to 20. The bytes may be anything.

use super::Inputs;
use super::places::{Places, places};
use super::sections::{section_name, section_title};
use super::symbols::symbol_title;
use crate::Asked;
use crate::blocks::{Block, blocks};
use crate::codes::Code;
use crate::elf::{self, ObjectFile, Symbol};
use crate::refusal::ConvertStatics;

/// Names that the result does not take over begin so.
const PREFIX: &[u8] = b"_asmpp_";

/// An object with its symbols, and "the" section of each code.
pub(crate) struct Known<'a> {
    pub file: ObjectFile<'a>,
    pub symbols: Vec<Symbol<'a>>,
    sections: [Option<usize>; 6],
}

impl<'a> Known<'a> {
    pub fn of(file: ObjectFile<'a>) -> Option<Known<'a>> {
        Some(Known {
            file,
            symbols: file.symbols()?.iter().collect(),
            sections: Code::ALL.map(|code| file.section_named(code.name().as_bytes())),
        })
    }

    pub fn section(&self, code: Code) -> Option<usize> {
        *self.sections.get(code as usize)?
    }

    /// The bytes of the section of a code; none where it is not there.
    pub fn contents(&self, code: Code) -> &'a [u8] {
        let section = self
            .section(code)
            .and_then(|index| self.file.section(index));
        let contents = section.and_then(|section| self.file.contents(&section));
        contents.unwrap_or_default()
    }

    /// The code of A's five that has this section.
    pub fn source_code(&self, section: u32) -> Option<Code> {
        let mut codes = Code::SOURCES.into_iter();
        codes.find(|&code| self.section(code) == Some(section as usize))
    }

    /// The first symbol of a name.
    pub fn symbol_named(&self, name: &[u8]) -> Option<Symbol<'a>> {
        elf::first_named(self.symbols.iter().copied(), |symbol| symbol.name, name)
    }

    pub fn section_title(&self, index: usize) -> String {
        section_title(self.file, index)
    }

    /// `in section 3 (NAME)`, or what a reserved index says.
    pub fn section_of(&self, st_shndx: u32) -> String {
        let named = || format!("in {}", section_name(self.file, st_shndx as usize));
        elf::no_section(st_shndx).unwrap_or_else(named)
    }

    pub fn symbol_title(&self, index: usize) -> String {
        let name = self.symbols.get(index).and_then(|symbol| symbol.name);
        symbol_title(self.file, index, name)
    }
}

pub(super) struct Job<'a> {
    pub compiled: Known<'a>,
    pub assembled: Known<'a>,
    pub blocks: Vec<Block<'a>>,
    pub places: Places<'a>,
    pub statics: ConvertStatics,
    /// How many of C's sections stay.
    pub stay: usize,
    /// For each of A's symbols, whether its relocations use it.
    used: Vec<bool>,
    /// A's symbols below this index are local.
    locals_end: usize,
}

impl<'a> Job<'a> {
    /// `None` where there is no merge, or its inputs do not pass 2 to 9.
    pub fn read(inputs: &Inputs<'a>) -> Option<Job<'a>> {
        let Asked::Merge(merge) = inputs.asked else {
            return None;
        };
        let (compiled, assembled) = inputs.objects();
        let (compiled, assembled) = (Known::of(compiled)?, Known::of(assembled?)?);
        let blocks = blocks(merge.blocks);
        let places = places(compiled.file, &blocks)?.ok()?;
        let (_, symbol_table) = assembled.file.symbol_table()?;
        Some(Job {
            stay: staying(compiled.file, merge.drop_mdebug_gptab)?,
            used: used_symbols(&assembled),
            locals_end: symbol_table.sh_info as usize,
            statics: merge.convert_statics,
            compiled,
            assembled,
            blocks,
            places,
        })
    }

    pub fn desc(&self, block: usize) -> &'a [u8] {
        self.blocks.get(block).map_or(b"", |block| block.desc)
    }

    /// The blocks that are not switched off, with their numbers.
    pub fn live_blocks(&self) -> impl Iterator<Item = (usize, &Block<'a>)> {
        let live = self.places.live.iter();
        live.filter_map(|&index| Some((index, self.blocks.get(index)?)))
    }

    /// The first block that has late words or a jump table.
    pub fn late_block(&self) -> Option<usize> {
        let mut blocks = self.live_blocks();
        let is_late = |block: &Block| !block.dummies.is_empty() || block.jump_table > 0;
        blocks
            .find(|(_, block)| is_late(block))
            .map(|(index, _)| index)
    }

    pub fn is_used(&self, symbol: usize) -> bool {
        self.used.get(symbol) == Some(&true)
    }

    /// Whether C's symbol stands in the result's list.
    pub fn keeps(&self, symbol: usize) -> bool {
        let symbols = &self.compiled.symbols;
        symbol > 0
            && symbols
                .get(symbol)
                .is_some_and(|symbol| !is_placeholder(symbol))
    }

    /// Whether A's symbol stands in the result's list.
    pub fn takes_over(&self, symbol: usize) -> bool {
        let known = self.assembled.symbols.get(symbol);
        (symbol >= self.locals_end || self.is_used(symbol))
            && known.is_some_and(|symbol| !is_placeholder(symbol))
    }
}

pub(super) fn is_placeholder(symbol: &Symbol) -> bool {
    symbol.name.is_some_and(|name| name.starts_with(PREFIX))
}

/// Whether a symbol is neither undefined nor absolute.
pub(super) fn is_placed(symbol: &Symbol) -> bool {
    !matches!(symbol.st_shndx, elf::SHN_UNDEF | elf::SHN_ABS)
}

/// The sections without the trailing ones that the flag drops.
fn staying(file: ObjectFile, drops: bool) -> Option<usize> {
    let mut stay = file.section_count()?;
    while drops
        && let Some(last) = stay.checked_sub(1).and_then(|last| file.section(last))
        && matches!(last.sh_type, elf::SHT_MIPS_DEBUG | elf::SHT_MIPS_GPTAB)
    {
        stay -= 1;
    }
    Some(stay)
}

/// Tables may share their entries, so that there are more uses than a file has room for: each is
/// one look into a list.
fn used_symbols(assembled: &Known) -> Vec<bool> {
    let file = assembled.file;
    let mut used = vec![false; assembled.symbols.len()];
    let sections = Code::SOURCES
        .into_iter()
        .filter_map(|code| assembled.section(code));
    let tables = sections.flat_map(|section| file.tables_of(section));
    for relocation in tables.flat_map(|(_, table)| file.relocations(&table)) {
        if let Some(used) = used.get_mut(relocation.symbol) {
            *used = true;
        }
    }
    used
}
