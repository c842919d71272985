//! What an accepted job leaves out or may not mean, read from C and the block file again. Notes are
//! not proved, and no answer depends on them.

use crate::blocks::{Span, blocks};
use crate::codes::Code;
use crate::elf::{self, ObjectFile, Strings, Symbol};
use crate::refusal::JobFile;
use crate::words::shown;
use std::fmt;

/// What a note is about. More may come.
#[derive(Clone, Copy, Debug, PartialEq, Eq, Hash)]
#[non_exhaustive]
pub enum NoteKind {
    /// A label is not in C, and the rest of its block is left out.
    LeftOut,
    /// A label's symbol has a size, and it is not the one of its line.
    OtherSize,
    /// A label's symbol is not in the section of its line.
    OtherSection,
}

/// A note on a block. It is shown as `block 3 (DESC): words`, on one line.
#[derive(Clone, Debug, PartialEq, Eq, Hash)]
pub struct Note {
    /// What it is about.
    pub kind: NoteKind,
    /// Its number, from 0.
    pub block: usize,
    /// The start of its description, with what is not printable escaped; it may be empty.
    pub desc: String,
    /// What is to be noted.
    pub words: String,
}

impl fmt::Display for Note {
    fn fmt(&self, f: &mut fmt::Formatter) -> fmt::Result {
        write!(f, "block {}", self.block)?;
        if !self.desc.is_empty() {
            write!(f, " ({})", self.desc)?;
        }
        write!(f, ": {}", self.words)
    }
}

/// The notes on a draft or a merge of a compiled object and a block file, in the order of the block
/// file. They are meant for one that was accepted; of other bytes they tell what can be read.
pub fn notes(compiled: &[u8], block_file: &[u8]) -> Vec<Note> {
    let object = ObjectFile::new(JobFile::Compiled, compiled);
    let sections = Sections::of(object);
    let blocks = blocks(block_file);
    let labels = blocks.iter().flat_map(|block| &block.spans);
    let labels = labels.map(|span| span.label);
    let Some(symbols) = object
        .symbols()
        .and_then(|symbols| symbols.first_of(labels))
    else {
        return vec![];
    };
    let mut notes = vec![];
    for (index, block) in blocks.iter().enumerate() {
        let mut add = |kind, words| {
            notes.push(Note {
                kind,
                block: index,
                desc: shown(block.desc),
                words,
            });
        };
        for span in &block.spans {
            let label = shown(span.label);
            let Some(symbol) = symbols.get(span.label) else {
                let words = format!("no symbol {label}, the rest of the block is left out");
                add(NoteKind::LeftOut, words);
                break;
            };
            let (st_size, size) = (symbol.st_size, span.size);
            if st_size != 0 && st_size != size {
                let words = format!("symbol {label} has size {st_size}, the block {size}");
                add(NoteKind::OtherSize, words);
            }
            if let Some(section) = sections.other(span, symbol) {
                add(
                    NoteKind::OtherSection,
                    format!("symbol {label} is {section}"),
                );
            }
        }
    }
    notes
}

/// C's sections, looked up once for all lines: their names may share one long string.
struct Sections<'a> {
    object: ObjectFile<'a>,
    names: Option<Strings<'a>>,
    /// "The" sections of the codes that blocks have lines for.
    own: [Option<usize>; 4],
}

impl<'a> Sections<'a> {
    fn of(object: ObjectFile<'a>) -> Sections<'a> {
        Sections {
            object,
            names: object.section_strings(),
            own: Code::LINES.map(|code| object.section_named(code.name().as_bytes())),
        }
    }

    /// Where the symbol of a line is, if that is not the line's section.
    fn other(&self, span: &Span, symbol: &Symbol) -> Option<String> {
        if let Some(reserved) = elf::no_section(symbol.st_shndx) {
            return Some(reserved);
        }
        let (index, name) = (symbol.st_shndx as usize, span.code.name());
        if self.own.get(span.code as usize) == Some(&Some(index)) {
            return None;
        }
        let header = self.object.section(index);
        let names = self.names.as_ref();
        let other = header.and_then(|header| names?.get(header.sh_name));
        Some(match other {
            None | Some([]) => format!("in section {index}"),
            Some(other) if other == name.as_bytes() => {
                format!("in section {name}, but not in the first of that name")
            }
            Some(other) => format!("in section {}", shown(other)),
        })
    }
}
