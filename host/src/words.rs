//! The words of a refusal: one line that names what is at fault as a person would, with the file
//! that it is about. The library gives a number and a place; the words are read from the inputs
//! again, by code that is not proved. So what is told is checked against the inputs, and where they
//! do not show the fault the words are document 01's general clause, never a guess.
//!
//! Names may share their bytes, and a search for one of thousands must not read them thousands of
//! times: `elf.rs` says what is done about that. Relocation tables, and files of a debug section, may
//! share their entries: these are walked over as the call does it, once for each that has them.

mod block_file;
mod carrying;
mod file_header;
mod job;
mod late_words;
mod line_up;
mod places;
mod relocations;
mod sections;
mod statics;
mod symbol_list;
mod symbols;
mod taken_symbols;

use crate::call::{FILE_LIMIT, PATH_LIMIT};
use crate::elf::ObjectFile;
use crate::refusal::{JobFile, Number, Object, Refusal};
use crate::{Asked, Draft, Merge};
use job::Job;
pub(crate) use job::Known;
pub(crate) use statics::statics;

/// What a call was asked for, and the most bytes that its output may have.
#[derive(Clone, Copy, Debug, PartialEq, Eq, Hash)]
pub struct Inputs<'a> {
    /// The call, with its files.
    pub asked: Asked<'a>,
    /// The most bytes of its output.
    pub room: usize,
}

impl<'a> Inputs<'a> {
    fn blocks(&self) -> &'a [u8] {
        match self.asked {
            Asked::Draft(Draft { blocks, .. }) | Asked::Merge(Merge { blocks, .. }) => blocks,
        }
    }

    /// C and A; a draft has no assembled object.
    fn objects(&self) -> (ObjectFile<'a>, Option<ObjectFile<'a>>) {
        let (compiled, assembled) = match self.asked {
            Asked::Draft(draft) => (draft.compiled, None),
            Asked::Merge(merge) => (merge.compiled, Some(merge.assembled)),
        };
        let assembled = assembled.map(|bytes| ObjectFile::new(JobFile::Assembled, bytes));
        (ObjectFile::new(JobFile::Compiled, compiled), assembled)
    }

    fn object(&self, object: Object) -> Option<ObjectFile<'a>> {
        let (compiled, assembled) = self.objects();
        match object {
            Object::None => None,
            Object::Compiled => Some(compiled),
            Object::Assembled => assembled,
        }
    }
}

/// The words of a refusal of these inputs.
pub fn words(inputs: &Inputs, number: Number, object: Object, place: u64) -> String {
    Refusal::of(inputs, number, object, place).words
}

impl Refusal {
    /// A refusal of these inputs, with its file and its words.
    pub fn of(inputs: &Inputs, number: Number, object: Object, place: u64) -> Refusal {
        let told = told(inputs, number, object, place);
        let Told { file, line, words } = told.unwrap_or_else(|| {
            // 7 says its line by itself.
            let line = usize::try_from(place).ok();
            Told {
                file: usual_file(number, object),
                line: line.filter(|_| number == Number::BlockFile),
                words: clause(number).into(),
            }
        });
        Refusal {
            number,
            object,
            place,
            file,
            line,
            words,
        }
    }
}

/// What the inputs show: the file at fault, its line where it has lines, and the words.
struct Told {
    file: JobFile,
    line: Option<usize>,
    words: String,
}

impl Told {
    fn of(file: JobFile, words: String) -> Told {
        Told {
            file,
            line: None,
            words,
        }
    }

    fn at_line(line: usize, words: String) -> Told {
        Told {
            file: JobFile::Blocks,
            line: Some(line),
            words,
        }
    }
}

/// The file that a refusal of a number is about, as far as number and object say it. 8 and 9 are on
/// C's symbols by their object, but what is to be changed is the line of the block file.
fn usual_file(number: Number, object: Object) -> JobFile {
    match (number, object) {
        (Number::BlockFile | Number::BlockPlace | Number::BlockAlignment, _) => JobFile::Blocks,
        (Number::OutputRoom, _) => JobFile::Output,
        (_, Object::Assembled) => JobFile::Assembled,
        (_, Object::None | Object::Compiled) => JobFile::Compiled,
    }
}

/// What the inputs show, if they show the fault.
fn told(inputs: &Inputs, number: Number, object: Object, place: u64) -> Option<Told> {
    let at = usize::try_from(place).ok()?;
    let job = || Job::read(inputs);
    let words = match number {
        Number::Limits => return limits(inputs),
        Number::FileHeader => file_header::words(inputs.object(object)?, at),
        Number::SectionHeader => sections::header_words(inputs.object(object)?, at),
        Number::SectionName => sections::name_words(inputs.object(object)?, at),
        Number::SymbolTable => symbols::words(inputs.object(object)?, at),
        Number::RelocationTable => relocations::words(inputs.object(object)?, at),
        Number::BlockFile => {
            return Some(Told::at_line(at, block_file::words(inputs.blocks(), at)?));
        }
        Number::BlockPlace | Number::BlockAlignment => {
            let fault = places::first_fault(inputs.object(object)?, inputs.blocks())?;
            let is_told = (fault.number, fault.block) == (number, at);
            return is_told.then(|| Told::at_line(fault.line, fault.words));
        }
        Number::Clash => carrying::clash_words(&job()?, at),
        Number::MissingSection => line_up::missing_words(&job()?, object, at),
        Number::BlockLabels => line_up::label_words(&job()?, at),
        Number::LateLabels => line_up::late_label_words(&job()?, at),
        Number::LateStep => late_words::words(&job()?, at),
        Number::SymbolSection => taken_symbols::section_words(&job()?, at),
        Number::LateSymbol => taken_symbols::late_value_words(&job()?, at),
        Number::Statics => statics::words(&job()?, at),
        Number::LooseSymbol => return symbol_list::loose_words(&job()?, at),
        Number::NameTwice => return symbol_list::twice_words(&job()?, at),
        Number::LostEntry => carrying::lost_words(&job()?, object, at),
        Number::OutputRoom => {
            let room = inputs.room;
            let result = format!("the result has {place} bytes, the output may have {room}");
            (at > room).then_some(result)
        }
    };
    Some(Told::of(usual_file(number, object), words?))
}

/// What a second walk over the inputs found, and where.
pub(crate) struct Fault {
    place: usize,
    words: String,
}

impl Fault {
    /// Its words, where the library gave the same place.
    fn told_at(self, place: usize) -> Option<String> {
        (self.place == place).then_some(self.words)
    }
}

/// A file over its limit; or the path, which is C's.
fn limits(inputs: &Inputs) -> Option<Told> {
    let (compiled, other, path) = match inputs.asked {
        Asked::Draft(draft) => (draft.compiled, (JobFile::Prelude, draft.prelude), None),
        Asked::Merge(merge) => {
            let assembled = (JobFile::Assembled, merge.assembled);
            (merge.compiled, assembled, Some(merge.path))
        }
    };
    let (compiled, blocks) = (
        (JobFile::Compiled, compiled),
        (JobFile::Blocks, inputs.blocks()),
    );
    let mut files = [compiled, other, blocks].into_iter();
    if let Some((file, _)) = files.find(|(_, bytes)| bytes.len() > FILE_LIMIT) {
        let words = format!("{} has more than {FILE_LIMIT} bytes", file.title());
        return Some(Told::of(file, words));
    }
    Some(Told::of(JobFile::Compiled, path_fault(path?)?))
}

/// What is wrong with the path of a merge.
pub fn path_fault(path: &[u8]) -> Option<String> {
    if path.len() > PATH_LIMIT {
        let length = path.len();
        return Some(format!(
            "the path has {length} bytes, it may have {PATH_LIMIT}"
        ));
    }
    let at = path.iter().position(|byte| !(1..=127).contains(byte))?;
    let byte = path.get(at)?;
    Some(format!(
        "byte {at} of the path is {byte}, it must be from 1 to 127"
    ))
}

/// Document 01's clause for a number.
fn clause(number: Number) -> &'static str {
    match number {
        Number::Limits => {
            "an input is over its limit, a setting is unknown, or a working buffer is below its \
             size"
        }
        Number::FileHeader => "a file header is not as it must be",
        Number::SectionHeader => "a section count or a section header is not as it must be",
        Number::SectionName => {
            "e_shstrndx names no string table, or a section name has no zero end or a byte over 127"
        }
        Number::SymbolTable => "a symbol table is not as it must be",
        Number::RelocationTable => "a relocation table is not as it must be",
        Number::BlockFile => "the block file is not as it must be",
        Number::BlockPlace => {
            "a size is 0, or a place is below the end of the block before in that section"
        }
        Number::BlockAlignment => "an align8 is not 0 and not 8 - (place mod 8)",
        Number::Clash => {
            "a relocation table of the compiled object cannot be carried, or a dropped section is \
             referred to"
        }
        Number::MissingSection => {
            "a section is missing, a block passes its end, or a .text place or size is no multiple \
             of 4"
        }
        Number::BlockLabels => {
            "a block's start or end label is not in the assembled object at the block's place"
        }
        Number::LateLabels => "the late labels do not span the late words",
        Number::LateStep => "a late word or a jump table finds no place",
        Number::SymbolSection => {
            "a symbol of the assembled object has no section in the result, or a relocation uses a \
             name that begins with `_asmpp_`"
        }
        Number::LateSymbol => "a symbol of .late_rodata is at no late word",
        Number::Statics => "the debug section is not as it must be",
        Number::LooseSymbol => "a symbol is local and undefined, or neither named nor local",
        Number::NameTwice => "a name is defined at two places",
        Number::LostEntry => {
            "a relocation's symbol is not in the result, or its late offset does not move"
        }
        Number::OutputRoom => "the output is shorter than the result",
    }
}

/// Bytes of an input in a line of words: printable ASCII, the rest escaped, what is long cut short.
pub(crate) fn shown(bytes: &[u8]) -> String {
    const LONGEST: usize = 48;
    let (shown, dots) = match bytes.get(..LONGEST) {
        Some(front) if bytes.len() > LONGEST => (front, "..."),
        _ => (bytes, ""),
    };
    format!("{}{dots}", shown.escape_ascii())
}

/// The same between backquotes.
fn quoted(bytes: &[u8]) -> String {
    format!("`{}`", shown(bytes))
}

/// ` (NAME)` behind an index; nothing where there is no name.
fn in_brackets(name: Option<&[u8]>) -> String {
    match name {
        None | Some([]) => String::new(),
        Some(name) => format!(" ({})", quoted(name)),
    }
}
