//! Room for a result, read from the inputs before the call. No accepted call needs more, so that the
//! call is made once; only statics of a debug section that has more entries than bytes are left out.
//! This is not proved, and nothing depends on it but time: where the room is too short, 21 says the
//! exact length.
//!
//! It is not simply 16 MiB, the room for every result, as the proved call zeroes all that it is
//! lent: of the firmware in tests/firmware a draft takes 0.02 ms as it is here and 1.3 ms with
//! 16 MiB, a merge 0.08 and 1.4 ms.

use crate::Merge;
use crate::blocks::blocks;
use crate::call::FILE_LIMIT;
use crate::codes::Code;
use crate::elf::{HEADER_SIZE, ObjectFile, SECTION_SIZE, SYMBOL_SIZE, SectionHeader};
use crate::refusal::{ConvertStatics, JobFile};
use crate::words::{Known, statics};

/// The most bytes that the draft of these inputs can have, where it is accepted. `draft` lends that
/// many; a caller of `call::draft_into` may do the same.
pub fn draft_room(compiled: &[u8], prelude: &[u8], block_file: &[u8]) -> usize {
    // What a line of a section adds to the draft besides its label, twice: `.section .rodata` three
    // times, `.space` and ten digits, `glabel` and `_asm_start`, `glabel` and `_asm_end`.
    const SPAN: usize = 3 * 17 + 18 + 18 + 16;
    // The lines around the late words.
    const LATE: usize = 95;
    if is_over([compiled, prelude, block_file]) {
        return 0;
    }
    let blocks = blocks(block_file);
    let spans = || blocks.iter().flat_map(|block| &block.spans);
    // .text is filled up with lines of four bytes, one for each four bytes below the last place.
    let text = spans().filter(|span| span.code == Code::Text);
    let object = ObjectFile::new(JobFile::Compiled, compiled);
    let symbols = object.symbols();
    let first = symbols.and_then(|symbols| symbols.first_of(text.map(|span| span.label)));
    let values = first.iter().flat_map(|first| first.values());
    let last = values.map(|symbol| symbol.st_value as usize).max();
    // `.text` of a block stands for its `desc=`, lines `asm=` and `late=` lose their keys, and
    // labels are twice in the draft.
    let lines = 3 * block_file.len() + SPAN * spans().count() + LATE;
    prelude.len() + 1 + lines + last.unwrap_or(0)
}

/// The most bytes that the result of a merge can have, where it is accepted. `merge` lends that many;
/// a caller of `call::merge_into` may do the same. A debug section whose files share their entries
/// can ask for more.
pub fn merge_room(merge: &Merge) -> usize {
    if is_over([merge.compiled, merge.assembled, merge.blocks]) {
        return 0;
    }
    let compiled = ObjectFile::new(JobFile::Compiled, merge.compiled);
    let assembled = ObjectFile::new(JobFile::Assembled, merge.assembled);
    // C's sections, each aligned, and those that hold nothing but a header.
    let aligned = |section: &SectionHeader| {
        let held = compiled.contents(section).unwrap_or_default().len();
        SECTION_SIZE + held + section.sh_addralign as usize
    };
    let own: usize = compiled
        .sections()
        .map(|(_, section)| aligned(&section))
        .sum();
    // A's relocations, where each table may open a section: a header, and a name up to
    // `.rela.rodata` with its zero.
    let tables = assembled.sections().map(|(_, section)| section);
    let tables = tables.filter(|table| table.relocation_size().is_some());
    let held = |table: &SectionHeader| assembled.contents(table).unwrap_or_default().len();
    let joined: usize = tables
        .map(|table| SECTION_SIZE + 13 + 4 + held(&table))
        .sum();
    // A's symbols and their strings, whole.
    let symbols = assembled.symbol_table();
    let strings = |table: &SectionHeader| assembled.strings(table.sh_link as usize);
    let symbols = symbols.map_or(0, |(_, table)| {
        held(&table) + strings(&table).unwrap_or_default().len()
    });
    HEADER_SIZE + own + joined + symbols + of_statics(compiled, merge) + 4
}

/// Whether a file is over its limit, and the call is refused.
fn is_over(files: [&[u8]; 3]) -> bool {
    files.iter().any(|file| file.len() > FILE_LIMIT)
}

/// What the statics add: entries of the symbol table, and their names with path, colon and zero.
fn of_statics(compiled: ObjectFile, merge: &Merge) -> usize {
    let head = match merge.convert_statics {
        ConvertStatics::GlobalWithFilename => merge.path.len() + 1,
        _ => 0,
    };
    // There are no more entries than bytes, unless files share them. The call may be refused for
    // something else at once, and does not have to wait for a walk over billions.
    let (mode, most) = (merge.convert_statics, compiled.bytes.len());
    let statics = Known::of(compiled).map(|known| statics(&known, mode, most));
    // Where they cannot be read, there is no result.
    let statics = statics.and_then(Result::ok).unwrap_or_default();
    let names = statics.iter().map(|item| head + item.name.len() + 1);
    names.map(|name| SYMBOL_SIZE + name).sum()
}
