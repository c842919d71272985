//! Refusal 5: the symbol table and its symbols.

use super::in_brackets;
use crate::elf::{self, ObjectFile, SYMBOL_SIZE};

const SYMBOL_LIMIT: usize = 4096;

pub(super) fn words(object: ObjectFile, place: usize) -> Option<String> {
    if let Some(fault) = table_fault(object) {
        return (place == 0).then_some(fault);
    }
    let count = object.section_count()?;
    let symbol = object.symbols()?.get(place)?;
    let st_shndx = symbol.st_shndx;
    let reserved = (elf::SHN_LORESERVE..elf::SHN_XINDEX).contains(&st_shndx);
    let fault = if symbol.name.is_none() {
        "its name has no zero end".into()
    } else if place == 0 && symbol.entry.iter().any(|&byte| byte != 0) {
        "it must be zeros".into()
    } else if place == 0 && symbol.name != Some(b"") {
        "its name must be empty".into()
    } else if st_shndx as usize >= count && !reserved {
        format!("st_shndx is {st_shndx}, there are {count} sections")
    } else {
        return None;
    };
    let title = symbol_title(object, place, symbol.name);
    Some(format!("{title}: {fault}"))
}

/// `symbol 3 (NAME) of the compiled object`.
pub(super) fn symbol_title(object: ObjectFile, index: usize, name: Option<&[u8]>) -> String {
    let name = in_brackets(name);
    format!("symbol {index}{name} of {}", object.title)
}

/// What is wrong with the whole table.
fn table_fault(object: ObjectFile) -> Option<String> {
    let title = object.title;
    let Some((index, table)) = object.symbol_table() else {
        return Some(format!("{title} has no symbol table"));
    };
    let section = super::sections::section_title(object, index);
    if table.sh_entsize as usize != SYMBOL_SIZE {
        return Some(format!(
            "{section}: sh_entsize is {}, for symbols it must be {SYMBOL_SIZE}",
            table.sh_entsize
        ));
    }
    if object.strings(table.sh_link as usize).is_none() {
        return Some(format!(
            "{section}: sh_link is {}, which is no string table",
            table.sh_link
        ));
    }
    let symbols = table.sh_size as usize / SYMBOL_SIZE;
    (!(1..=SYMBOL_LIMIT).contains(&symbols)).then(|| {
        format!(
            "{section} has {symbols} symbols, entry 0 included; it may have 1 to {SYMBOL_LIMIT}"
        )
    })
}
