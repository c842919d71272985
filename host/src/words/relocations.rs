//! Refusal 6: a relocation table.

use super::sections::section_title;
use crate::elf::ObjectFile;

pub(super) fn words(object: ObjectFile, place: usize) -> Option<String> {
    let table = object.section(place)?;
    let count = object.section_count()?;
    let entry = table.relocation_size()? as u32;
    let (symbols, _) = object.symbol_table()?;
    let (sh_link, sh_info) = (table.sh_link, table.sh_info);
    let fault = if table.sh_entsize != entry {
        let kind = if entry == 8 { "REL" } else { "RELA" };
        let found = table.sh_entsize;
        format!("sh_entsize is {found}, for {kind} it must be {entry}")
    } else if sh_info as usize >= count {
        format!("sh_info is {sh_info}, there are {count} sections")
    } else if sh_link as usize != symbols {
        format!("sh_link is {sh_link}, the symbol table is section {symbols}")
    } else {
        return None;
    };
    Some(format!("{}: {fault}", section_title(object, place)))
}
