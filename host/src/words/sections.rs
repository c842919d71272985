//! Refusals 3 and 4: the section count, section headers and section names.

use super::in_brackets;
use crate::elf::{self, ObjectFile, SectionHeader};

const SECTION_LIMIT: usize = 128;
const ALIGN_LIMIT: u32 = 65_536;

/// The types that document 01 asks of the first section of a name.
const TYPES: [(&[u8], u32); 6] = [
    (b".text", elf::SHT_PROGBITS),
    (b".data", elf::SHT_PROGBITS),
    (b".rodata", elf::SHT_PROGBITS),
    (b".late_rodata", elf::SHT_PROGBITS),
    (b".bss", elf::SHT_NOBITS),
    (b".reginfo", elf::SHT_MIPS_REGINFO),
];

/// `section 3 (NAME)`.
pub(super) fn section_name(object: ObjectFile, index: usize) -> String {
    format!("section {index}{}", in_brackets(object.section_name(index)))
}

/// `section 3 (NAME) of the compiled object`.
pub(super) fn section_title(object: ObjectFile, index: usize) -> String {
    format!("{} of {}", section_name(object, index), object.title)
}

pub(super) fn header_words(object: ObjectFile, place: usize) -> Option<String> {
    let count = object.section_count()?;
    if !(1..=SECTION_LIMIT).contains(&count) {
        let title = object.title;
        return (place == 0).then(|| {
            format!("{title} has {count} sections (e_shnum), it may have 1 to {SECTION_LIMIT}")
        });
    }
    if place >= count {
        return None;
    }
    let fault = match object.section(place) {
        None => "its header lies outside the file".into(),
        Some(header) => {
            header_fault(object, place, &header).or_else(|| type_fault(object, place, &header))?
        }
    };
    Some(format!("{}: {fault}", section_title(object, place)))
}

/// What is wrong with a header by itself, in document 01's order.
fn header_fault(object: ObjectFile, index: usize, header: &SectionHeader) -> Option<String> {
    let SectionHeader {
        sh_type,
        sh_flags,
        sh_size,
        sh_addralign,
        sh_entsize,
        ..
    } = *header;
    if index == 0 && sh_type != elf::SHT_NULL {
        return Some(format!("sh_type is {sh_type}, it must be 0 there"));
    }
    if index == 0 && sh_size != 0 {
        return Some(format!("sh_size is {sh_size}, it must be 0 there"));
    }
    if index != 0 && sh_type == elf::SHT_NULL {
        return Some("sh_type is 0, which is for section 0 alone".into());
    }
    if sh_flags & elf::SHF_LINK_ORDER != 0 {
        return Some("sh_flags has SHF_LINK_ORDER".into());
    }
    if sh_entsize != 0 && !sh_size.is_multiple_of(sh_entsize) {
        return Some(format!(
            "sh_size {sh_size} is no multiple of sh_entsize {sh_entsize}"
        ));
    }
    if object.contents(header).is_none() {
        let (offset, length) = (header.sh_offset, object.bytes.len());
        return Some(format!(
            "sh_size {sh_size} at sh_offset {offset} passes the file's end, {length}"
        ));
    }
    (sh_addralign > ALIGN_LIMIT)
        .then(|| format!("sh_addralign is {sh_addralign}, it may be {ALIGN_LIMIT} at most"))
}

/// What is wrong with a type beside its name.
fn type_fault(object: ObjectFile, index: usize, header: &SectionHeader) -> Option<String> {
    let name = object.section_name(index)?;
    let (_, needed) = TYPES.into_iter().find(|&(known, _)| known == name)?;
    let first = object.section_named(name) == Some(index);
    (first && header.sh_type != needed).then(|| {
        format!(
            "sh_type is {:#x}, for this name it must be {needed:#x}",
            header.sh_type
        )
    })
}

pub(super) fn name_words(object: ObjectFile, place: usize) -> Option<String> {
    let names = object.section_names_index()?;
    let Some(strings) = object.strings(names) else {
        let title = object.title;
        return (place == 0)
            .then(|| format!("e_shstrndx of {title} is {names}, which is no string table"));
    };
    let fault = match elf::string(strings, object.section(place)?.sh_name) {
        None => "has no zero end",
        Some(name) if !name.is_ascii() => "has a byte over 127",
        Some(_) => return None,
    };
    Some(format!(
        "the name of {} {fault}",
        section_title(object, place)
    ))
}
