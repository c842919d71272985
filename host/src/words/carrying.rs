//! Refusals 10 and 20: relocation tables that cannot be carried, and entries that lead nowhere.

use super::job::{Job, Known};
use super::late_words::{Late, late_words};
use super::sections::section_name;
use crate::codes::Code;
use crate::elf::{self, SectionHeader};
use crate::refusal::Object;

/// 10: a section of C.
pub(super) fn clash_words(job: &Job, place: usize) -> Option<String> {
    let fault = table_fault(job, place)
        .or_else(|| symbol_fault(job, place))
        .or_else(|| joined_fault(job, place))?;
    Some(format!("{}: {fault}", job.compiled.section_title(place)))
}

/// C's table for another section than the four, or for one that is dropped.
fn table_fault(job: &Job, place: usize) -> Option<String> {
    let Known { file, .. } = job.compiled;
    let table = file.section(place)?;
    table.relocation_size()?;
    let target = table.sh_info as usize;
    let four = Code::LINES.map(|code| job.compiled.section(code));
    let title = section_name(file, target);
    if table.sh_size > 0 && !four.contains(&Some(target)) {
        return Some(format!(
            "it has relocations for {title}, and only those for the first .text, .data, .rodata \
             and .bss can be carried"
        ));
    }
    (target >= job.stay).then(|| format!("it is for {title}, which is dropped"))
}

/// C's symbol in a section that is dropped.
fn symbol_fault(job: &Job, place: usize) -> Option<String> {
    let mut symbols = job.compiled.symbols.iter();
    let index = symbols.position(|symbol| symbol.st_shndx as usize == place)?;
    let is_dropped = (job.stay..job.compiled.file.section_count()?).contains(&place);
    is_dropped.then(|| {
        format!(
            "it is dropped, and {} is in it",
            job.compiled.symbol_title(index)
        )
    })
}

/// C's table that entries of A cannot join.
fn joined_fault(job: &Job, place: usize) -> Option<String> {
    let file = job.compiled.file;
    let joined = file.section(place)?;
    let name = file.section_name(place)?;
    carried_tables(job).find_map(|(code, _, table)| {
        let target = code.target();
        let joins = joined_name(target, &table)?.as_bytes() == name
            && file.section_named(name) == Some(place)
            && place < job.stay
            && table.sh_size > 0;
        if !joins {
            return None;
        }
        let from = code.name();
        let join = format!("the assembled object's relocations for {from} join it");
        let (its, theirs) = (joined.sh_type, table.sh_type);
        if its != theirs {
            return Some(format!(
                "{join}, but its sh_type is {its:#x}, theirs {theirs:#x}"
            ));
        }
        let section = job.compiled.section(target);
        let sh_info = joined.sh_info;
        (section != Some(sh_info as usize)).then(|| {
            let name = target.name();
            let there = match section {
                Some(index) => format!("{name} is section {index}"),
                None => format!("there is no {name}"),
            };
            format!("{join}, but its sh_info is {sh_info}, and {there}")
        })
    })
}

/// `.rel.text`, where entries of that type for that section go.
fn joined_name(target: Code, table: &SectionHeader) -> Option<String> {
    let start = match table.sh_type {
        elf::SHT_REL => ".rel",
        elf::SHT_RELA => ".rela",
        _ => return None,
    };
    Some([start, target.name()].concat())
}

/// A's tables that are carried, each with its section's code and its index.
fn carried_tables<'a>(job: &'a Job) -> impl Iterator<Item = (Code, usize, SectionHeader)> + 'a {
    let assembled = &job.assembled;
    let codes = Code::SOURCES.into_iter();
    let held = codes.filter(|&code| !assembled.contents(code).is_empty());
    held.flat_map(move |code| {
        let section = assembled.section(code).into_iter();
        let tables = section.flat_map(|section| assembled.file.tables_of(section));
        tables.map(move |(index, table)| (code, index, table))
    })
}

/// 20: an offset in one of the tables of an object.
pub(super) fn lost_words(job: &Job, object: Object, place: usize) -> Option<String> {
    let late = late_words(job).ok()?;
    match object {
        Object::None => None,
        Object::Compiled => lost_in_compiled(job, &late, place),
        Object::Assembled => lost_in_assembled(job, &late, place),
    }
}

fn lost_in_compiled(job: &Job, late: &Late, place: usize) -> Option<String> {
    let compiled = &job.compiled;
    let mut codes = Code::LINES.into_iter();
    codes.find_map(|code| {
        let mut tables = compiled.file.tables_of(compiled.section(code)?);
        if is_left_out(job, late, code, place) {
            return None;
        }
        tables.find_map(|(index, table)| {
            let mut entries = compiled.file.relocations(&table);
            let lost =
                entries.find(|entry| entry.offset as usize == place && !job.keeps(entry.symbol))?;
            Some(without_symbol(compiled, index, place, lost.symbol))
        })
    })
}

/// Whether C's relocation is of a word that the merge replaces.
fn is_left_out(job: &Job, late: &Late, code: Code, offset: usize) -> bool {
    match code {
        Code::Text => job.places.taken.iter().any(|taken| {
            let start = taken.place as usize;
            let is_inside = (start..taken.end()).contains(&offset);
            taken.span.code == code && is_inside && (offset - start).is_multiple_of(4)
        }),
        Code::Rodata => late.jump_words.contains(&offset),
        _ => false,
    }
}

fn lost_in_assembled(job: &Job, late: &Late, place: usize) -> Option<String> {
    let assembled = &job.assembled;
    carried_tables(job).find_map(|(code, index, table)| {
        let entries = assembled.file.relocations(&table);
        let mut here = entries.filter(|entry| entry.offset as usize == place);
        here.find_map(|entry| {
            if !job.takes_over(entry.symbol) {
                return Some(without_symbol(assembled, index, place, entry.symbol));
            }
            let is_stuck = code == Code::LateRodata && !late.moved.contains_key(&place);
            is_stuck.then(|| {
                let table = assembled.section_title(index);
                format!("{table}: its relocation at {place} is at no late word that moves")
            })
        })
    })
}

fn without_symbol(object: &Known, table: usize, offset: usize, symbol: usize) -> String {
    let title = object.section_title(table);
    let symbol = object.symbol_title(symbol);
    format!("{title}: its relocation at {offset} uses {symbol}, which is not in the result")
}
