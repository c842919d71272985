//! Refusals 11 to 13: sections that are missing or too short, and labels of A that do not line up.

use super::job::{Job, Known};
use super::late_words::{LATE_END, LATE_START};
use super::places::{Taken, block_title, span_title};
use super::quoted;
use crate::codes::Code;
use crate::refusal::Object;

/// 11: a section code of an object.
pub(super) fn missing_words(job: &Job, object: Object, place: usize) -> Option<String> {
    let code = Code::of(place)?;
    let of_blocks = || {
        let mut taken = job.places.taken.iter();
        taken.find_map(|taken| {
            let fault = (taken.span.code == code).then(|| block_fault(job, object, taken))??;
            let title = span_title(taken.block, job.desc(taken.block), &taken.span);
            Some(format!("{title}: {fault}"))
        })
    };
    of_blocks()
        .or_else(|| late_fault(job, object, code))
        .or_else(|| registers_fault(job, object, code))
        .or_else(|| target_fault(job, object, code))
}

/// What an object lacks for a block, or what it has too little of.
fn block_fault(job: &Job, object: Object, taken: &Taken) -> Option<String> {
    let code = taken.span.code;
    let known = match object {
        Object::None => return None,
        // C's .bss is not asked for
        Object::Compiled if code == Code::Bss => return None,
        Object::Compiled => &job.compiled,
        Object::Assembled => &job.assembled,
    };
    let (title, name, end) = (known.file.title, code.name(), taken.end());
    if known.section(code).is_none() {
        return Some(format!("{title} has no {name}"));
    }
    let length = known.contents(code).len();
    if code != Code::Bss && end > length {
        return Some(format!(
            "it ends at {end}, past the end of {title}'s {name}, {length}"
        ));
    }
    if (object, code) != (Object::Compiled, Code::Text) {
        return None;
    }
    let numbers = [("place", taken.place), ("size", taken.span.size)];
    let (what, number) = numbers.into_iter().find(|(_, number)| number % 4 != 0)?;
    Some(format!("its {what} {number} is no multiple of 4"))
}

fn late_fault(job: &Job, object: Object, code: Code) -> Option<String> {
    let known = match (object, code) {
        (Object::Compiled, Code::Rodata) => &job.compiled,
        (Object::Assembled, Code::LateRodata) => &job.assembled,
        _ => return None,
    };
    let block = job.late_block().filter(|_| known.section(code).is_none())?;
    let (block, title, name) = (
        block_title(block, job.desc(block)),
        known.file.title,
        code.name(),
    );
    Some(format!(
        "{block} has late words or a jump table, and {title} has no {name}"
    ))
}

fn registers_fault(job: &Job, object: Object, code: Code) -> Option<String> {
    let (compiled, assembled) = (&job.compiled, &job.assembled);
    let differs = compiled.section(code).is_some() && assembled.section(code).is_none();
    let is_asked = (object, code) == (Object::Assembled, Code::Reginfo);
    (is_asked && differs).then(|| {
        let (has, lacks, name) = (compiled.file.title, assembled.file.title, code.name());
        format!("{has} has a {name}, and {lacks} has none")
    })
}

/// A holds bytes for a section that C does not have.
fn target_fault(job: &Job, object: Object, code: Code) -> Option<String> {
    if object != Object::Compiled || job.compiled.section(code).is_some() {
        return None;
    }
    let mut sources = Code::SOURCES.into_iter();
    let source = sources
        .find(|source| source.target() == code && !job.assembled.contents(*source).is_empty())?;
    let (lacks, has) = (job.compiled.file.title, job.assembled.file.title);
    let (target, source, length) = (
        code.name(),
        source.name(),
        job.assembled.contents(source).len(),
    );
    Some(format!(
        "{lacks} has no {target}, and {has}'s {source} has {length} bytes for it"
    ))
}

/// 12: a block whose labels in A are not where the block is.
pub(super) fn label_words(job: &Job, place: usize) -> Option<String> {
    let own = job.places.taken.iter().filter(|taken| taken.block == place);
    own.into_iter().find_map(|taken| {
        let code = taken.span.code;
        let start = [taken.span.label, b"_asm_start"].concat();
        let end = [taken.span.label, b"_asm_end"].concat();
        let fault = misplaced(&job.assembled, &start, code, Some(taken.place as usize))
            .or_else(|| misplaced(&job.assembled, &end, code, Some(taken.end())))?;
        let title = span_title(place, job.desc(place), &taken.span);
        Some(format!("{title}: {fault}"))
    })
}

/// What is wrong with a label of A that must be in a section, at a value where one is asked.
fn misplaced(assembled: &Known, name: &[u8], code: Code, value: Option<usize>) -> Option<String> {
    let (title, label) = (assembled.file.title, quoted(name));
    let Some(symbol) = assembled.symbol_named(name) else {
        return Some(format!("{title} has no symbol {label}"));
    };
    let section = assembled.section(code);
    if section != Some(symbol.st_shndx as usize) {
        let found = assembled.section_of(symbol.st_shndx);
        return Some(format!(
            "{label} of {title} is {found}, it must be in {}",
            code.name()
        ));
    }
    let (at, value) = (symbol.st_value, value?);
    (at as usize != value).then(|| format!("{label} of {title} is at {at}, it must be at {value}"))
}

/// 13: the late labels and the bytes between them.
pub(super) fn late_label_words(job: &Job, place: usize) -> Option<String> {
    let (assembled, code) = (&job.assembled, Code::LateRodata);
    if place != 0 {
        return None;
    }
    let misplaced = |name| misplaced(assembled, name, code, None);
    if let Some(fault) = misplaced(LATE_START).or_else(|| misplaced(LATE_END)) {
        return Some(fault);
    }
    let value = |name| Some(u64::from(assembled.symbol_named(name)?.st_value));
    let (start, end) = (value(LATE_START)?, value(LATE_END)?);
    let needed: u64 = job
        .live_blocks()
        .map(|(_, block)| 4 * block.dummies.len() as u64 + u64::from(block.jump_table))
        .sum();
    let (title, name) = (assembled.file.title, code.name());
    if start + needed != end {
        return Some(format!(
            "the late words of {title} are from {start} to {end} of {name}, and the dummies and \
             jump tables of the block file ask for {needed} bytes"
        ));
    }
    let length = assembled.contents(code).len();
    (end > length as u64).then(|| {
        format!("the late words of {title} end at {end}, past the end of {name}, {length}")
    })
}
