//! Refusals 15 and 16: symbols of A that cannot be taken over.

use super::job::{Job, is_placed, is_placeholder};
use super::late_words::late_words;
use crate::codes::Code;

/// 15: a symbol whose section has no place in C, or whose name is not to be used.
pub(super) fn section_words(job: &Job, place: usize) -> Option<String> {
    let (compiled, assembled) = (&job.compiled, &job.assembled);
    let (symbol, title) = (assembled.symbols.get(place)?, assembled.symbol_title(place));
    if job.is_used(place) && is_placeholder(symbol) {
        return Some(format!(
            "{title}: a relocation uses it, and its name begins with `_asmpp_`"
        ));
    }
    if !job.takes_over(place) || !is_placed(symbol) {
        return None;
    }
    let Some(code) = assembled.source_code(symbol.st_shndx) else {
        let found = assembled.section_of(symbol.st_shndx);
        return Some(format!(
            "{title}: it is {found}, it must be in the first .text, .data, .rodata, .bss or \
             .late_rodata, absolute or undefined"
        ));
    };
    let (target, lacks) = (code.target(), compiled.file.title);
    compiled.section(target).is_none().then(|| {
        let (source, target) = (code.name(), target.name());
        format!("{title}: it is in {source}, and {lacks} has no {target}")
    })
}

/// 16: a symbol of .late_rodata that no late word takes along.
pub(super) fn late_value_words(job: &Job, place: usize) -> Option<String> {
    let assembled = &job.assembled;
    let (symbol, title) = (assembled.symbols.get(place)?, assembled.symbol_title(place));
    let is_late = assembled.source_code(symbol.st_shndx) == Some(Code::LateRodata);
    if !job.takes_over(place) || !is_late {
        return None;
    }
    let value = symbol.st_value as usize;
    let is_moved = late_words(job).ok()?.moved.contains_key(&value);
    (value == 0 || !is_moved).then(|| {
        // an assembler makes a label that is not global the section's symbol, which is unnamed
        let hint = match symbol.name {
            Some(b"") => " (labels of late words must be global)",
            _ => "",
        };
        format!("{title}: it is at {value} of .late_rodata, where no late word starts{hint}")
    })
}
