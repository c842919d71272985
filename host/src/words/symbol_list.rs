//! Refusals 18 and 19: positions in the list of symbols. The list is made a second time, by code
//! that is not proved; its words are used only where it has the fault at the position given.

use super::job::{Job, is_placed};
use super::late_words::{Late, late_words};
use super::statics::statics;
use super::{Told, in_brackets};
use crate::elf::{SHN_UNDEF, Symbol, first_named};
use crate::refusal::{ConvertStatics, JobFile};
use std::borrow::Cow;

/// Where a symbol of the list comes from, with its index there.
#[derive(Clone, Copy)]
enum Origin {
    Compiled(usize),
    Assembled(usize),
    Static(usize),
}

/// A symbol of the list: its working name, and section and value as they are in the result.
struct Listed<'a> {
    origin: Origin,
    name: Cow<'a, [u8]>,
    section: u32,
    value: usize,
    is_local: bool,
}

impl Listed<'_> {
    fn title(&self, job: &Job) -> String {
        match self.origin {
            Origin::Compiled(index) => job.compiled.symbol_title(index),
            Origin::Assembled(index) => job.assembled.symbol_title(index),
            Origin::Static(index) => {
                let (name, title) = (in_brackets(Some(&self.name)), job.compiled.file.title);
                format!("static {index}{name} of {title}")
            }
        }
    }

    /// Words on it, which are on the object that it comes from.
    fn told(&self, words: String) -> Told {
        let file = match self.origin {
            Origin::Compiled(_) | Origin::Static(_) => JobFile::Compiled,
            Origin::Assembled(_) => JobFile::Assembled,
        };
        Told::of(file, words)
    }
}

/// 18: local and undefined, or neither named nor local.
pub(super) fn loose_words(job: &Job, place: usize) -> Option<Told> {
    let list = symbol_list(job)?;
    let symbol = list.get(place)?;
    let fault = if symbol.is_local && symbol.section == SHN_UNDEF {
        "is local and undefined"
    } else if !symbol.is_local && symbol.name.is_empty() {
        "has no name and is not local"
    } else {
        return None;
    };
    Some(symbol.told(format!("{} {fault}", symbol.title(job))))
}

/// 19: a name that is defined at two places. The words are on the object of the later one.
pub(super) fn twice_words(job: &Job, place: usize) -> Option<Told> {
    let list = symbol_list(job)?;
    let second = list.get(place)?;
    let first = first_named(&list, |symbol| Some(&symbol.name), &second.name)?;
    let place = |symbol: &Listed| (symbol.section, symbol.value);
    let differs = second.section != SHN_UNDEF && place(first) != place(second);
    (differs && !second.name.is_empty()).then(|| {
        let shown = |symbol: &Listed| {
            let section = job.compiled.section_of(symbol.section);
            format!("{} is at {}, {section}", symbol.title(job), symbol.value)
        };
        second.told(format!(
            "one name at two places: {}; {}",
            shown(first),
            shown(second)
        ))
    })
}

/// C's, A's, statics; defined ones before undefined.
fn symbol_list<'a>(job: &Job<'a>) -> Option<Vec<Listed<'a>>> {
    let late = late_words(job).ok()?;
    let statics = statics(&job.compiled, job.statics, usize::MAX).ok()?;
    let kept = job.compiled.symbols.iter().enumerate();
    let kept = kept
        .filter(|(index, _)| job.keeps(*index))
        .map(|(index, symbol)| Listed {
            origin: Origin::Compiled(index),
            name: symbol.name.unwrap_or_default().into(),
            section: symbol.st_shndx,
            value: symbol.st_value as usize,
            is_local: symbol.is_local,
        });
    let taken = job.assembled.symbols.iter().enumerate();
    let taken = taken.filter(|(index, _)| job.takes_over(*index));
    let taken = taken.map(|(index, symbol)| {
        let (section, value) = new_place(job, &late, symbol);
        Listed {
            origin: Origin::Assembled(index),
            name: symbol.name.unwrap_or_default().into(),
            section,
            value,
            is_local: symbol.is_local,
        }
    });
    let statics = statics.into_iter().enumerate().map(|(index, item)| Listed {
        origin: Origin::Static(index),
        section: job
            .compiled
            .section(item.code)
            .map_or(SHN_UNDEF, |section| section as u32),
        value: item.value as usize,
        name: item.name.into(),
        is_local: job.statics == ConvertStatics::Local,
    });
    let all = kept.chain(taken).chain(statics);
    let (mut defined, undefined): (Vec<_>, Vec<_>) =
        all.partition(|symbol| symbol.section != SHN_UNDEF);
    defined.extend(undefined);
    Some(defined)
}

/// Section and value of A's symbol in the result.
fn new_place(job: &Job, late: &Late, symbol: &Symbol) -> (u32, usize) {
    let (section, value) = (symbol.st_shndx, symbol.st_value as usize);
    let Some(code) = job
        .assembled
        .source_code(section)
        .filter(|_| is_placed(symbol))
    else {
        return (section, value);
    };
    let target = job
        .compiled
        .section(code.target())
        .map_or(section, |target| target as u32);
    match code.target() == code {
        true => (target, value),
        false => (target, late.moved.get(&value).copied().unwrap_or(value)),
    }
}
