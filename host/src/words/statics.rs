//! Refusal 17, and the statics. The walk over the debug entries is a second one, which is not
//! proved; its words are used only where it stops at the entry that the library gave.

use super::job::{Job, Known};
use super::{Fault, in_brackets};
use crate::codes::Code;
use crate::elf::{self, word};
use crate::refusal::ConvertStatics;
use std::collections::HashMap;

const STATIC_LIMIT: usize = 4096;
const NAME_LIMIT: usize = 1024;
const DEBUG_HEADER: usize = 96;
const DEBUG_MAGIC: u32 = 0x7009;

/// Types of entries: those of statics, those that open a scope, the one that closes it.
const STATICS: [u32; 2] = [2, 14];
const OPENING: [u32; 7] = [6, 7, 11, 14, 26, 27, 28];
const CLOSING: u32 = 8;

pub(crate) struct Static {
    /// With its count, without a path.
    pub name: Vec<u8>,
    pub value: u32,
    pub code: Code,
}

pub(super) fn words(job: &Job, place: usize) -> Option<String> {
    match statics(&job.compiled, job.statics, usize::MAX) {
        Err(fault) => fault.told_at(place),
        // then it is the 17 that comes after 20
        Ok(_) => moved_words(job).filter(|_| place == 0),
    }
}

/// The statics, or the first entry at fault. None are looked for in mode `No`. Files of the debug
/// section may share their entries, so that there are far more than bytes: `most` is how many may be
/// looked at.
pub(crate) fn statics(
    compiled: &Known,
    mode: ConvertStatics,
    most: usize,
) -> Result<Vec<Static>, Fault> {
    let file = compiled.file;
    let section = file
        .section_named(b".mdebug")
        .and_then(|index| file.section(index));
    let (Some(section), false) = (section, mode == ConvertStatics::No) else {
        return Ok(vec![]);
    };
    let mut walk = Walk {
        compiled,
        statics: vec![],
        counts: HashMap::new(),
        entries: 0,
        most,
    };
    let debug = file.contents(&section).unwrap_or_default();
    match walk.all_files(debug) {
        Ok(()) => Ok(walk.statics),
        Err(fault) => Err(Fault {
            place: walk.entries,
            words: format!("the debug section of {}: {fault}", file.title),
        }),
    }
}

struct Walk<'a, 'b> {
    compiled: &'b Known<'a>,
    statics: Vec<Static>,
    /// How often a name stood above level 1.
    counts: HashMap<&'a [u8], usize>,
    entries: usize,
    most: usize,
}

impl<'a> Walk<'a, '_> {
    /// A word of the file.
    fn word(&self, at: u64) -> Result<u32, String> {
        let bytes = self.compiled.file.bytes;
        let word = usize::try_from(at).ok().and_then(|at| word(bytes, at));
        word.ok_or_else(|| {
            let length = bytes.len();
            format!("a read at {at} passes the file's end, {length}")
        })
    }

    fn all_files(&mut self, debug: &[u8]) -> Result<(), String> {
        let header = |at| {
            word(debug, at).ok_or_else(|| {
                let length = debug.len();
                format!("its header is cut off at {length} bytes")
            })
        };
        let (files, files_at) = (header(72)?, u64::from(header(76)?));
        let (symbols_at, names_at) = (u64::from(header(36)?), u64::from(header(60)?));
        for file in 0..u64::from(files) {
            let descriptor = files_at + 72 * file;
            let word = |at| {
                let word = self.word(descriptor + at).map(u64::from);
                word.map_err(|fault| format!("file {file}: {fault}"))
            };
            let (names, first, count) = (names_at + word(8)?, word(16)?, word(20)?);
            let mut level = 0;
            for symbol in first..first + count {
                if self.entries == self.most {
                    return Err(format!("there are more entries than {}", self.most));
                }
                let entry = self.entry(symbols_at + 12 * symbol, names, level);
                level = entry.map_err(|fault| format!("entry {}: {fault}", self.entries))?;
                self.entries += 1;
            }
            if level != 0 {
                return Err(format!("file {file} ends at scope level {level}, not at 0"));
            }
        }
        Ok(())
    }

    /// The level behind an entry.
    fn entry(&mut self, at: u64, names: u64, level: i64) -> Result<i64, String> {
        let (name, value, bits) = (self.word(at)?, self.word(at + 4)?, self.word(at + 8)?);
        let (kind, storage) = (bits >> 26, bits >> 21 & 31);
        if STATICS.contains(&kind) {
            self.one_static(names + u64::from(name), value, storage, level)?;
        }
        let opened = i64::from(OPENING.contains(&kind));
        Ok(level + opened - i64::from(kind == CLOSING))
    }

    fn one_static(&mut self, at: u64, value: u32, storage: u32, level: i64) -> Result<(), String> {
        let name = self.name(at)?;
        let title = in_brackets(Some(name));
        let code = match storage {
            1 => Code::Text,
            2 => Code::Data,
            3 => Code::Bss,
            15 => Code::Rodata,
            _ => {
                return Err(format!(
                    "its static{title} has storage class {storage}, no section's"
                ));
            }
        };
        if self.compiled.section(code).is_none() {
            let section = code.name();
            return Err(format!(
                "its static{title} is in {section}, which is not there"
            ));
        }
        if self.statics.len() == STATIC_LIMIT {
            return Err(format!("its static{title} is one more than {STATIC_LIMIT}"));
        }
        let mut written = name.to_vec();
        if level > 1 {
            let count = self.counts.entry(name).or_insert(0);
            *count += 1;
            written.extend(format!(":{count}").into_bytes());
        }
        self.statics.push(Static {
            name: written,
            value,
            code,
        });
        Ok(())
    }

    fn name(&self, at: u64) -> Result<&'a [u8], String> {
        let start = usize::try_from(at).ok();
        let rest = start.and_then(|at| self.compiled.file.bytes.get(at..));
        let rest = rest.unwrap_or_default();
        // Names may share one long string: each is read no further than it may be long.
        let near = rest.get(..=NAME_LIMIT).unwrap_or(rest);
        if let Some(name) = elf::string(near, 0) {
            return Ok(name);
        }
        let name = elf::string(rest, 0);
        let name = name.ok_or_else(|| format!("the name at {at} has no zero end"))?;
        let length = name.len();
        Err(format!(
            "the name at {at} has {length} bytes, it may have {NAME_LIMIT}"
        ))
    }
}

/// A debug section that moves, and whose header does not say what to move. Which of several moves
/// is not worked out here.
fn moved_words(job: &Job) -> Option<String> {
    let file = job.compiled.file;
    let is_unfit = |section: &elf::SectionHeader| {
        let contents = file.contents(section).unwrap_or_default();
        let has_magic = elf::half(contents, 0) == Some(DEBUG_MAGIC);
        section.sh_type == elf::SHT_MIPS_DEBUG && (contents.len() < DEBUG_HEADER || !has_magic)
    };
    let kept = file.sections().take(job.stay);
    let unfit: Vec<_> = kept.filter(|(_, section)| is_unfit(section)).collect();
    let title = match &unfit[..] {
        [] => return None,
        [(index, _)] => job.compiled.section_title(*index),
        _ => format!("a debug section of {}", file.title),
    };
    Some(format!(
        "{title} moves, and does not begin with a debug header: {DEBUG_HEADER} bytes and magic \
         {DEBUG_MAGIC:04x} hex"
    ))
}
