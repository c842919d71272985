//! Makes block files, so that nobody counts bytes by hand: from C with `GLOBAL_ASM` as
//! asm-processor reads it, with the sizes that the assembler says, or from a list of spans by one
//! who has the sizes. Nothing here is proved, and nothing has to be: what is wrong with a block
//! file, the draft or the merge refuses.

mod fragment;
mod measure;
mod output;
mod source;
mod spans;

use crate::codes::Code;
use fragment::Fragment;
use std::{
    ffi::OsStr,
    fmt,
    path::{Path, PathBuf},
};

/// What stands around: files, and an assembler.
pub trait Tools {
    /// The bytes of a file, or why it cannot be read.
    fn read(&mut self, path: &Path) -> Result<Vec<u8>, String>;

    /// The object that the assembler makes of a text, or what it says.
    fn assemble(&mut self, text: &[u8]) -> Result<Vec<u8>, String>;
}

/// A file in hand, and its name for messages.
#[derive(Clone, Copy, Debug)]
pub struct Named<'a> {
    /// As it was given.
    pub name: &'a Path,
    /// All of it.
    pub bytes: &'a [u8],
}

/// What is made of C with `GLOBAL_ASM`.
#[derive(Clone, Debug, PartialEq, Eq)]
pub struct Described {
    /// The block file.
    pub blocks: Vec<u8>,
    /// The C with a placeholder for each routine, line by line where the routine stood.
    pub source: Vec<u8>,
    /// The files of assembly that were read, each once.
    pub files: Vec<PathBuf>,
}

/// What is wrong, and where. It is shown as `FILE:LINE: words`.
#[derive(Clone, Debug, PartialEq, Eq)]
pub struct Fault {
    /// The file at fault. Empty where the words name it themselves, as the assembler's do.
    pub file: PathBuf,
    /// From 1; none where the file as a whole is meant.
    pub line: Option<usize>,
    /// What is wrong.
    pub words: String,
}

impl fmt::Display for Fault {
    fn fmt(&self, f: &mut fmt::Formatter) -> fmt::Result {
        let file = shown(self.file.as_os_str());
        match self.line {
            _ if file.is_empty() => write!(f, "{}", self.words),
            None => write!(f, "{file}: {}", self.words),
            Some(line) => write!(f, "{file}:{line}: {}", self.words),
        }
    }
}

impl std::error::Error for Fault {}

/// A name on one line, with what is not printable escaped.
fn shown(name: &OsStr) -> String {
    let quoted = format!("{name:?}");
    let inner = quoted
        .strip_prefix('"')
        .and_then(|rest| rest.strip_suffix('"'));
    inner.unwrap_or(&quoted).to_string()
}

/// A block of the file that is made.
struct Block {
    /// What the draft's and the merge's messages call it.
    desc: Vec<u8>,
    spans: Vec<Span>,
    dummies: Vec<u32>,
    /// The bytes of late words behind those of the dummies.
    jump_table: u32,
    fragment: Fragment,
    /// Bytes that the late words get behind them, so that those of the next block begin at a
    /// multiple of 8.
    late_padding: u32,
}

/// What a block has in one of the four sections of block lines.
struct Span {
    code: Code,
    label: String,
    size: u32,
    align8: u32,
    /// The alignment of the placeholder, if one is written.
    align: u32,
}

/// The block file of C with `GLOBAL_ASM`, and the C that the compiler must see. The prelude is the
/// draft's. Files of assembly are looked for from `base` on.
pub fn of_source(
    source: Named,
    prelude: Named,
    base: &Path,
    tools: &mut impl Tools,
) -> Result<Described, Fault> {
    let (routines, files) = source::routines(source, base, tools)?;
    let blocks = measure::blocks(source.name, &routines, prelude, tools)?;
    Ok(Described {
        blocks: output::block_file(&blocks),
        source: source::with_placeholders(source, &routines, &blocks),
        files,
    })
}

/// The block file of a list of spans, and the files of assembly that were read, each once.
pub fn of_spans(
    list: Named,
    base: &Path,
    tools: &mut impl Tools,
) -> Result<(Vec<u8>, Vec<PathBuf>), Fault> {
    let (blocks, files) = spans::blocks(list, base, tools)?;
    Ok((output::block_file(&blocks), files))
}

/// The lines of a text, without their ends.
fn lines(text: &[u8]) -> impl Iterator<Item = &[u8]> {
    let text = text.strip_suffix(b"\n").unwrap_or(text);
    let is_empty = text.is_empty();
    let lines = text
        .split(|&byte| byte == b'\n')
        .map(<[u8]>::trim_ascii_end);
    lines.filter(move |_| !is_empty)
}
