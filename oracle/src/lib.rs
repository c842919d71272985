//! Runs the unchanged postprocess.rs of asm-processor on objects and block files given as
//! bytes. The module is taken in from where build.rs found it; the items that it asks of its
//! crate's root stand here, written anew from their meaning there.

// postprocess.rs takes `Command` and files from `std`; this one can do without a shell and disk.
extern crate std_standin as std;

mod blocks;
#[cfg(test)]
mod digest;

include!(concat!(env!("OUT_DIR"), "/module.rs"));

use std::{
    borrow::Cow,
    env,
    ffi::OsStr,
    fmt, fs,
    os::unix::ffi::OsStrExt,
    panic::{AssertUnwindSafe, catch_unwind},
    path::{Component, Path, PathBuf},
    process::set_assembler,
};

use anyhow::anyhow;
use enum_map::{Enum, EnumMap};
use temp_dir::TempDir;

/// What postprocess.rs is to be run on.
pub struct Job<'a> {
    /// C, the compiled object.
    pub compiled: &'a [u8],
    /// A, the assembled object. Without it the job ends at the draft.
    pub assembled: Option<&'a [u8]>,
    pub prelude: &'a [u8],
    pub blocks: &'a [u8],
    /// The name under which postprocess.rs gets C: a relative path of a file.
    pub path: &'a [u8],
    pub drop_mdebug_gptab: bool,
    /// 0 no, 1 local, 2 global, 3 global with filename.
    pub statics: u8,
}

#[derive(Debug, PartialEq)]
pub enum Answer {
    /// The draft, or the merged object where A was given.
    Done(Vec<u8>),
    /// `panic MESSAGE` or `err MESSAGE`.
    Refused(String),
    /// No verdict: the job cannot be run here, for the reason given.
    Limit(String),
}

/// Who plays the assembler, and where the files are.
pub enum Shell {
    /// `sh` and `mv` on files of a temporary folder, as postprocess.rs means it. The current
    /// folder of the process changes, so only one thread may run such jobs.
    Real,
    /// A function of ours and files in memory, many times faster.
    Quick,
}

/// Errors of the machine: the limit on the size of a file, a full disk, and an assembler that
/// failed against its task.
const NO_VERDICT: [&str; 3] = ["File too large", "No space left", "Failed to assemble"];

/// Runs one job.
pub fn run(job: &Job, shell: Shell) -> Answer {
    let answer = match (MISSING, shell) {
        (Some(reason), _) => Err(anyhow!("{reason}")),
        (None, Shell::Real) => on_disk(job),
        (None, Shell::Quick) => in_memory(job),
    };
    answer.unwrap_or_else(|limit| Answer::Limit(limit.to_string()))
}

fn on_disk(job: &Job) -> anyhow::Result<Answer> {
    let folder = TempDir::with_prefix("job")?;
    let path = path_of(job)?;
    place_compiled(folder.path(), path, job.compiled)?;
    let draft = folder.path().join("draft");
    let assembled = folder.path().join("assembled");
    if let Some(bytes) = job.assembled {
        fs::write(&assembled, bytes)?;
    }
    let command = shell_command(job, &draft, &assembled)?;
    let refusal = fixup(job, path, &command);
    if job.assembled.is_none() && draft.exists() {
        return Ok(Answer::Done(fs::read(draft)?));
    }
    match refusal? {
        Some(refusal) => Ok(refusal),
        None => Ok(Answer::Done(fs::read(path)?)),
    }
}

fn in_memory(job: &Job) -> anyhow::Result<Answer> {
    let path = path_of(job)?;
    let (draft, assembled) = (PathBuf::from("/draft"), PathBuf::from("/assembled"));
    let mut files = vec![(path.to_owned(), job.compiled.to_vec())];
    files.extend(job.assembled.map(|a| (assembled.clone(), a.to_vec())));
    fs::keep_in_memory(Some(files.into_iter().collect()));
    set_quick_assembler(job, &draft, &assembled);
    let refusal = fixup(job, path, "");
    set_assembler(None);
    let mut files = fs::keep_in_memory(None).unwrap_or_default();
    if let (None, Some(draft)) = (job.assembled, files.remove(&draft)) {
        return Ok(Answer::Done(draft));
    }
    match refusal? {
        Some(refusal) => Ok(refusal),
        None => Ok(Answer::Done(files.remove(path).unwrap_or_default())),
    }
}

/// The path of a job, where it is a relative one that names a file.
fn path_of<'a>(job: &Job<'a>) -> anyhow::Result<&'a Path> {
    let path = Path::new(OsStr::from_bytes(job.path));
    let no_file =
        path.file_name().is_none() || job.path.ends_with(b"/") || job.path.ends_with(b"/.");
    if path.is_absolute() {
        return Err(anyhow!("the path is absolute"));
    }
    if no_file || job.path.contains(&0) {
        return Err(anyhow!("no file can be written at the path"));
    }
    Ok(path)
}

/// Runs postprocess.rs; gives its refusal, if it is one.
fn fixup(job: &Job, path: &Path, command: &str) -> anyhow::Result<Option<Answer>> {
    let encoding = Encoding::of([job.prelude, job.blocks]);
    let functions = blocks::read(job.blocks, encoding).map_err(|e| anyhow!("block file: {e}"))?;
    let statics = match job.statics {
        0 => ConvertStatics::No,
        1 => ConvertStatics::Local,
        2 => ConvertStatics::Global,
        3 => ConvertStatics::GlobalWithFilename,
        other => return Err(anyhow!("no such mode: {other}")),
    };
    let result = catch_unwind(AssertUnwindSafe(|| {
        postprocess::fixup_objfile(
            path,
            &functions,
            &encoding.decode(job.prelude),
            command,
            &encoding,
            job.drop_mdebug_gptab,
            statics,
        )
    }));
    match result {
        Ok(Ok(())) => Ok(None),
        Ok(Err(e))
            if NO_VERDICT
                .iter()
                .any(|start| e.to_string().starts_with(start)) =>
        {
            Err(e)
        }
        Ok(Err(e)) => Ok(Some(Answer::Refused(format!("err {e}")))),
        Err(payload) => {
            let text = payload.downcast_ref::<String>().map(String::as_str);
            let text = text.or_else(|| payload.downcast_ref::<&str>().copied());
            let text = text.unwrap_or("without a message");
            Ok(Some(Answer::Refused(format!("panic {text}"))))
        }
    }
}

/// Goes into a new folder inside `folder` and writes C there under its path. The new folder
/// lies so deep that no `..` of the path leads out of `folder`.
fn place_compiled(folder: &Path, path: &Path, compiled: &[u8]) -> anyhow::Result<()> {
    let mut current = folder.join("current");
    for component in path.components() {
        if component == Component::ParentDir {
            current.push("deeper");
        }
    }
    fs::create_dir_all(&current)?;
    env::set_current_dir(&current)?;
    let placed = match path.parent() {
        Some(parent) if parent != "" => fs::create_dir_all(parent),
        _ => Ok(()),
    };
    placed
        .and_then(|()| fs::write(path, compiled))
        .map_err(|e| anyhow!("no file can be written at the path: {e}"))
}

/// The start of a shell line that goes on with `SOURCE -o OBJECT`. Without A it stores the
/// draft and fails, which ends the job; with A it supplies A.
fn shell_command(job: &Job, draft: &Path, assembled: &Path) -> anyhow::Result<String> {
    let quoted = |path: &Path| {
        let text = path
            .to_str()
            .ok_or_else(|| anyhow!("the temporary folder's name is no text"))?;
        shlex::try_quote(text).map_err(|_| anyhow!("the temporary folder's name has a zero byte"))
    };
    Ok(match job.assembled {
        None => format!(
            "assemble() {{ mv \"$1\" {}; false; }}; assemble",
            quoted(draft)?
        ),
        Some(_) => format!(
            "assemble() {{ mv {} \"$3\"; }}; assemble",
            quoted(assembled)?
        ),
    })
}

/// Does what `shell_command` does, without a shell.
fn set_quick_assembler(job: &Job, draft: &Path, assembled: &Path) {
    let (draft, assembled) = (draft.to_owned(), assembled.to_owned());
    set_assembler(Some(match job.assembled {
        None => Box::new(move |source, _| {
            let _ = fs::rename(source, &draft);
            false
        }),
        Some(_) => Box::new(move |_, object| fs::rename(&assembled, object).is_ok()),
    }));
}

/// How the bytes of prelude and block file are carried through the `String`s of
/// postprocess.rs. Either way the draft has the bytes that were given.
#[derive(Clone, Copy)]
enum Encoding {
    /// The bytes are text already.
    Utf8,
    /// Each byte becomes the character of that code.
    Latin1,
}

impl Encoding {
    fn of(files: [&[u8]; 2]) -> Encoding {
        match files.iter().all(|file| str::from_utf8(file).is_ok()) {
            true => Encoding::Utf8,
            false => Encoding::Latin1,
        }
    }

    fn decode<'a>(&self, bytes: &'a [u8]) -> Cow<'a, str> {
        match self {
            Encoding::Utf8 => String::from_utf8_lossy(bytes),
            Encoding::Latin1 => bytes.iter().map(|&byte| char::from(byte)).collect(),
        }
    }

    fn encode<'a>(&self, text: &'a str) -> anyhow::Result<Cow<'a, [u8]>> {
        match self {
            Encoding::Utf8 => Ok(text.as_bytes().into()),
            Encoding::Latin1 => {
                let bytes: Result<Vec<u8>, _> = text.chars().map(u8::try_from).collect();
                Ok(bytes?.into())
            }
        }
    }
}

#[derive(Clone, Copy, PartialEq)]
enum ConvertStatics {
    No,
    Local,
    Global,
    GlobalWithFilename,
}

#[derive(Clone, Copy, PartialEq)]
enum OutputSection {
    Text,
    Data,
    Rodata,
    Bss,
}

impl Enum for OutputSection {
    const ALL: &'static [OutputSection] = &[
        OutputSection::Text,
        OutputSection::Data,
        OutputSection::Rodata,
        OutputSection::Bss,
    ];

    fn position(self) -> usize {
        self as usize
    }
}

impl OutputSection {
    fn as_str(&self) -> &'static str {
        match self {
            OutputSection::Text => ".text",
            OutputSection::Data => ".data",
            OutputSection::Rodata => ".rodata",
            OutputSection::Bss => ".bss",
        }
    }
}

impl fmt::Display for OutputSection {
    fn fmt(&self, f: &mut fmt::Formatter<'_>) -> fmt::Result {
        f.write_str(self.as_str())
    }
}

#[derive(Clone, Copy, Default)]
struct SectionSizing {
    size: usize,
    align8: usize,
}

/// One block.
#[derive(Default)]
struct Function {
    text_glabels: Vec<String>,
    asm_conts: Vec<String>,
    late_rodata_dummy_bytes: Vec<[u8; 4]>,
    jtbl_rodata_size: usize,
    late_rodata_asm_conts: Vec<String>,
    fn_desc: String,
    data: EnumMap<OutputSection, (Option<String>, SectionSizing)>,
}

#[cfg(test)]
mod tests {
    use super::Encoding;

    #[test]
    fn all_bytes_come_back() {
        let bytes: Vec<u8> = (0..=255).collect();
        for file in [&bytes[..], "jr $ra # é".as_bytes(), b""] {
            let encoding = Encoding::of([file, b""]);
            assert!(matches!(encoding.encode(&encoding.decode(file)), Ok(out) if *out == *file));
        }
    }
}
