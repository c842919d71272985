//! The command `daphulle`. src/help.txt says what it does.
//!
//! A refusal or a note begins with the name of the file that it is about, and with the line where
//! there is one, as editors read it: `blocks:12: `. Other messages begin with `daphulle: `, and show
//! names with `{:?}`: a name may hold an LF, and a message is one line.

#![deny(unsafe_code)]

mod arguments;
mod blocks_command;
mod files;
mod standard;

use arguments::{Draft, Merge, Request};
use daphulle::{Error, JobFile, Number, PRELUDE, Refusal};
use std::{
    env,
    ffi::{OsStr, OsString},
    io::{self, Write},
    os::unix::ffi::OsStrExt,
    process::ExitCode,
};

/// What `--version` prints. Commit and kit are those that build.rs found.
const VERSION: &str = concat!(
    "daphulle ",
    env!("CARGO_PKG_VERSION"),
    "\ncommit ",
    env!("DAPHULLE_COMMIT"),
    "\nkit ",
    env!("DAPHULLE_KIT"),
    "\n"
);

/// Why the command ends without a result.
enum Stop {
    /// Refused; the line begins with this.
    Refused(String, Refusal),
    /// There are notes, and `--strict` takes them for errors. They are told.
    Noted,
    /// Wrong usage, or a file that cannot be read or written.
    Failed(String),
    /// What `blocks` reads is at fault. The line begins with the place.
    Faulty(String),
}

impl From<String> for Stop {
    fn from(line: String) -> Stop {
        Stop::Failed(line)
    }
}

fn main() -> ExitCode {
    let (status, line) = match run(env::args_os().skip(1)) {
        Ok(()) => return ExitCode::SUCCESS,
        Err(Stop::Noted) => return ExitCode::from(3),
        Err(Stop::Refused(start, refusal)) => (1, format!("{start}: {refusal}")),
        Err(Stop::Failed(line)) => (2, format!("daphulle: {line}")),
        Err(Stop::Faulty(line)) => (2, line),
    };
    // Not `eprintln`, which panics where standard error is closed: the status still tells.
    let _ = writeln!(io::stderr(), "{line}");
    ExitCode::from(status)
}

fn run(words: impl Iterator<Item = OsString>) -> Result<(), Stop> {
    let usage = |line| format!("{line} (see daphulle --help)");
    match arguments::parse(words).map_err(usage)? {
        Request::Help => files::print(include_bytes!("help.txt"))?,
        Request::Version => files::print(VERSION.as_bytes())?,
        Request::Prelude(output) => files::write(&output, PRELUDE)?,
        Request::Draft(draft) => make_draft(&draft)?,
        Request::Merge(merge) => make_merge(&merge)?,
        Request::Blocks(blocks) => blocks_command::make(&blocks)?,
        Request::BlocksHelp => files::print(include_bytes!("help_blocks.txt"))?,
    }
    Ok(())
}

fn make_draft(draft: &Draft) -> Result<(), Stop> {
    let compiled = files::read(&draft.compiled)?;
    let prelude = match &draft.prelude {
        Some(name) => files::read(name)?,
        None => PRELUDE.to_vec(),
    };
    let blocks = files::read(&draft.blocks)?;
    let text = daphulle::draft(&compiled, &prelude, &blocks)
        .map_err(|error| stop(error, |file| draft.name_of(file)))?;
    tell_notes(&draft.compiled, &compiled, &blocks, draft.strict)?;
    Ok(files::write(&draft.output, &text)?)
}

fn make_merge(merge: &Merge) -> Result<(), Stop> {
    let compiled = files::read(&merge.compiled)?;
    let assembled = files::read(&merge.assembled)?;
    let blocks = files::read(&merge.blocks)?;
    let path = merge.path.as_ref().unwrap_or(&merge.compiled).as_bytes();
    let result = daphulle::merge(&daphulle::Merge {
        compiled: &compiled,
        assembled: &assembled,
        blocks: &blocks,
        path,
        drop_mdebug_gptab: merge.drop_mdebug_gptab,
        convert_statics: merge.convert_statics,
    });
    let object = result.map_err(|error| {
        let error = match error {
            Error::Refused(refusal) if merge.path.is_none() => {
                with_path_named(refusal, path).into()
            }
            other => other,
        };
        stop(error, |file| merge.name_of(file))
    })?;
    tell_notes(&merge.compiled, &compiled, &blocks, merge.strict)?;
    Ok(files::write(&merge.output, &object)?)
}

/// The end of a job without a result, told with the names of its files.
fn stop<'n>(error: Error, name_of: impl Fn(JobFile) -> &'n OsStr) -> Stop {
    match error {
        Error::Refused(refusal) => {
            let mut start = files::shown(name_of(refusal.file));
            if let Some(line) = refusal.line {
                start += &format!(":{line}");
            }
            Stop::Refused(start, refusal)
        }
        other => Stop::Failed(other.to_string()),
    }
}

/// Tells the notes on an accepted job, a line for each. Strict, they are errors.
fn tell_notes(name: &OsStr, compiled: &[u8], blocks: &[u8], strict: bool) -> Result<(), Stop> {
    let notes = daphulle::notes(compiled, blocks);
    let word = if strict { "error" } else { "note" };
    let name = files::shown(name);
    for note in &notes {
        // Standard error may be closed, as above.
        let _ = writeln!(io::stderr(), "{name}: {word}: {note}");
    }
    match strict && !notes.is_empty() {
        true => Err(Stop::Noted),
        false => Ok(()),
    }
}

/// Where the path is at fault and nobody gave one, the words say where it comes from.
fn with_path_named(mut refusal: Refusal, path: &[u8]) -> Refusal {
    let is_path = daphulle::path_fault(path).is_some_and(|words| words == refusal.words);
    if refusal.number == Number::Limits && is_path {
        refusal.words += " (it is C as given; --path gives another)";
    }
    refusal
}
