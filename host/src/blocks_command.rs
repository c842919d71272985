//! `daphulle blocks`: reads the files, runs the assembler, writes what is made.

use crate::{
    Stop,
    arguments::{Blocks, BlocksFrom},
    files,
};
use daphulle::{
    PRELUDE,
    call::FILE_LIMIT,
    describe::{Described, Fault, Named, Tools, of_source, of_spans},
};
use std::{
    env,
    ffi::{OsStr, OsString},
    fs,
    os::unix::ffi::OsStrExt,
    path::{Path, PathBuf},
    process::{self, Command},
};

/// The assembler where neither `--as` nor the environment's `AS` names one.
const ASSEMBLER: &str = "mips-linux-gnu-as";

impl From<Fault> for Stop {
    fn from(fault: Fault) -> Stop {
        Stop::Faulty(fault.to_string())
    }
}

pub fn make(blocks: &Blocks) -> Result<(), Stop> {
    let base = Path::new(blocks.base.as_deref().unwrap_or_default());
    let (made, mut files) = match &blocks.from {
        BlocksFrom::Spans(list) => {
            let bytes = read(list)?;
            let list = named(list, &bytes);
            let mut files = vec![list.name.to_path_buf()];
            let (made, others) = of_spans(list, base, &mut Around { command: None })?;
            files.extend(others);
            (made, files)
        }
        BlocksFrom::Source {
            source,
            placeholders,
            prelude,
            assembler,
        } => {
            let bytes = read(source)?;
            let source = named(source, &bytes);
            let mut files = vec![source.name.to_path_buf()];
            let prelude_bytes = match prelude {
                Some(name) => read(name)?,
                None => PRELUDE.to_vec(),
            };
            files.extend(prelude.iter().map(PathBuf::from));
            let name = prelude.as_deref().unwrap_or(OsStr::new("prelude"));
            let prelude = named(name, &prelude_bytes);
            let command = assembler.clone().or_else(|| env::var_os("AS"));
            let command = command.unwrap_or_else(|| ASSEMBLER.into());
            let mut around = Around {
                command: Some(command),
            };
            let made = of_source(source, prelude, base, &mut around)?;
            let Described {
                blocks,
                source,
                files: others,
            } = made;
            files.extend(others);
            write_changed(placeholders, &source)?;
            (blocks, files)
        }
    };
    files.retain(|name| name.as_os_str() != "-");
    if let Some(name) = &blocks.dependencies {
        files::write(name, &rule(&blocks.output, &files))?;
    }
    // Last, so that it is the newest: make asks for nothing else.
    Ok(files::write(&blocks.output, &made)?)
}

fn named<'a>(name: &'a OsStr, bytes: &'a [u8]) -> Named<'a> {
    Named {
        name: Path::new(name),
        bytes,
    }
}

/// All of a file that is not over the limit.
fn read(name: &OsStr) -> Result<Vec<u8>, String> {
    let bytes = files::read(name)?;
    match bytes.len() > FILE_LIMIT {
        true => Err(format!("{name:?} has more than {FILE_LIMIT} bytes")),
        false => Ok(bytes),
    }
}

/// A file that is there with these bytes stays as it is, so that make does not compile it again.
fn write_changed(name: &OsStr, bytes: &[u8]) -> Result<(), String> {
    match fs::read(name) {
        Ok(there) if there == bytes => Ok(()),
        _ => files::write(name, bytes),
    }
}

/// A rule for make: the output depends on the files. Each has a rule of its own, so that make goes
/// on where one is gone.
fn rule(output: &OsStr, files: &[PathBuf]) -> Vec<u8> {
    let mut rule = escaped(output);
    rule.push(b':');
    for file in files {
        rule.push(b' ');
        rule.extend(escaped(file.as_os_str()));
    }
    rule.push(b'\n');
    for file in files {
        rule.push(b'\n');
        rule.extend(escaped(file.as_os_str()));
        rule.extend(b":\n");
    }
    rule
}

/// A name as make reads it.
fn escaped(name: &OsStr) -> Vec<u8> {
    let escape = |byte: &u8| match byte {
        b' ' | b'#' | b'\\' => vec![b'\\', *byte],
        b'$' => b"$$".to_vec(),
        _ => vec![*byte],
    };
    name.as_bytes().iter().flat_map(escape).collect()
}

/// Files by name, and the assembler's command.
struct Around {
    command: Option<OsString>,
}

impl Tools for Around {
    fn read(&mut self, path: &Path) -> Result<Vec<u8>, String> {
        read(path.as_os_str())
    }

    /// The command is the shell's, as asm-processor has it; behind it stand the names of the files.
    fn assemble(&mut self, text: &[u8]) -> Result<Vec<u8>, String> {
        let command = self.command.as_deref().unwrap_or_default();
        let folder = Scratch::new()?;
        let [input, object] = ["in.s", "out.o"].map(|name| folder.0.join(name));
        fs::write(&input, text).map_err(|error| format!("cannot write {input:?}: {error}"))?;
        let mut line = command.to_os_string();
        line.push(" \"$@\"");
        let output = Command::new("sh")
            .arg("-c")
            .arg(line)
            .arg("sh")
            .args([input.as_os_str(), OsStr::new("-o"), object.as_os_str()])
            .output()
            .map_err(|error| format!("daphulle: cannot run a shell: {error}"))?;
        if !output.status.success() {
            let mut said = String::from_utf8_lossy(&output.stderr).into_owned();
            if !said.is_empty() && !said.ends_with('\n') {
                said.push('\n');
            }
            return Err(format!("{said}daphulle: {command:?} failed"));
        }
        fs::read(&object).map_err(|error| format!("daphulle: {command:?} made nothing: {error}"))
    }
}

/// A folder that goes away with all it holds.
struct Scratch(PathBuf);

impl Scratch {
    fn new() -> Result<Scratch, String> {
        let mut count = 0;
        loop {
            let name = format!("daphulle-blocks-{}-{count}", process::id());
            let path = env::temp_dir().join(name);
            match fs::create_dir(&path) {
                Ok(()) => return Ok(Scratch(path)),
                // The name may be taken: a run with the same process number can have been killed.
                Err(_) if path.exists() && count < 100 => count += 1,
                Err(error) => return Err(format!("daphulle: cannot make {path:?}: {error}")),
            }
        }
    }
}

impl Drop for Scratch {
    fn drop(&mut self) {
        // Nothing can be done about a folder that does not go.
        let _ = fs::remove_dir_all(&self.0);
    }
}
