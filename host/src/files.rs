//! Reads inputs and writes the output, by name or as standard input and output.

use daphulle::call::FILE_LIMIT;
use std::{
    ffi::OsStr,
    fs::{self, File, OpenOptions},
    io::{self, ErrorKind, Read, Write},
    os::fd::AsFd,
    path::{Path, PathBuf},
    process,
};

/// The bytes of an input. Of one that is over the limit only the first byte past it is read,
/// which is enough to be refused: it may have no end.
pub fn read(name: &OsStr) -> Result<Vec<u8>, String> {
    let read_all = |source: &mut dyn Read| {
        let mut bytes = vec![];
        source
            .take(FILE_LIMIT as u64 + 1)
            .read_to_end(&mut bytes)
            .map(|_| bytes)
    };
    if name == "-" {
        return read_all(&mut io::stdin().lock())
            .map_err(|error| format!("cannot read standard input: {error}"));
    }
    File::open(name)
        .and_then(|mut file| read_all(&mut file))
        .map_err(|error| format!("cannot read {name:?}: {error}"))
}

/// Writes the output, whole or not at all where it is a file.
pub fn write(name: &OsStr, bytes: &[u8]) -> Result<(), String> {
    if name == "-" {
        return print(bytes);
    }
    let written = match followed(Path::new(name)) {
        Some(path) if is_replaceable(&path) => replace(&path, bytes),
        _ => OpenOptions::new()
            .write(true)
            .truncate(true)
            .open(name)
            .and_then(|mut file| file.write_all(bytes)),
    };
    written.map_err(|error| format!("cannot write {name:?}: {error}"))
}

/// The path that a name leads to, so that a link stays and what it leads to is replaced. `None`
/// for an open file (/dev/stdout, /dev/fd/3), whoever else may be writing it, and for a circle.
fn followed(name: &Path) -> Option<PathBuf> {
    const MOST_LINKS: usize = 40;
    let mut path = name.to_path_buf();
    for _ in 0..MOST_LINKS {
        let Ok(link) = fs::read_link(&path) else {
            return Some(path);
        };
        let folder = fs::canonicalize(path.with_file_name(".")).ok()?;
        if folder.starts_with("/proc") {
            return None;
        }
        path = folder.join(link);
    }
    None
}

/// Devices, pipes and folders cannot be replaced; a file can, and one that is not there yet.
fn is_replaceable(path: &Path) -> bool {
    fs::metadata(path).map_or(true, |there| there.is_file())
}

/// Writes to standard output. Not through `io::stdout`, which takes bytes for written where it is
/// not open for writing.
pub fn print(bytes: &[u8]) -> Result<(), String> {
    let output = io::stdout().as_fd().try_clone_to_owned();
    output
        .and_then(|output| File::from(output).write_all(bytes))
        .map_err(|error| format!("cannot write standard output: {error}"))
}

/// A name at the start of a line, on that line: as it is, so that it can be found again; but escaped
/// where it is not UTF-8 or holds what is not printable.
pub fn shown(name: &OsStr) -> String {
    // These are printable, and escaped only because of quotes around them.
    let is_plain = |text: &str| {
        let text = text.replace(['"', '\'', '\\'], "_");
        text.escape_debug().eq(text.chars())
    };
    match name.to_str() {
        Some("") => "\"\"".into(),
        Some(text) if is_plain(text) => text.into(),
        _ => {
            let quoted = format!("{name:?}");
            let text = quoted
                .strip_prefix('"')
                .and_then(|text| text.strip_suffix('"'));
            text.unwrap_or(&quoted).into()
        }
    }
}

/// A new file in the same folder takes the place of the path once it is whole.
fn replace(path: &Path, bytes: &[u8]) -> io::Result<()> {
    let (temporary, mut file) = Temporary::beside(path)?;
    file.write_all(bytes)?;
    if let Ok(there) = fs::metadata(path) {
        file.set_permissions(there.permissions())?;
    }
    drop(file);
    fs::rename(&temporary.0, path)
}

/// A file that goes away, unless it was renamed.
struct Temporary(PathBuf);

impl Temporary {
    fn beside(path: &Path) -> io::Result<(Temporary, File)> {
        let mut count = 0;
        loop {
            // The name may be taken: a run with the same process number can have been killed.
            let name = format!(".daphulle-{}-{count}", process::id());
            let name = path.with_file_name(name);
            match OpenOptions::new().write(true).create_new(true).open(&name) {
                Err(error) if error.kind() == ErrorKind::AlreadyExists && count < 100 => count += 1,
                opened => return opened.map(|file| (Temporary(name), file)),
            }
        }
    }
}

impl Drop for Temporary {
    fn drop(&mut self) {
        // After the rename nothing has this name.
        let _ = fs::remove_file(&self.0);
    }
}

#[cfg(test)]
mod tests {
    use super::shown;
    use std::{ffi::OsStr, os::unix::ffi::OsStrExt};

    #[test]
    fn names_on_one_line() {
        for (name, line) in [
            (&b"c.o"[..], "c.o"),
            (b"d/c \"2\" \\n's.o", "d/c \"2\" \\n's.o"),
            ("gr\u{fc}n/e\u{301}.o".as_bytes(), "gr\u{fc}n/e\u{301}.o"),
            (b"", "\"\""),
            (b"\"", "\""),
            (b"\xff\nc", "\\xFF\\nc"),
            (b"a\x1b[31m", "a\\u{1b}[31m"),
            (b"a\nb\\c", "a\\nb\\\\c"),
            ("a\u{85}b".as_bytes(), "a\\u{85}b"),
            ("a\u{2028}b".as_bytes(), "a\\u{2028}b"),
            ("a\u{202e}b".as_bytes(), "a\\u{202e}b"),
        ] {
            assert_eq!(shown(OsStr::from_bytes(name)), line);
        }
    }
}
