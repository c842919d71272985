//! The standard library with two changes, each off until a thread asks for it, because starting
//! a process and writing files are by far the slowest parts of a job: a function takes the place
//! of the shell through which postprocess.rs starts its assembler (`sh -c LINE`), and files are
//! kept in memory.

pub use std::*;

pub mod fs {
    use std::{
        cell::RefCell,
        collections::HashMap,
        io::{self, ErrorKind, Seek, SeekFrom, Write},
        path::{Path, PathBuf},
    };

    pub use std::fs::{create_dir_all, write};

    type Files = HashMap<PathBuf, Vec<u8>>;

    thread_local! {
        static FILES: RefCell<Option<Files>> = const { RefCell::new(None) };
    }

    /// The most bytes of a file in memory; a write past it fails as one past a limit on disk.
    const LIMIT: usize = 16 << 20;

    /// Linux's ENAMETOOLONG, which a disk gives for a name over 255 bytes.
    const NAME_TOO_LONG: i32 = 36;

    /// Keeps this thread's files in memory, starting with these; `None` brings the disk back.
    /// Gives what was in memory before.
    pub fn keep_in_memory(files: Option<Files>) -> Option<Files> {
        FILES.replace(files)
    }

    fn in_memory() -> bool {
        FILES.with_borrow(Option::is_some)
    }

    fn files<T>(action: impl FnOnce(&mut Files) -> Option<T>) -> io::Result<T> {
        FILES
            .with_borrow_mut(|files| action(files.as_mut()?))
            .ok_or_else(|| ErrorKind::NotFound.into())
    }

    pub fn read(path: impl AsRef<Path>) -> io::Result<Vec<u8>> {
        match in_memory() {
            true => files(|files| files.get(path.as_ref()).cloned()),
            false => std::fs::read(path),
        }
    }

    pub fn remove_file(path: impl AsRef<Path>) -> io::Result<()> {
        match in_memory() {
            true => files(|files| files.remove(path.as_ref())).map(drop),
            false => std::fs::remove_file(path),
        }
    }

    pub fn rename(from: impl AsRef<Path>, to: impl AsRef<Path>) -> io::Result<()> {
        match in_memory() {
            true => files(|files| {
                let bytes = files.remove(from.as_ref())?;
                files.insert(to.as_ref().into(), bytes);
                Some(())
            }),
            false => std::fs::rename(from, to),
        }
    }

    /// Folders in memory need not be made.
    pub fn create_dir(path: impl AsRef<Path>) -> io::Result<()> {
        match in_memory() {
            true => Ok(()),
            false => std::fs::create_dir(path),
        }
    }

    pub fn remove_dir_all(path: impl AsRef<Path>) -> io::Result<()> {
        match in_memory() {
            true => Ok(()),
            false => std::fs::remove_dir_all(path),
        }
    }

    /// A file to write.
    pub enum File {
        Disk(std::fs::File),
        Memory(Memory),
    }

    /// Its bytes join the thread's files when it is closed.
    pub struct Memory {
        path: PathBuf,
        bytes: io::Cursor<Vec<u8>>,
    }

    impl Drop for Memory {
        fn drop(&mut self) {
            let bytes = std::mem::take(self.bytes.get_mut());
            let path = std::mem::take(&mut self.path);
            let _ = files(|files| files.insert(path, bytes));
        }
    }

    impl File {
        pub fn create(path: impl AsRef<Path>) -> io::Result<File> {
            if !in_memory() {
                return std::fs::File::create(path).map(File::Disk);
            }
            if path
                .as_ref()
                .file_name()
                .is_some_and(|name| name.len() > 255)
            {
                return Err(io::Error::from_raw_os_error(NAME_TOO_LONG));
            }
            let (path, bytes) = (path.as_ref().into(), io::Cursor::default());
            Ok(File::Memory(Memory { path, bytes }))
        }
    }

    impl Write for File {
        fn write(&mut self, bytes: &[u8]) -> io::Result<usize> {
            match self {
                File::Disk(file) => file.write(bytes),
                File::Memory(file) if file.bytes.position() as usize + bytes.len() > LIMIT => {
                    Err(io::Error::other("File too large"))
                }
                File::Memory(file) => file.bytes.write(bytes),
            }
        }

        fn flush(&mut self) -> io::Result<()> {
            match self {
                File::Disk(file) => file.flush(),
                File::Memory(_) => Ok(()),
            }
        }
    }

    impl Seek for File {
        fn seek(&mut self, to: SeekFrom) -> io::Result<u64> {
            match self {
                File::Disk(file) => file.seek(to),
                File::Memory(file) => file.bytes.seek(to),
            }
        }
    }

    #[cfg(test)]
    mod tests {
        use super::{File, keep_in_memory, read, remove_file, rename};
        use std::io::{Seek, SeekFrom, Write};

        #[test]
        fn files_in_memory() {
            keep_in_memory(Some([("c.o".into(), b"old".to_vec())].into()));
            assert_eq!(read("c.o").unwrap(), b"old");
            {
                let mut file = File::create("c.o").unwrap();
                file.write_all(b"longer").unwrap();
                file.seek(SeekFrom::Start(0)).unwrap();
                file.write_all(b"L").unwrap();
                assert!(file.write_all(&vec![0; 16 << 20]).is_err());
            }
            rename("c.o", "d.o").unwrap();
            assert!(read("c.o").is_err() && remove_file("c.o").is_err());
            assert!(!std::path::Path::new("d.o").exists());
            let files = keep_in_memory(None).unwrap();
            assert_eq!(files[std::path::Path::new("d.o")], b"Longer");
            assert!(read("d.o").is_err());
        }
    }
}

pub mod process {
    use std::{
        cell::RefCell,
        ffi::OsStr,
        io,
        os::unix::process::ExitStatusExt,
        path::Path,
        process::{self, ExitStatus},
    };

    /// Gets the paths of the assembly file and of the object file to write, and says whether
    /// it went well.
    type Assembler = Box<dyn Fn(&Path, &Path) -> bool>;

    thread_local! {
        static ASSEMBLER: RefCell<Option<Assembler>> = const { RefCell::new(None) };
    }

    /// Puts `assembler` in the place of the shell for this thread; `None` brings the shell back.
    pub fn set_assembler(assembler: Option<Assembler>) {
        ASSEMBLER.set(assembler);
    }

    pub struct Command(process::Command);

    impl Command {
        pub fn new(program: &str) -> Command {
            Command(process::Command::new(program))
        }

        pub fn arg(&mut self, word: impl AsRef<OsStr>) -> &mut Command {
            self.0.arg(word);
            self
        }

        pub fn status(&mut self) -> io::Result<ExitStatus> {
            ASSEMBLER.with_borrow(|assembler| match assembler {
                Some(assembler) => {
                    let line = self.0.get_args().last().and_then(OsStr::to_str);
                    let words = shlex::split(line.expect("the line is text"));
                    let [.., source, _, object] = &words[..] else {
                        panic!("the line ends in: SOURCE -o OBJECT");
                    };
                    let exit_code = !assembler(source.as_ref(), object.as_ref()) as i32;
                    Ok(ExitStatus::from_raw(exit_code << 8))
                }
                None => self.0.status(),
            })
        }
    }

    #[cfg(test)]
    mod tests {
        use super::{Command, set_assembler};

        fn succeeds(line: &str) -> bool {
            Command::new("sh")
                .arg("-c")
                .arg(line)
                .status()
                .unwrap()
                .success()
        }

        #[test]
        fn an_assembler_takes_the_place_of_the_shell() {
            assert!(succeeds("true 'a b' -o c"));
            assert!(!succeeds("false 'a b' -o c"));
            set_assembler(Some(Box::new(|s, o| {
                s.ends_with("a b") && o.ends_with("c")
            })));
            assert!(succeeds("false 'a b' -o c"));
            assert!(!succeeds("true 'a b' -o d"));
            set_assembler(None);
            assert!(!succeeds("false 'a b' -o c"));
        }
    }
}
