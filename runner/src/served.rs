//! The Rust and the model, each behind a process that answers requests in order.

use crate::{
    job::{Job, Kind},
    port::Refusal,
};
use std::{
    io::{self, BufReader, BufWriter, Read, Write},
    path::Path,
    process::{Child, ChildStdin, ChildStdout, Command, Stdio},
};

struct Server {
    _process: Child,
    requests: BufWriter<ChildStdin>,
    answers: BufReader<ChildStdout>,
}

impl Server {
    fn start(command: &mut Command) -> io::Result<Server> {
        let mut process = command
            .stdin(Stdio::piped())
            .stdout(Stdio::piped())
            .spawn()?;
        let missing = || io::Error::other("a pipe is missing");
        let requests = BufWriter::new(process.stdin.take().ok_or_else(missing)?);
        let answers = BufReader::new(process.stdout.take().ok_or_else(missing)?);
        Ok(Server {
            _process: process,
            requests,
            answers,
        })
    }

    /// Each part after its length.
    fn send(&mut self, parts: &[&[u8]]) -> io::Result<()> {
        for part in parts {
            self.requests
                .write_all(&(part.len() as u32).to_be_bytes())?;
            self.requests.write_all(part)?;
        }
        Ok(())
    }

    fn read<const N: usize>(&mut self) -> io::Result<[u8; N]> {
        let mut bytes = [0; N];
        self.requests.flush()?;
        self.answers.read_exact(&mut bytes)?;
        Ok(bytes)
    }

    fn read_part(&mut self) -> io::Result<Vec<u8>> {
        let mut bytes = vec![0; u32::from_be_bytes(self.read()?) as usize];
        self.answers.read_exact(&mut bytes)?;
        Ok(bytes)
    }
}

/// What the unchanged Rust says.
pub enum RustAnswer {
    Done(Vec<u8>),
    /// With its message.
    Refused(String),
    /// With the reason.
    NoVerdict(String),
}

/// `oracle serve`.
pub struct Rust(Server);

impl Rust {
    /// What it prints of jobs that pass its memory is their answer, too, and not shown.
    pub fn start(oracle: &Path) -> io::Result<Rust> {
        let mut command = Command::new(oracle);
        Server::start(command.arg("serve").stderr(Stdio::null())).map(Rust)
    }

    pub fn ask(&mut self, job: &Job) -> io::Result<RustAnswer> {
        let Job {
            compiled,
            second,
            blocks,
            merge,
        } = job;
        match merge {
            None => {
                self.0.requests.write_all(&[0])?;
                self.0.send(&[compiled, second, blocks])?;
            }
            Some(settings) => {
                let (Ok(flag @ ..=1), Ok(mode @ ..=3)) =
                    (u8::try_from(settings.flag), u8::try_from(settings.mode))
                else {
                    return Ok(RustAnswer::NoVerdict("an unknown flag or mode".into()));
                };
                self.0.requests.write_all(&[1])?;
                self.0
                    .send(&[compiled, second, b"", blocks, &settings.path])?;
                self.0.requests.write_all(&[flag, mode])?;
            }
        }
        let [code] = self.0.read()?;
        let part = self.0.read_part()?;
        let text = |part| String::from_utf8_lossy(part).into_owned();
        match code {
            0 => Ok(RustAnswer::Done(part)),
            1 => Ok(RustAnswer::Refused(text(&part))),
            2 => Ok(RustAnswer::NoVerdict(text(&part))),
            _ => Err(io::Error::other("an unknown answer of the oracle")),
        }
    }
}

/// What the model says. Its drafts are known by their length alone where they pass the room.
pub enum ModelAnswer {
    Done(Vec<u8>),
    Refused(Refusal),
}

/// `model.py` of this folder, over the model of document 01.
pub struct Model(Server);

impl Model {
    pub fn start(script: &Path, model: &Path) -> io::Result<Model> {
        Server::start(Command::new("python3").arg(script).arg(model)).map(Model)
    }

    /// Its answer to a job; a merged object is held against demand 3 as well.
    pub fn ask(&mut self, job: &Job, room: u64) -> io::Result<ModelAnswer> {
        self.0
            .requests
            .write_all(&[u8::from(job.kind() == Kind::Merge)])?;
        self.0.send(&[&job.compiled, &job.second, &job.blocks])?;
        self.0.requests.write_all(&room.to_be_bytes())?;
        if let Some(settings) = &job.merge {
            self.0.send(&[&settings.path])?;
            for word in [settings.flag, settings.mode] {
                self.0.requests.write_all(&word.to_be_bytes())?;
            }
        }
        let [number] = self.0.read::<4>().map(|b| [u32::from_be_bytes(b)])?;
        if number == 0 {
            return self.0.read_part().map(ModelAnswer::Done);
        }
        let object = u32::from_be_bytes(self.0.read()?);
        let place = u64::from_be_bytes(self.0.read()?);
        Ok(ModelAnswer::Refused(Refusal {
            number,
            object,
            place,
        }))
    }
}
