//! The commands of the oracle; see README.md. Each command runs in a child process under
//! limits of memory and file size, because some inputs make postprocess.rs write gigabytes.

use oracle::{Answer, Job, Shell, run};
use std::{
    env,
    fs::{self, File},
    io::{self, ErrorKind, Read, Write, stdin, stdout},
    os::fd::AsFd,
    panic,
    process::{Command, ExitCode},
};
use temp_dir::TempDir;

/// 512 MiB of memory (in KiB) and 16 MiB in a file (in blocks of 512 bytes). Past the first the
/// process aborts, past the second a write is an error.
const UNDER_LIMITS: &str =
    r#"trap '' XFSZ; ulimit -v 524288; ulimit -f 32768; exec "$0" --limited "$@""#;

const USAGE: &str = "usage: oracle draft C PRELUDE BLOCKS
       oracle merge C A PRELUDE BLOCKS PATH FLAG MODE
       oracle serve";

fn main() -> ExitCode {
    let arguments: Vec<String> = env::args().skip(1).collect();
    let words: Vec<&str> = arguments.iter().map(String::as_str).collect();
    let result = match words[..] {
        ["--limited", ref rest @ ..] => command(rest),
        _ => supervise(&words),
    };
    result.unwrap_or_else(|error| {
        eprintln!("oracle: {error}");
        ExitCode::from(3)
    })
}

/// Runs this program again under the limits, with a temporary folder that is removed however
/// that ends. A server that is killed in the middle of a job has read all of that job, so its
/// answer is given here and a new server goes on with the next one.
fn supervise(words: &[&str]) -> io::Result<ExitCode> {
    let temporary = TempDir::with_prefix("oracle")?;
    let mut limited = Command::new("sh");
    limited
        .args(["-c", UNDER_LIMITS])
        .arg(env::current_exe()?)
        .args(words);
    limited.env("TMPDIR", temporary.path().canonicalize()?);
    limited.env("RUST_BACKTRACE", "0");
    loop {
        let status = limited.status()?;
        let answer = Answer::Limit(format!("memory ({status})"));
        match (status.code(), words) {
            (Some(code), _) => return Ok(ExitCode::from(code as u8)),
            (None, ["serve"]) => send(&answer)?,
            (None, _) => return print(&answer),
        }
    }
}

fn command(words: &[&str]) -> io::Result<ExitCode> {
    // Panics are answers; they are not to be printed.
    panic::set_hook(Box::new(|_| ()));
    match *words {
        ["draft", c, prelude, blocks] => {
            let (c, prelude, blocks) = (fs::read(c)?, fs::read(prelude)?, fs::read(blocks)?);
            print(&run(&draft_job(&c, &prelude, &blocks), Shell::Real))
        }
        [
            "merge",
            c,
            a,
            prelude,
            blocks,
            path,
            flag @ ("0" | "1"),
            mode @ ("0" | "1" | "2" | "3"),
        ] => {
            let job = Job {
                compiled: &fs::read(c)?,
                assembled: Some(&fs::read(a)?),
                prelude: &fs::read(prelude)?,
                blocks: &fs::read(blocks)?,
                path: path.as_bytes(),
                drop_mdebug_gptab: flag == "1",
                statics: mode.as_bytes()[0] - b'0',
            };
            print(&run(&job, Shell::Real))
        }
        ["serve"] => serve(),
        _ => Err(io::Error::new(ErrorKind::InvalidInput, USAGE)),
    }
}

/// Path, flag and mode play no part in a draft.
fn draft_job<'a>(compiled: &'a [u8], prelude: &'a [u8], blocks: &'a [u8]) -> Job<'a> {
    let (path, drop_mdebug_gptab, statics) = (b"c.o", false, 0);
    Job {
        compiled,
        assembled: None,
        prelude,
        blocks,
        path,
        drop_mdebug_gptab,
        statics,
    }
}

fn print(answer: &Answer) -> io::Result<ExitCode> {
    match answer {
        Answer::Done(bytes) => stdout().write_all(bytes).map(|()| ExitCode::SUCCESS),
        Answer::Refused(message) => {
            eprintln!("refused {message}");
            Ok(ExitCode::from(1))
        }
        Answer::Limit(message) => {
            eprintln!("limit {message}");
            Ok(ExitCode::from(2))
        }
    }
}

/// Answers requests until the input ends. The input is read without a buffer: no byte past
/// the running request may get lost if the process is killed.
fn serve() -> io::Result<ExitCode> {
    let input = &mut File::from(stdin().as_fd().try_clone_to_owned()?);
    loop {
        let mut kind = [0];
        if input.read(&mut kind)? == 0 {
            return Ok(ExitCode::SUCCESS);
        }
        let answer = match kind {
            [0] => {
                let (c, prelude, blocks) = (field(input)?, field(input)?, field(input)?);
                run(&draft_job(&c, &prelude, &blocks), Shell::Quick)
            }
            [1] => {
                let (compiled, assembled) = (field(input)?, field(input)?);
                let (prelude, blocks, path) = (field(input)?, field(input)?, field(input)?);
                let mut settings = [0; 2];
                input.read_exact(&mut settings)?;
                let job = Job {
                    compiled: &compiled,
                    assembled: Some(&assembled),
                    prelude: &prelude,
                    blocks: &blocks,
                    path: &path,
                    drop_mdebug_gptab: settings[0] != 0,
                    statics: settings[1],
                };
                run(&job, Shell::Quick)
            }
            _ => {
                return Err(io::Error::new(
                    ErrorKind::InvalidData,
                    "unknown kind of request",
                ));
            }
        };
        send(&answer)?;
    }
}

/// Bytes after their length.
fn field(input: &mut File) -> io::Result<Vec<u8>> {
    let mut length = [0; 4];
    input.read_exact(&mut length)?;
    let mut bytes = vec![0; u32::from_be_bytes(length) as usize];
    input.read_exact(&mut bytes)?;
    Ok(bytes)
}

/// Writes one answer of the server: 0 done, 1 refused, 2 no verdict; then a length and bytes.
fn send(answer: &Answer) -> io::Result<()> {
    let (code, bytes) = match answer {
        Answer::Done(bytes) => (0, &bytes[..]),
        Answer::Refused(message) => (1, message.as_bytes()),
        Answer::Limit(message) => (2, message.as_bytes()),
    };
    let mut whole = vec![code];
    whole.extend((bytes.len() as u32).to_be_bytes());
    whole.extend(bytes);
    let mut output = stdout().lock();
    output.write_all(&whole)?;
    output.flush()
}
