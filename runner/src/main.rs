//! See README.md.

mod blocks;
mod compare;
mod damage;
mod debug;
mod differences;
mod fence;
mod fuzz;
mod job;
mod large;
mod limit;
mod merges;
mod object;
mod port;
mod random;
mod served;
mod speed;
mod trace;

use compare::{BATCH, Others, Run, SHARE, Tally, compare, held_against};
use job::{Job, Kind, Settings};
use port::Port;
use random::Random;
use served::{Model, Rust};
use std::{
    env, fs,
    io::{self, ErrorKind},
    path::{Path, PathBuf},
    process::ExitCode,
    time::{Duration, Instant},
};

const USAGE: &str = "usage: runner compare KIND SEED JOBS [SECONDS]
       runner record KIND SEED JOBS FILE
       runner replay FILE [SECONDS]
       runner fuzz KIND SEED SECONDS FOLDER
       runner speed KIND ROUNDS [ROW]
       runner job KIND SEED INDEX FOLDER
       runner stored FOLDER
KIND is draft or merge.";

fn main() -> ExitCode {
    let arguments: Vec<String> = env::args().skip(1).collect();
    let words: Vec<&str> = arguments.iter().map(String::as_str).collect();
    command(&words).unwrap_or_else(|error| {
        eprintln!("runner: {error}");
        ExitCode::from(2)
    })
}

fn command(words: &[&str]) -> io::Result<ExitCode> {
    match *words {
        ["compare", kind, seed, jobs] => {
            run(which(kind)?, number(seed)?, number(jobs)?, None, None)
        }
        ["compare", kind, seed, jobs, seconds] => {
            let time = Duration::from_secs(number(seconds)?);
            run(which(kind)?, number(seed)?, number(jobs)?, Some(time), None)
        }
        ["record", kind, seed, jobs, file] => {
            run(which(kind)?, number(seed)?, number(jobs)?, None, Some(file))
        }
        ["replay", file] => replay(file, None),
        ["replay", file, seconds] => replay(file, Some(Duration::from_secs(number(seconds)?))),
        ["fuzz", kind, seed, seconds, folder] => {
            let (kind, time) = (which(kind)?, Duration::from_secs(number(seconds)?));
            let sound = fuzz::fuzz(kind, number(seed)?, time, Path::new(folder), &mut others()?)?;
            Ok(if sound {
                ExitCode::SUCCESS
            } else {
                ExitCode::FAILURE
            })
        }
        ["speed", kind, rounds] => times(which(kind)?, number(rounds)?, ""),
        ["speed", kind, rounds, part] => times(which(kind)?, number(rounds)?, part),
        ["job", kind, seed, index, folder] => {
            let job = job::job(which(kind)?, number(seed)?, number(index)?);
            fs::create_dir_all(folder)?;
            for (name, bytes) in job.files() {
                fs::write(Path::new(folder).join(name), bytes)?;
            }
            if let Some(settings) = &job.merge {
                println!("flag {}, mode {}", settings.flag, settings.mode);
            }
            Ok(ExitCode::SUCCESS)
        }
        ["stored", folder] => stored(Path::new(folder)),
        _ => Err(io::Error::new(ErrorKind::InvalidInput, USAGE)),
    }
}

/// The rows of the table of speed whose names hold `part`.
fn times(kind: Kind, rounds: u64, part: &str) -> io::Result<ExitCode> {
    match oracle::MISSING {
        Some(reason) => Err(io::Error::other(reason)),
        None => speed::speed(kind, rounds as usize, part).map(|()| ExitCode::SUCCESS),
    }
}

fn which(word: &str) -> io::Result<Kind> {
    word.parse()
        .map_err(|error| io::Error::new(ErrorKind::InvalidInput, format!("{error}\n{USAGE}")))
}

fn number(word: &str) -> io::Result<u64> {
    word.parse().map_err(|_| {
        io::Error::new(
            ErrorKind::InvalidInput,
            format!("no number: {word}\n{USAGE}"),
        )
    })
}

/// Starts the Rust and the model, and says what is not there.
fn others() -> io::Result<Others> {
    let top = Path::new(env!("CARGO_MANIFEST_DIR"));
    let oracle = top.join("../oracle/target/release/oracle");
    let rust = match oracle::MISSING {
        Some(reason) => {
            println!("The Rust is not asked: {reason}");
            None
        }
        None if !oracle.exists() => {
            println!("The Rust is not asked: build it with `cargo build --release` in oracle/.");
            None
        }
        None => Some(Rust::start(&oracle)?),
    };
    let model = env::var_os("MODEL").map_or_else(|| top.join("../../shared/model"), PathBuf::from);
    let model = match model.join("model.py").exists() {
        true => Some(Model::start(&top.join("model.py"), &model)?),
        false => {
            println!("The model is not asked: MODEL names no folder with model.py.");
            None
        }
    };
    Ok(Others { rust, model })
}

fn run(
    kind: Kind,
    seed: u64,
    jobs: u64,
    time: Option<Duration>,
    record: Option<&str>,
) -> io::Result<ExitCode> {
    let mut others = others()?;
    let start = Instant::now();
    println!("{kind}, seed {seed}, {jobs} jobs");
    let (tally, found) = compare(
        &Run {
            kind,
            seed,
            first: 0,
            jobs,
            time,
        },
        &mut others,
    )?;
    print!("{tally}");
    println!("{:>9.1} seconds", start.elapsed().as_secs_f64());
    for difference in &found {
        println!(
            "DIFFERENCE seed {seed} job {}: {}",
            difference.index, difference.words
        );
    }
    println!("{} differences off the list", found.len());
    if !found.is_empty() {
        return Ok(ExitCode::FAILURE);
    }
    if let Some(file) = record {
        if others.rust.is_none() || others.model.is_none() {
            return Err(io::Error::other(
                "a list is recorded only with the Rust and the model",
            ));
        }
        let lines = (0u64..).zip(&tally.digests);
        let lines = lines.map(|(i, digest)| format!("{kind} {seed} {} {digest:016x}\n", i * BATCH));
        fs::write(file, lines.collect::<String>())?;
    }
    Ok(ExitCode::SUCCESS)
}

/// Holds stored merges against the others, a folder each, in every mode and with both flags. A
/// folder has c.o, a.o, blocks and settings, whose first line is the path.
fn stored(folder: &Path) -> io::Result<ExitCode> {
    let mut others = others()?;
    let mut folders = fs::read_dir(folder)?
        .map(|entry| entry.map(|entry| entry.path()))
        .collect::<io::Result<Vec<PathBuf>>>()?;
    folders.sort();
    folders.retain(|folder| folder.join("a.o").exists());
    let (mut batch, mut found, mut tally) = (vec![], vec![], Tally::default());
    let mut port = Port::new(1);
    for folder in &folders {
        let file = |name: &str| fs::read(folder.join(name));
        let settings = file("settings")?;
        let path = settings.split(|&b| b == b'\n').next().unwrap_or_default();
        for (flag, mode) in (0..8).map(|n| (n / 4, n % 4)) {
            let path = path.to_vec();
            let job = Job {
                compiled: file("c.o")?,
                second: file("a.o")?,
                blocks: file("blocks")?,
                merge: Some(Settings { path, flag, mode }),
            };
            // Every one is a job of the share that is asked of the model.
            let answer = port.answer(&job, &mut Random::new(1, tally.jobs));
            let verdict = answer
                .map_err(|words| io::Error::other(format!("{}: {words}", folder.display())))?;
            batch.push((SHARE * tally.jobs, job, verdict));
            tally.jobs += 1;
        }
    }
    held_against(&mut others, &batch, &mut tally, &mut found)?;
    print!("{tally}");
    for difference in &found {
        let which = (difference.index / SHARE) as usize;
        let folder = folders[which / 8].display();
        println!(
            "DIFFERENCE {folder} flag {} mode {}: {}",
            which / 4 % 2,
            which % 4,
            difference.words
        );
    }
    println!("{} differences off the list", found.len());
    match tally.jobs {
        0 => Err(io::Error::other("no folder with a job")),
        _ if found.is_empty() => Ok(ExitCode::SUCCESS),
        _ => Ok(ExitCode::FAILURE),
    }
}

/// Runs the jobs of a list again, against those of the others that are there, and against the
/// list's own digests, which stand for both. A list that is not run to its end fails.
fn replay(file: &str, time: Option<Duration>) -> io::Result<ExitCode> {
    let mut others = others()?;
    let start = Instant::now();
    let list = fs::read_to_string(file)?;
    let lines: Vec<&str> = list.lines().collect();
    let (mut done, mut wrong) = (0, 0);
    let (mut jobs, mut by_rust, mut by_model) = (0, 0, 0);
    for line in &lines {
        if done > 0 && time.is_some_and(|time| start.elapsed() >= time) {
            break;
        }
        let [kind, seed, first, digest] = line.split(' ').collect::<Vec<_>>()[..] else {
            return Err(io::Error::other(format!("no line of a list: {line}")));
        };
        let (seed, first) = (number(seed)?, number(first)?);
        let whole = Run {
            kind: which(kind)?,
            seed,
            first,
            jobs: BATCH,
            time: None,
        };
        let (tally, found) = compare(&whole, &mut others)?;
        for difference in &found {
            println!(
                "DIFFERENCE seed {seed} job {}: {}",
                difference.index, difference.words
            );
        }
        let same = tally
            .digests
            .iter()
            .map(|d| format!("{d:016x}"))
            .eq([digest.to_string()]);
        if !same {
            println!("DIFFERENCE seed {seed} jobs from {first}: the answers are not the list's");
        }
        done += 1;
        jobs += tally.jobs;
        by_rust += tally.by_rust;
        by_model += tally.by_model;
        wrong += found.len() + usize::from(!same);
    }
    let whole = done == lines.len() && done > 0;
    if !whole {
        println!(
            "FAILED: {done} of the list's {} lines were run",
            lines.len()
        );
    }
    println!(
        "{jobs} of {} jobs of the list in {:.1} seconds, {by_rust} held against the Rust, \
         {by_model} against the model, {wrong} differences",
        BATCH * lines.len() as u64,
        start.elapsed().as_secs_f64()
    );
    match wrong {
        0 if whole => Ok(ExitCode::SUCCESS),
        _ => Ok(ExitCode::FAILURE),
    }
}
