//! Coverage-guided fuzzing of a proved call: jobs that reach a block of code for the first time
//! are kept and changed further. After every call all that document 01 says of the buffers is
//! checked; inputs and buffers lie against pages that nobody may touch.

use crate::{
    compare::{Others, Tally, held_against},
    damage::{damage_lines, damage_object},
    fence::Fence,
    job::{Job, Kind, job},
    port::{Refusal, Verdict, invoke, least, zeros},
    random::Random,
    trace,
};
use daphulle::call::Outcome;
use std::{
    ffi::{CString, c_char},
    fs, io,
    path::Path,
    time::{Duration, Instant},
};

unsafe extern "C" {
    fn watch_calls();
    fn calls_may_last(seconds: u32);
    fn keep_input(i: i32, bytes: *const u8, length: usize, path: *const c_char);
}

/// The longest input and output, and the longest time of a call, in seconds.
const MOST: usize = 2 << 20;
const SECONDS: u32 = 20;

/// Pages for the inputs and the buffers of a call, and noise to lend.
struct Target {
    kind: Kind,
    inputs: Vec<Fence>,
    buffers: Vec<Fence>,
    noise: Vec<u8>,
    paths: Vec<CString>,
}

impl Target {
    fn new(kind: Kind, seed: u64, folder: &Path) -> io::Result<Target> {
        fs::create_dir_all(folder)?;
        let path = |name: &str| {
            let path = folder.join(name);
            CString::new(path.as_os_str().as_encoded_bytes()).map_err(io::Error::other)
        };
        let first = job(kind, seed, 0);
        let names = first.files().into_iter().map(|(name, _)| path(name));
        let paths = names.collect::<io::Result<Vec<CString>>>()?;
        Ok(Target {
            kind,
            inputs: paths.iter().map(|_| Fence::new(MOST)).collect(),
            buffers: (0..=least(kind).len()).map(|_| Fence::new(MOST)).collect(),
            noise: Random::new(seed, 0).bytes(1 << 20),
            paths,
        })
    }

    /// One call with buffers of random lengths: its answer, or what is wrong with it.
    fn call(&mut self, random: &mut Random, job: &Job) -> Result<Verdict, String> {
        let room = match random.below(6) {
            0 => random.below(200),
            _ => 20_000 + random.below(90_000),
        };
        let mut lengths = vec![room];
        for &n in least(self.kind) {
            lengths.push(match random.below(24) {
                0 => n - 1,
                1 => random.below(n),
                2 | 3 => n + random.below(5000),
                _ => n,
            });
        }
        let at_end = |random: &mut Random| !random.once_in(5);
        let mut files = vec![];
        for (fence, (_, bytes)) in self.inputs.iter_mut().zip(job.files()) {
            files.push(fence.hold(bytes, at_end(random)));
        }
        let mut buffers = vec![];
        for (fence, &n) in self.buffers.iter_mut().zip(&lengths) {
            let part = fence.lend(n, at_end(random));
            let start = random.below(self.noise.len() - n.min(self.noise.len()) + 1);
            part.copy_from_slice(&self.noise[start..start + n]);
            buffers.push(part);
        }
        for (i, (file, path)) in files.iter().zip(&self.paths).enumerate() {
            // SAFETY: the parts and the paths outlive the call below, after which nobody looks.
            unsafe { keep_input(i as i32, file.as_ptr(), file.len(), path.as_ptr()) };
        }
        // SAFETY: it sets the system's alarm.
        unsafe { calls_may_last(SECONDS) };
        let outcome = invoke(job, &files, &mut buffers);
        // SAFETY: as above; 0 takes the alarm back.
        unsafe { calls_may_last(0) };
        checked(self.kind, outcome, &lengths, &buffers)
    }
}

/// Zeros where document 01 asks for them, and an answer of its form.
fn checked(
    kind: Kind,
    outcome: Outcome,
    lengths: &[usize],
    buffers: &[&mut [u8]],
) -> Result<Verdict, String> {
    let Outcome {
        length,
        number,
        object,
        place,
    } = outcome;
    let short = lengths[1..]
        .iter()
        .zip(least(kind))
        .any(|(n, least)| n < least);
    let written = length as usize;
    let merge = kind == Kind::Merge;
    let formed = match number {
        0 => (object, place) == (0, 0) && written <= lengths[0],
        1 => (object, place) == (0, 0),
        2..=6 => object == 1 || merge && object == 2,
        7 => object == 0 && place > 0,
        8 | 9 => object == 1 && place < 1024,
        10 => merge && object == 1 && place < 128,
        11 => merge && object < 3 && (1..=6).contains(&place),
        12 => merge && object == 2 && place < 1024,
        13 => merge && (object, place) == (2, 0),
        14 => merge && object == 1 && place < 1024,
        15 | 16 => merge && object == 2 && place < 4096,
        17 => merge && object == 1,
        18 | 19 => merge && object == 0 && place < 12_288,
        20 => merge && (object == 1 || object == 2),
        21 => object == 0 && place > lengths[0] as u64,
        _ => false,
    };
    if !formed || short && number != 1 || number != 0 && length != 0 {
        return Err(format!("{outcome:?} with lengths {lengths:?}"));
    }
    let out = &buffers[0];
    if !zeros(&out[written..]) || !buffers[1..].iter().all(|buffer| zeros(buffer)) {
        return Err(format!("not zeroed: {outcome:?} with lengths {lengths:?}"));
    }
    Ok(match number {
        0 => Verdict::Done(out[..written].to_vec()),
        21 => Verdict::Long(place),
        _ => Verdict::Refused(Refusal {
            number,
            object,
            place,
        }),
    })
}

/// A job made from others: damaged, changed byte by byte, or with files of two jobs.
fn changed(random: &mut Random, kept: &[Job]) -> Job {
    let mut job = random.pick(kept).clone();
    let other = random.pick(kept);
    for _ in 0..random.between(1, 5) {
        match (random.below(8), &mut job.merge) {
            (0, _) => damage_object(random, &mut job.compiled, &other.compiled),
            (1, None) => damage_object(random, &mut job.compiled, &other.compiled),
            (1, Some(_)) => damage_object(random, &mut job.second, &other.second),
            (2, _) => damage_lines(random, &mut job.blocks),
            (3, None) => damage_lines(random, &mut job.blocks),
            (3, Some(settings)) => match random.below(3) {
                0 => change_bytes(random, &mut settings.path),
                1 => settings.flag ^= 1,
                _ => settings.mode = random.below(4) as u32,
            },
            (4, _) => change_bytes(random, &mut job.compiled),
            (5, _) => change_bytes(random, &mut job.blocks),
            (6, _) => change_bytes(random, &mut job.second),
            _ => match random.below(3) {
                0 => job.compiled.clone_from(&other.compiled),
                1 => job.second.clone_from(&other.second),
                _ => job.blocks.clone_from(&other.blocks),
            },
        }
    }
    for file in [&mut job.compiled, &mut job.second, &mut job.blocks] {
        file.truncate(MOST);
    }
    job
}

/// Bytes set, taken out, put in, or copied from elsewhere in the file.
fn change_bytes(random: &mut Random, file: &mut Vec<u8>) {
    let at = random.below(file.len() + 1);
    let n = random.below(16).min(file.len() - at);
    match random.below(4) {
        0 => random
            .bytes(n)
            .into_iter()
            .zip(&mut file[at..])
            .for_each(|(new, old)| *old = new),
        1 => drop(file.drain(at..at + n)),
        2 => {
            let new = random.bytes(n);
            drop(file.splice(at..at, new));
        }
        _ => {
            let from = random.below(file.len() - n + 1);
            let copy = file[from..from + n].to_vec();
            drop(file.splice(at..at + random.below(n + 1), copy));
        }
    }
}

/// Fuzzes for some time; then the kept jobs are held against the Rust and the model.
pub fn fuzz(
    kind: Kind,
    seed: u64,
    time: Duration,
    folder: &Path,
    others: &mut Others,
) -> io::Result<bool> {
    let trace = trace::start()?;
    let blocks = trace.blocks();
    // SAFETY: it sets handlers for signals that end this process otherwise.
    unsafe { watch_calls() };
    let mut target = Target::new(kind, seed, folder)?;
    let random = &mut Random::new(seed, 1);
    let (mut kept, mut calls, mut hits) = (vec![], 0u64, 0);
    let (start, mut last, mut report) = (Instant::now(), 0.0, 1);
    while start.elapsed() < time {
        let new = match kept.is_empty() || random.once_in(20) {
            true => job(kind, seed, calls),
            false => changed(random, &kept),
        };
        if let Err(words) = target.call(random, &new) {
            println!("WRONG after {calls} calls: {words}");
            for (name, bytes) in new.files() {
                fs::write(folder.join(name), bytes)?;
            }
            return Ok(false);
        }
        calls += 1;
        if trace::hits() > hits {
            (hits, last) = (trace::hits(), start.elapsed().as_secs_f64());
            kept.push(new);
        }
        if start.elapsed().as_secs() >= report * 300 {
            println!(
                "{:>6} s: {calls} calls, {hits} of {blocks} blocks",
                report * 300
            );
            report += 1;
        }
    }
    println!(
        "{kind}, seed {seed}: {calls} calls in {} seconds, none died, none passed {SECONDS} seconds",
        time.as_secs()
    );
    println!(
        "{hits} of {blocks} blocks of the archive's code reached, the last after {last:.0} seconds, by {} jobs",
        kept.len()
    );
    for (name, missed, all) in trace.missed() {
        println!("{missed:>6} of {all} blocks of {name} not reached");
    }
    again(&mut target, random, kept, others)
}

/// The kept jobs once more, against the others that are there.
fn again(
    target: &mut Target,
    random: &mut Random,
    kept: Vec<Job>,
    others: &mut Others,
) -> io::Result<bool> {
    let (mut tally, mut found, mut batch) = (Tally::default(), vec![], vec![]);
    for (i, job) in (0..).zip(kept) {
        // Until the buffers are long enough for an answer that does not speak of them.
        let verdict = (0..1000).find_map(|_| match target.call(random, &job) {
            Ok(Verdict::Refused(Refusal { number: 1, .. })) => None,
            Ok(Verdict::Long(n)) if n < 110_000 => None,
            other => Some(other),
        });
        match verdict {
            Some(Ok(Verdict::Long(_))) | None => (),
            Some(Ok(verdict)) => batch.push((i, job, verdict)),
            Some(Err(words)) => return Err(io::Error::other(words)),
        }
    }
    held_against(others, &batch, &mut tally, &mut found)?;
    for difference in &found {
        println!(
            "DIFFERENCE kept job {}: {}",
            difference.index, difference.words
        );
    }
    println!(
        "{} of the kept jobs called again, {} held against the Rust, {} against the model, {} differences",
        batch.len(),
        tally.by_rust,
        tally.by_model,
        found.len()
    );
    Ok(found.is_empty())
}
