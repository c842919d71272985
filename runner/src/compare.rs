//! Holds the proved calls against the unchanged Rust and the model, job by job.

use crate::{
    differences,
    job::{Job, Kind, job},
    port::{HELD, Port, Refusal, Verdict},
    random::Random,
    served::{Model, ModelAnswer, Rust, RustAnswer},
};
use std::{
    collections::BTreeMap,
    fmt, io, thread,
    time::{Duration, Instant},
};

/// Who is there to compare with.
pub struct Others {
    pub rust: Option<Rust>,
    pub model: Option<Model>,
}

/// What a run is to do: `jobs` jobs from index `first` on, as far as the time goes.
pub struct Run {
    pub kind: Kind,
    pub seed: u64,
    pub first: u64,
    pub jobs: u64,
    pub time: Option<Duration>,
}

/// What a run met.
#[derive(Default)]
pub struct Tally {
    pub jobs: u64,
    /// Drafts or merged objects that are the Rust's, byte for byte.
    pub results: u64,
    /// Those that are the model's, and merged objects that fulfil demand 3 as well.
    pub model_results: u64,
    /// Drafts too long to be held, whose length is the model's.
    pub long: u64,
    /// Refusals by number, and how many of all were asked of the model.
    pub refused: BTreeMap<u32, u64>,
    pub model_refusals: u64,
    /// Refused jobs that the Rust refuses too, and those of each row of docs/DIFFERENCES.md.
    pub refused_by_rust: u64,
    pub differences: BTreeMap<&'static str, u64>,
    /// Reasons for which the Rust gave no verdict.
    pub no_verdict: BTreeMap<String, u64>,
    /// Jobs that were held against a verdict of the Rust, and against one of the model.
    pub by_rust: u64,
    pub by_model: u64,
    /// Results and refusals that were held against neither.
    pub results_alone: u64,
    pub refusals_alone: u64,
    /// A digest of each thousand answers, in order.
    pub digests: Vec<u64>,
}

/// A job whose answers differ, and how.
pub struct Difference {
    pub index: u64,
    pub words: String,
}

/// Jobs that are made, called and compared in one go; their answers make one digest.
pub const BATCH: u64 = 1000;

/// One in so many merged objects is asked of the model, although the Rust is there.
pub const SHARE: u64 = 8;

pub fn compare(run: &Run, others: &mut Others) -> io::Result<(Tally, Vec<Difference>)> {
    let start = Instant::now();
    let mut tally = Tally::default();
    let mut found = vec![];
    let mut port = Port::new(run.seed);
    let mut next = run.first;
    let end = run.first + run.jobs;
    while next < end && run.time.is_none_or(|time| start.elapsed() < time) {
        let indices = next..end.min(next + BATCH);
        next = indices.end;
        let mut batch = vec![];
        for index in indices {
            let job = job(run.kind, run.seed, index);
            // The lengths of the buffers must not change with the job's maker.
            let lengths = &mut Random::new(!run.seed, index);
            match port.answer(&job, lengths) {
                Ok(verdict) => batch.push((index, job, verdict)),
                Err(words) => found.push(Difference { index, words }),
            }
        }
        tally.jobs += batch.len() as u64;
        tally
            .digests
            .push(digest(batch.iter().map(|(_, _, verdict)| verdict)));
        held_against(others, &batch, &mut tally, &mut found)?;
    }
    Ok((tally, found))
}

pub type Answered = (u64, Job, Verdict);

/// Asks the Rust and the model about a batch, side by side.
pub fn held_against(
    others: &mut Others,
    batch: &[Answered],
    tally: &mut Tally,
    found: &mut Vec<Difference>,
) -> io::Result<()> {
    let Others { rust, model } = others;
    let alone = rust.is_none();
    let (by_rust, by_model) = thread::scope(|scope| {
        let by_rust = scope.spawn(|| ask(batch, rust, |rust, (_, job, _)| rust.ask(job)));
        let by_model = ask(batch, model, |model, answered| {
            let (_, job, verdict) = answered;
            match verdict {
                Verdict::Done(_) if !alone && !is_models(answered) => Ok(None),
                Verdict::Long(_) => model.ask(job, HELD).map(Some),
                Verdict::Done(_) | Verdict::Refused(_) => model.ask(job, u64::MAX).map(Some),
            }
        });
        (by_rust.join().expect("the Rust's thread"), by_model)
    });
    let (by_rust, by_model) = (by_rust?, by_model?);
    for (i, (index, job, verdict)) in batch.iter().enumerate() {
        let rust = by_rust.as_ref().map(|answers| &answers[i]);
        let model = by_model.as_ref().and_then(|answers| answers[i].as_ref());
        if let Err(words) = judge(job, verdict, rust, model, tally) {
            found.push(Difference {
                index: *index,
                words,
            });
        }
    }
    Ok(())
}

/// Whether the model is asked for a result besides the Rust: where there are bytes over 127 or a
/// stem is long, for which the Rust may give no verdict, and for a share of the merged objects.
fn is_models((index, job, _): &Answered) -> bool {
    let text = job.blocks.is_ascii() && (job.kind() == Kind::Merge || job.second.is_ascii());
    !text || differences::long_stem(job) || job.kind() == Kind::Merge && index % SHARE == 0
}

/// The answers of one of the others to a batch, if it is there.
fn ask<T, A>(
    batch: &[Answered],
    other: &mut Option<T>,
    mut question: impl FnMut(&mut T, &Answered) -> io::Result<A>,
) -> io::Result<Option<Vec<A>>> {
    let Some(other) = other else {
        return Ok(None);
    };
    let answers = batch.iter().map(|answered| question(other, answered));
    answers.collect::<io::Result<Vec<A>>>().map(Some)
}

/// Counts a job on which all agree as far as they were asked, or says how they differ.
fn judge(
    job: &Job,
    verdict: &Verdict,
    rust: Option<&RustAnswer>,
    model: Option<&ModelAnswer>,
    tally: &mut Tally,
) -> Result<(), String> {
    match model {
        None => (),
        Some(model) if agrees(verdict, model) => match verdict {
            Verdict::Done(_) => tally.model_results += 1,
            Verdict::Long(_) => tally.long += 1,
            Verdict::Refused(_) => tally.model_refusals += 1,
        },
        Some(ModelAnswer::Done(_)) => return Err(format!("the model accepts; {verdict}")),
        Some(ModelAnswer::Refused(Refusal { number: 99, .. })) => {
            return Err(format!("demand 3 fails; {verdict}"));
        }
        Some(ModelAnswer::Refused(r)) => {
            return Err(format!("the model: {}; {verdict}", Verdict::Refused(*r)));
        }
    }
    if let Verdict::Refused(refusal) = verdict {
        *tally.refused.entry(refusal.number).or_default() += 1;
    }
    let by_rust = match (verdict, rust) {
        (_, None) => false,
        // A block file is this project's form: what the oracle makes of a bad one means nothing.
        (Verdict::Refused(Refusal { number: 7, .. }), _) => false,
        (_, Some(RustAnswer::NoVerdict(reason))) => {
            let reason = reason.split([':', '(']).next().unwrap_or_default().trim();
            *tally.no_verdict.entry(reason.into()).or_default() += 1;
            false
        }
        (Verdict::Done(bytes), Some(RustAnswer::Done(same))) if bytes == same => {
            tally.results += 1;
            true
        }
        (Verdict::Long(length), Some(RustAnswer::Done(same))) if *length == same.len() as u64 => {
            true
        }
        (Verdict::Refused(_), Some(RustAnswer::Refused(_))) => {
            tally.refused_by_rust += 1;
            true
        }
        (Verdict::Refused(refusal), Some(RustAnswer::Done(_))) => {
            let row = differences::row(*refusal, job)
                .ok_or_else(|| format!("the Rust accepts, and no row has it; {verdict}"))?;
            *tally.differences.entry(row).or_default() += 1;
            true
        }
        (_, Some(RustAnswer::Done(_))) => {
            return Err(format!("the Rust's result is another; {verdict}"));
        }
        (Verdict::Done(_), Some(RustAnswer::Refused(_))) if differences::long_stem(job) => {
            *tally
                .no_verdict
                .entry(differences::STEM.into())
                .or_default() += 1;
            false
        }
        (_, Some(RustAnswer::Refused(words))) => {
            return Err(format!("the Rust: {words}; {verdict}"));
        }
    };
    tally.by_rust += u64::from(by_rust);
    tally.by_model += u64::from(model.is_some());
    match verdict {
        _ if by_rust || model.is_some() => (),
        Verdict::Refused(_) => tally.refusals_alone += 1,
        Verdict::Done(_) | Verdict::Long(_) => tally.results_alone += 1,
    }
    Ok(())
}

fn agrees(verdict: &Verdict, model: &ModelAnswer) -> bool {
    match (verdict, model) {
        (Verdict::Done(bytes), ModelAnswer::Done(same)) => bytes == same,
        (Verdict::Long(length), ModelAnswer::Refused(r)) => {
            (r.number, r.object, r.place) == (21, 0, *length)
        }
        (Verdict::Refused(refusal), ModelAnswer::Refused(same)) => refusal == same,
        _ => false,
    }
}

/// FNV-1a over the answers.
fn digest<'a>(verdicts: impl Iterator<Item = &'a Verdict>) -> u64 {
    let mut hash = 0xcbf2_9ce4_8422_2325_u64;
    let mut add = |bytes: &[u8]| {
        for &byte in bytes {
            hash = (hash ^ u64::from(byte)).wrapping_mul(0x0100_0000_01b3);
        }
    };
    for verdict in verdicts {
        match verdict {
            Verdict::Done(bytes) => {
                add(&(bytes.len() as u64).to_be_bytes());
                add(bytes);
            }
            other => add(other.to_string().as_bytes()),
        }
    }
    hash
}

impl fmt::Display for Verdict {
    fn fmt(&self, f: &mut fmt::Formatter<'_>) -> fmt::Result {
        match self {
            Verdict::Done(bytes) => write!(f, "a result of {} bytes", bytes.len()),
            Verdict::Long(length) => write!(f, "a draft of {length} bytes"),
            Verdict::Refused(r) => write!(f, "refused {} {} {}", r.number, r.object, r.place),
        }
    }
}

impl fmt::Display for Tally {
    fn fmt(&self, f: &mut fmt::Formatter<'_>) -> fmt::Result {
        let refused: u64 = self.refused.values().sum();
        writeln!(f, "{:>9} jobs", self.jobs)?;
        writeln!(f, "{:>9} results are the Rust's", self.results)?;
        writeln!(
            f,
            "{:>9} results are the model's (merged objects fulfil demand 3)",
            self.model_results
        )?;
        writeln!(
            f,
            "{:>9} drafts over {HELD} bytes have the model's length",
            self.long
        )?;
        writeln!(f, "{refused:>9} refused")?;
        for (number, count) in &self.refused {
            writeln!(f, "{count:>19} by {number}")?;
        }
        writeln!(f, "{:>9} refusals are the model's", self.model_refusals)?;
        writeln!(f, "{:>9} refused by the Rust too", self.refused_by_rust)?;
        writeln!(
            f,
            "{:>9} accepted by the Rust, as docs/DIFFERENCES.md says",
            self.differences.values().sum::<u64>()
        )?;
        for (row, count) in &self.differences {
            writeln!(f, "{count:>19} {row}")?;
        }
        writeln!(
            f,
            "{:>9} without a verdict of the Rust",
            self.no_verdict.values().sum::<u64>()
        )?;
        for (reason, count) in &self.no_verdict {
            writeln!(f, "{count:>19} {reason}")?;
        }
        for (count, what) in [
            (self.results_alone, "results"),
            (self.refusals_alone, "refusals"),
        ] {
            writeln!(
                f,
                "{count:>9} {what} held against neither the Rust nor the model"
            )?;
        }
        Ok(())
    }
}

#[cfg(test)]
mod tests {
    use super::{Tally, judge};
    use crate::{
        job::Job,
        port::{Refusal, Verdict},
        served::{ModelAnswer, RustAnswer},
    };

    fn refused(number: u32, place: u64) -> Refusal {
        let object = 1;
        Refusal {
            number,
            object,
            place,
        }
    }

    #[test]
    fn a_difference_is_found() {
        let mut tally = Tally::default();
        // e_shentsize is 41.
        let compiled = [&[0; 47][..], &[41]].concat();
        let job = Job {
            compiled,
            ..Job::default()
        };
        let mut judge = |verdict, rust: Option<RustAnswer>, model: Option<ModelAnswer>| {
            judge(&job, &verdict, rust.as_ref(), model.as_ref(), &mut tally).is_ok()
        };
        let draft = || Verdict::Done(b"nop\n".to_vec());
        let rust = |text: &[u8]| Some(RustAnswer::Done(text.to_vec()));
        let no = || Some(RustAnswer::Refused("panic".into()));
        let model = |number, place| Some(ModelAnswer::Refused(refused(number, place)));
        let ours = |number, place| Verdict::Refused(refused(number, place));
        // Drafts: the Rust's bytes, or nothing.
        assert!(judge(draft(), rust(b"nop\n"), None));
        assert!(!judge(draft(), rust(b"nop"), None));
        assert!(!judge(draft(), no(), None));
        assert!(!judge(draft(), rust(b"nop\n"), model(8, 0)));
        assert!(!judge(draft(), None, Some(ModelAnswer::Done(vec![]))));
        assert!(!judge(Verdict::Long(5), rust(b"nop\n"), None));
        // Refusals: the model's number and place; what the Rust accepts is on a row.
        assert!(judge(ours(8, 3), no(), model(8, 3)));
        assert!(!judge(ours(8, 3), no(), model(9, 3)));
        assert!(!judge(ours(8, 3), no(), model(8, 2)));
        assert!(!judge(ours(8, 3), no(), Some(ModelAnswer::Done(vec![]))));
        assert!(!judge(ours(8, 3), rust(b""), model(8, 3)));
        assert!(judge(ours(2, 46), rust(b""), model(2, 46)));
        assert!(!judge(ours(2, 18), rust(b""), model(2, 18)));
        assert!(!judge(ours(5, 1), rust(b""), None));
        // Merged objects: demand 3 besides.
        assert!(judge(
            draft(),
            rust(b"nop\n"),
            Some(ModelAnswer::Done(b"nop\n".to_vec()))
        ));
        assert!(!judge(draft(), rust(b"nop\n"), model(99, 0)));
    }

    #[test]
    fn a_report_says_what_was_held_against_nobody() {
        let report = |rust: Option<RustAnswer>, model: Option<ModelAnswer>| {
            let mut tally = Tally::default();
            let job = Job::default();
            for verdict in [
                Verdict::Done(vec![]),
                Verdict::Long(5),
                Verdict::Refused(refused(8, 0)),
                Verdict::Refused(refused(7, 1)),
            ] {
                let model = model.as_ref().map(|_| match &verdict {
                    Verdict::Done(draft) => ModelAnswer::Done(draft.clone()),
                    Verdict::Long(length) => ModelAnswer::Refused(Refusal {
                        number: 21,
                        object: 0,
                        place: *length,
                    }),
                    Verdict::Refused(refusal) => ModelAnswer::Refused(*refusal),
                });
                judge(&job, &verdict, rust.as_ref(), model.as_ref(), &mut tally).unwrap();
            }
            tally.to_string()
        };
        let alone = |results, refusals| {
            format!(
                "{results:>9} results held against neither the Rust nor the model\n\
                 {refusals:>9} refusals held against neither the Rust nor the model\n"
            )
        };
        let silent = || Some(RustAnswer::NoVerdict("memory".into()));
        let model = || Some(ModelAnswer::Done(vec![]));
        assert!(report(None, None).ends_with(&alone(2, 2)));
        assert!(report(silent(), None).ends_with(&alone(2, 2)));
        assert!(report(None, model()).ends_with(&alone(0, 0)));
        assert!(report(silent(), model()).ends_with(&alone(0, 0)));
    }
}
