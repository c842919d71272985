//! The calls in plain C (`limit/`), by which `speed` measures how fast they could be.

use crate::job::{Job, Kind};
use daphulle::call::Outcome;

mod library {
    use daphulle::call::Outcome;

    unsafe extern "C" {
        pub fn limit_draft_work() -> usize;
        pub fn limit_merge_work() -> usize;
        pub fn limit_draft(
            compiled: *const u8,
            compiled_length: usize,
            prelude: *const u8,
            prelude_length: usize,
            blocks: *const u8,
            blocks_length: usize,
            out: *mut u8,
            out_length: usize,
            work: *mut u64,
            work_length: usize,
        ) -> Outcome;
        pub fn limit_merge(
            compiled: *const u8,
            compiled_length: usize,
            assembled: *const u8,
            assembled_length: usize,
            blocks: *const u8,
            blocks_length: usize,
            path: *const u8,
            path_length: usize,
            flag: u32,
            mode: u32,
            out: *mut u8,
            out_length: usize,
            work: *mut u64,
            work_length: usize,
        ) -> Outcome;
    }
}

/// A working buffer of the least length, for jobs of this kind. Words, for their alignment.
pub fn working(kind: Kind) -> Vec<u64> {
    // SAFETY: they ask nothing of their caller.
    let bytes = unsafe {
        match kind {
            Kind::Draft => library::limit_draft_work(),
            Kind::Merge => library::limit_merge_work(),
        }
    };
    vec![0; bytes.div_ceil(8)]
}

/// The call in plain C on a job. Only number and length of the outcome are the proved call's, and those where
/// document 01 accepts the job.
pub fn limit(job: &Job, out: &mut [u8], work: &mut [u64]) -> Outcome {
    let Job {
        compiled,
        second,
        blocks,
        merge,
    } = job;
    // SAFETY: each pointer comes from a slice and goes with its length in bytes; `out` and `work` are `&mut`, and share no
    // byte with an input.
    unsafe {
        match merge {
            None => library::limit_draft(
                compiled.as_ptr(),
                compiled.len(),
                second.as_ptr(),
                second.len(),
                blocks.as_ptr(),
                blocks.len(),
                out.as_mut_ptr(),
                out.len(),
                work.as_mut_ptr(),
                8 * work.len(),
            ),
            Some(settings) => library::limit_merge(
                compiled.as_ptr(),
                compiled.len(),
                second.as_ptr(),
                second.len(),
                blocks.as_ptr(),
                blocks.len(),
                settings.path.as_ptr(),
                settings.path.len(),
                settings.flag,
                settings.mode,
                out.as_mut_ptr(),
                out.len(),
                work.as_mut_ptr(),
                8 * work.len(),
            ),
        }
    }
}

#[cfg(test)]
mod tests {
    use super::{limit, working};
    use crate::{
        job::{Job, Kind, job},
        port::{Port, Verdict, zeros},
        random::Random,
    };

    /// The answers to one job: the plain C's bytes, or the number by which it gives up. Its buffers are full of noise, and its
    /// output has more room than it needs.
    fn plain(job: &Job, room: usize, random: &mut Random) -> Result<Vec<u8>, u32> {
        let mut out = random.bytes(room + 64);
        let mut work = working(job.kind());
        work.fill_with(|| random.word());
        let outcome = limit(job, &mut out, &mut work);
        let length = outcome.length as usize;
        assert!(work.iter().all(|&word| word == 0), "the working buffer");
        assert!(zeros(&out[length..]), "the rest of the output");
        match outcome.number {
            0 => Ok(out[..length].to_vec()),
            number => Err(number),
        }
    }

    /// How many of so many jobs are accepted. Each of them has the proved call's bytes, and no other has any.
    fn accepted(kind: Kind, seed: u64, jobs: u64) -> usize {
        let mut port = Port::new(seed);
        let mut accepted = 0;
        for index in 0..jobs {
            let random = &mut Random::new(seed, index);
            let job = job(kind, seed, index);
            match port.answer(&job, random).expect("the proved call answers") {
                Verdict::Done(bytes) => {
                    accepted += 1;
                    let same = plain(&job, bytes.len(), random) == Ok(bytes);
                    assert!(same, "{kind} {seed} {index}");
                }
                Verdict::Refused(_) => {
                    let gives_up = plain(&job, 100_000, random).is_err();
                    assert!(gives_up, "{kind} {seed} {index}");
                }
                Verdict::Long(_) => (),
            }
        }
        accepted
    }

    #[test]
    fn plain_c_gives_the_proved_calls_bytes() {
        for kind in [Kind::Draft, Kind::Merge] {
            let accepted = accepted(kind, 17, 1200);
            assert!(accepted > 300, "{kind}: {accepted}");
        }
    }
}
