//! Calls the proved draft or merge on one job, with buffers full of noise at several lengths, and checks
//! all that document 01 says of them.

use crate::{
    job::{Job, Kind},
    random::Random,
};
use daphulle::call::{
    BLOCK_BUFFER, INDEX_BUFFER, MergeBuffers, MergeInputs, OPEN_TABLE, Outcome, PLACE_BUFFER,
    PLACE_TABLE, STEP_BUFFER, draft_into, merge_into,
};

/// The answer to a job; drafts over `HELD` bytes are known by their length alone.
#[derive(Clone, Debug, PartialEq)]
pub enum Verdict {
    /// The draft, or the merged object.
    Done(Vec<u8>),
    Long(u64),
    Refused(Refusal),
}

#[derive(Clone, Copy, Debug, PartialEq)]
pub struct Refusal {
    pub number: u32,
    pub object: u32,
    pub place: u64,
}

/// The longest draft that is asked for.
pub const HELD: u64 = 4 << 20;

const LIMITS: u32 = 1;
const OUTPUT_ROOM: u32 = 21;

/// Bytes on both sides of a lent buffer, which no call may change.
const EDGE: usize = 64;

/// The least lengths of a call's working buffers.
pub fn least(kind: Kind) -> &'static [usize] {
    match kind {
        Kind::Draft => &[OPEN_TABLE, PLACE_TABLE],
        Kind::Merge => &[BLOCK_BUFFER, PLACE_BUFFER, STEP_BUFFER, INDEX_BUFFER],
    }
}

/// The call itself; the buffers are the output and the working buffers.
pub fn invoke(job: &Job, files: &[&[u8]], buffers: &mut [&mut [u8]]) -> Outcome {
    match (&job.merge, files, buffers) {
        (None, [compiled, prelude, blocks], [out, table, places]) => {
            draft_into(compiled, prelude, blocks, out, table, places)
        }
        (
            Some(settings),
            [compiled, assembled, blocks, path],
            [out, table, places, steps, index],
        ) => {
            let inputs = MergeInputs {
                compiled,
                assembled,
                blocks,
                path,
                flag: settings.flag,
                mode: settings.mode,
            };
            let buffers = MergeBuffers {
                out,
                table,
                places,
                steps,
                index,
            };
            merge_into(&inputs, buffers)
        }
        _ => unreachable!("a call has its own files and buffers"),
    }
}

/// Whether all bytes are zeros.
pub fn zeros(part: &[u8]) -> bool {
    const ZEROS: [u8; 4096] = [0; 4096];
    part.chunks(ZEROS.len())
        .all(|chunk| *chunk == ZEROS[..chunk.len()])
}

/// Noise to lend, and room to lend it in.
pub struct Port {
    noise: Vec<u8>,
    buffers: [Vec<u8>; 5],
}

impl Port {
    pub fn new(seed: u64) -> Port {
        Port {
            noise: Random::new(seed, u64::MAX).bytes(1 << 20),
            buffers: Default::default(),
        }
    }

    /// The answer to a job, or what is wrong with it.
    pub fn answer(&mut self, job: &Job, random: &mut Random) -> Result<Verdict, String> {
        let room = *random.pick(&[0, 1, 300, 4000, 70_000]);
        let (first, done) = self.call(job, random, room, &[])?;
        if random.once_in(4) {
            self.short_buffers(job, random, room)?;
        }
        let length = match first {
            Outcome {
                number: 0, length, ..
            } => length,
            Outcome {
                number: OUTPUT_ROOM,
                place,
                ..
            } => place,
            Outcome {
                number,
                object,
                place,
                ..
            } => {
                let refusal = Refusal {
                    number,
                    object,
                    place,
                };
                let room = *random.pick(&[0, 33, 5000]);
                let (again, _) = self.call(job, random, room, &[1, 1])?;
                return match again == first {
                    true => Ok(Verdict::Refused(refusal)),
                    false => Err(format!("{again:?} after {first:?}, with another room")),
                };
            }
        };
        if length > HELD {
            return Ok(Verdict::Long(length));
        }
        let (exact, whole) = self.call(job, random, length as usize, &[])?;
        if exact.number != 0 || exact.length != length || first.number == 0 && whole != done {
            return Err(format!("{exact:?} with the exact room, after {first:?}"));
        }
        if length > 0 {
            let (short, _) = self.call(job, random, length as usize - 1, &[7])?;
            if (short.number, short.object, short.place) != (OUTPUT_ROOM, 0, length) {
                return Err(format!("{short:?} with one byte less than {length}"));
            }
        }
        let more = random.below(3000);
        let (long, same) = self.call(job, random, length as usize + more, &[0, 9])?;
        if long != exact || same != whole {
            return Err(format!("{long:?} with {more} bytes more than {length}"));
        }
        Ok(Verdict::Done(whole))
    }

    /// A working buffer below its constant is refused by 1, whatever the job is.
    fn short_buffers(&mut self, job: &Job, random: &mut Random, room: usize) -> Result<(), String> {
        let least = least(job.kind());
        for (i, &length) in least.iter().enumerate() {
            for lacking in [1, random.between(1, length)] {
                let mut more = vec![*random.pick(&[0, 5]); least.len()];
                more[i] = -(lacking as isize);
                let (outcome, _) = self.call(job, random, room, &more)?;
                if (outcome.number, outcome.object, outcome.place) != (LIMITS, 0, 0) {
                    return Err(format!("{outcome:?} with buffers longer by {more:?}"));
                }
            }
        }
        Ok(())
    }

    /// One call with noise in all buffers: the answer and the output. `more` says by how much the
    /// working buffers are longer than their constants.
    fn call(
        &mut self,
        job: &Job,
        random: &mut Random,
        room: usize,
        more: &[isize],
    ) -> Result<(Outcome, Vec<u8>), String> {
        let more = more.iter().copied().chain([0; 4]);
        let working = least(job.kind()).iter().zip(more);
        let working = working.map(|(least, more)| least.saturating_add_signed(more));
        let lengths: Vec<usize> = [room].into_iter().chain(working).collect();
        let noise = &self.noise;
        let mut starts = vec![];
        for (buffer, length) in self.buffers.iter_mut().zip(&lengths) {
            buffer.clear();
            starts.push(random.below(noise.len()));
            let mut piece = &noise[starts[starts.len() - 1]..];
            let mut wanted = length + 2 * EDGE;
            while wanted > 0 {
                let n = wanted.min(piece.len());
                buffer.extend(&piece[..n]);
                (wanted, piece) = (wanted - n, noise);
            }
        }
        let files: Vec<&[u8]> = job.files().into_iter().map(|(_, bytes)| bytes).collect();
        let lent = self.buffers.iter_mut().zip(&lengths);
        let mut lent: Vec<&mut [u8]> = lent
            .map(|(buffer, length)| &mut buffer[EDGE..EDGE + length])
            .collect();
        let outcome = invoke(job, &files, &mut lent);
        self.check(outcome, &lengths, &starts)
    }

    /// Zeros where document 01 asks for them, noise where nothing was lent.
    fn check(
        &self,
        outcome: Outcome,
        lengths: &[usize],
        starts: &[usize],
    ) -> Result<(Outcome, Vec<u8>), String> {
        let written = outcome.length as usize;
        let fault = |what: &str| Err(format!("{what} after {outcome:?}"));
        match outcome.number {
            0 if (outcome.object, outcome.place) != (0, 0) => return fault("a place"),
            0 if written > lengths[0] => return fault("a length over the room"),
            0 => (),
            _ if written != 0 => return fault("a length"),
            _ => (),
        }
        for (i, &length) in lengths.iter().enumerate() {
            let buffer = &self.buffers[i];
            let start = EDGE + if i == 0 { written } else { 0 };
            let end = EDGE + length;
            if !zeros(&buffer[start..end]) {
                return fault(&format!("buffer {i} not zeroed"));
            }
            let noise = |at: usize| self.noise[(starts[i] + at) % self.noise.len()];
            let edges = (0..EDGE).chain(end..end + EDGE);
            if edges.into_iter().any(|at| buffer[at] != noise(at)) {
                return fault("a write outside a buffer");
            }
        }
        Ok((outcome, self.buffers[0][EDGE..EDGE + written].to_vec()))
    }
}

#[cfg(test)]
mod tests {
    use super::{EDGE, Outcome, Port};

    /// Buffers as a call would leave them, but for one byte of one of them.
    fn left(changed: Option<(usize, usize)>) -> bool {
        let mut port = Port::new(1);
        let lengths = [10, 20, 30];
        for (i, length) in lengths.into_iter().enumerate() {
            let mut buffer = port.noise[..length + 2 * EDGE].to_vec();
            buffer[EDGE..EDGE + length].fill(0);
            if let Some((j, at)) = changed
                && i == j
            {
                buffer[at] = buffer[at].wrapping_add(1);
            }
            port.buffers[i] = buffer;
        }
        let outcome = Outcome {
            length: 4,
            number: 0,
            object: 0,
            place: 0,
        };
        port.check(outcome, &lengths, &[0; 3]).is_ok()
    }

    #[test]
    fn what_is_left_in_a_buffer_is_found() {
        assert!(left(None));
        // Inside the output any byte may stand.
        assert!(left(Some((0, EDGE + 3))));
        for wrong in [(0, EDGE + 4), (1, EDGE), (1, EDGE + 19), (2, EDGE + 7)] {
            assert!(!left(Some(wrong)), "{wrong:?} is not zero");
        }
        for outside in [(0, EDGE - 1), (0, EDGE + 10), (1, 0), (2, EDGE + 30)] {
            assert!(!left(Some(outside)), "{outside:?} is not lent");
        }
    }
}
