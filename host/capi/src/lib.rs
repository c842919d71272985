//! The words for a refusal, for C. ../include/daphulle.h declares `daphulle_words` and says what it
//! does; tools/install writes libdaphulle_words.a, which has that one name.

use daphulle::{Answer, Asked, ConvertStatics, Draft, Inputs, Merge, call::Outcome, words};
use std::{
    ffi::c_char,
    panic::{self, AssertUnwindSafe},
    slice,
};

/// `struct daphulle_bytes`.
#[repr(C)]
pub struct Bytes {
    start: *const u8,
    length: usize,
}

/// `struct daphulle_job`.
#[repr(C)]
pub struct Job {
    compiled: Bytes,
    prelude: Bytes,
    assembled: Bytes,
    blocks: Bytes,
    path: Bytes,
    flag: u32,
    mode: u32,
    out: *mut u8,
    out_length: usize,
}

/// `enum daphulle_call`.
const DRAFT: u32 = 0;
const MERGE: u32 = 1;

/// The header has the text.
///
/// # Safety
///
/// `job` leads to a job, whose pointers lead to as many bytes as the lengths behind them say, and so
/// does `line`, which shares no byte with them; with length 0 a pointer may be anything. Nothing else
/// writes to any of these while this runs.
#[unsafe(no_mangle)]
pub unsafe extern "C" fn daphulle_words(
    call: u32,
    job: &Job,
    outcome: Outcome,
    line: *mut c_char,
    line_length: usize,
) -> usize {
    // SAFETY: the caller's promise on the parts of a job.
    let told = guarded(|| unsafe { told(call, job, outcome) });
    // SAFETY: the caller's promise on the line.
    let room = unsafe { slice_mut(line.cast(), line_length) };
    fill(room, told.as_bytes());
    told.len()
}

/// What is told; a word for it where that panics, which C could not catch.
fn guarded(told: impl FnOnce() -> String) -> String {
    let caught = panic::catch_unwind(AssertUnwindSafe(told));
    caught.unwrap_or_else(|_| "there are no words for this".into())
}

/// The line for an outcome; empty where nothing was refused.
///
/// # Safety
///
/// As for `daphulle_words`.
unsafe fn told(call: u32, job: &Job, outcome: Outcome) -> String {
    let (number, object, place) = match outcome.answer(job.out_length) {
        Ok(Answer::Accepted { .. }) => return String::new(),
        Ok(Answer::Refused(number, object, place)) => (number, object, place),
        Err(broken) => return broken.to_string(),
    };
    // SAFETY: the caller's.
    let [compiled, blocks] = unsafe { [&job.compiled, &job.blocks].map(|bytes| bytes.lent()) };
    let asked = match call {
        DRAFT => Asked::Draft(Draft {
            compiled,
            // SAFETY: the caller's.
            prelude: unsafe { job.prelude.lent() },
            blocks,
        }),
        MERGE => {
            let (drop_mdebug_gptab, convert_statics) = match settings(job) {
                Ok(settings) => settings,
                // It is refused with 1, whatever the rest is.
                Err(words) => return words,
            };
            Asked::Merge(Merge {
                compiled,
                // SAFETY: the caller's.
                assembled: unsafe { job.assembled.lent() },
                blocks,
                // SAFETY: the caller's.
                path: unsafe { job.path.lent() },
                drop_mdebug_gptab,
                convert_statics,
            })
        }
        other => return format!("the call is {other}, it must be {DRAFT} or {MERGE}"),
    };
    let room = job.out_length;
    words(&Inputs { asked, room }, number, object, place)
}

/// Flag and mode of a merge, or which of them is unknown.
fn settings(job: &Job) -> Result<(bool, ConvertStatics), String> {
    let drops = match job.flag {
        0 => false,
        1 => true,
        other => return Err(format!("the flag is {other}, it must be 0 or 1")),
    };
    let mode = ConvertStatics::of(job.mode);
    let mode = mode.ok_or_else(|| format!("the mode is {}, it must be from 0 to 3", job.mode))?;
    Ok((drops, mode))
}

impl Bytes {
    /// # Safety
    ///
    /// `start` leads to `length` bytes that nothing writes to while they are lent, or `length` is 0.
    unsafe fn lent(&self) -> &[u8] {
        match self.length {
            0 => &[],
            // SAFETY: the caller's.
            length => unsafe { slice::from_raw_parts(self.start, length) },
        }
    }
}

/// # Safety
///
/// `start` leads to `length` bytes that nothing else reads or writes while they are lent, or `length`
/// is 0.
unsafe fn slice_mut<'a>(start: *mut u8, length: usize) -> &'a mut [u8] {
    match length {
        0 => &mut [],
        // SAFETY: the caller's.
        length => unsafe { slice::from_raw_parts_mut(start, length) },
    }
}

/// As much of a line as there is room for, and a zero behind it.
fn fill(room: &mut [u8], line: &[u8]) {
    let Some(most) = room.len().checked_sub(1) else {
        return;
    };
    let length = line.len().min(most);
    let (front, rest) = room.split_at_mut(length);
    front.copy_from_slice(&line[..length]);
    rest[0] = 0;
}

#[cfg(test)]
mod tests {
    use super::{fill, guarded};

    #[test]
    fn a_panic_stays_inside() {
        assert_eq!(guarded(|| "told".into()), "told");
        let line = guarded(|| panic!("told by a test"));
        assert_eq!(line, "there are no words for this");
    }

    #[test]
    fn a_line_is_cut_to_its_room() {
        let filled = |length: usize| {
            let mut room = [b'-'; 8];
            fill(&mut room[..length], b"words");
            room
        };
        assert_eq!(&filled(0), b"--------");
        assert_eq!(&filled(1), b"\0-------");
        assert_eq!(&filled(5), b"word\0---");
        assert_eq!(&filled(6), b"words\0--");
        assert_eq!(&filled(8), b"words\0--");
    }
}
