//! Refusal 14, and where late words go. The walk is a second one, which is not proved; its words
//! are used only where it stops at the block that the library gave.

use super::Fault;
use super::job::Job;
use super::places::block_title;
use crate::blocks::Block;
use crate::codes::Code;
use std::collections::{HashMap, HashSet};

pub(super) const LATE_START: &[u8] = b"_asmpp_late_rodata_start";
pub(super) const LATE_END: &[u8] = b"_asmpp_late_rodata_end";

/// The late step: nothing moves where there is none.
#[derive(Default)]
pub(super) struct Late {
    /// From offsets in A's .late_rodata to offsets in C's .rodata.
    pub moved: HashMap<usize, usize>,
    /// Where the words of jump tables start in C's .rodata.
    pub jump_words: HashSet<usize>,
}

pub(super) fn words(job: &Job, place: usize) -> Option<String> {
    late_words(job).err()?.told_at(place)
}

/// Where the late words of all blocks go, or the first block whose words find no place.
pub(super) fn late_words(job: &Job) -> Result<Late, Fault> {
    let start = job.assembled.symbol_named(LATE_START);
    let (Some(_), Some(start)) = (job.late_block(), start) else {
        return Ok(Late::default());
    };
    let rodata = copied_rodata(job);
    let mut taken = job.places.taken.iter().rev();
    let last = taken.find(|taken| taken.span.code == Code::Rodata);
    let mut walk = Walk {
        late: Late::default(),
        source: start.st_value as usize,
        last: last.map_or(0, |taken| taken.end()),
        rodata: &rodata,
    };
    for (index, block) in job.live_blocks() {
        walk.block(block).map_err(|fault| Fault {
            place: index,
            words: format!("{}: {fault}", block_title(index, block.desc)),
        })?;
    }
    Ok(walk.late)
}

/// C's .rodata after block copying.
fn copied_rodata(job: &Job) -> Vec<u8> {
    let mut rodata = job.compiled.contents(Code::Rodata).to_vec();
    let source = job.assembled.contents(Code::Rodata);
    for taken in &job.places.taken {
        let span = taken.place as usize..taken.end();
        if taken.span.code == Code::Rodata
            && let (Some(to), Some(from)) = (rodata.get_mut(span.clone()), source.get(span))
        {
            to.copy_from_slice(from);
        }
    }
    rodata
}

struct Walk<'a> {
    late: Late,
    /// Where the next word stands in A's .late_rodata.
    source: usize,
    last: usize,
    rodata: &'a [u8],
}

impl Walk<'_> {
    fn block(&mut self, block: &Block) -> Result<(), String> {
        let pairs = block.dummies.len() > 1;
        for (index, dummy) in block.dummies.iter().enumerate() {
            let mut place = self.found(dummy)?;
            if index == 0 && pairs {
                let Some(next) = self.rodata.get(place + 4..place + 8) else {
                    let dummy = shown(dummy);
                    return Err(format!(
                        "behind dummy {dummy} at {place} of the compiled object's .rodata are \
                         fewer than 4 bytes"
                    ));
                };
                place += if next == [0; 4] { 4 } else { 0 };
            }
            self.late.moved.insert(self.source, place);
            self.last = place + 4;
            self.source += 4;
        }
        self.jump_table(block)
    }

    fn found(&self, dummy: &[u8; 4]) -> Result<usize, String> {
        let rest = self.rodata.get(self.last..).unwrap_or_default();
        let position = rest.windows(4).position(|word| word == dummy);
        position.map(|at| self.last + at).ok_or_else(|| {
            let (dummy, last) = (shown(dummy), self.last);
            format!("dummy {dummy} is not in the compiled object's .rodata from {last} on")
        })
    }

    fn jump_table(&mut self, block: &Block) -> Result<(), String> {
        let (size, length) = (block.jump_table as usize, self.rodata.len());
        if size == 0 {
            return Ok(());
        }
        if block.dummies.is_empty() {
            return Err("it has a jump table and no dummy before it".into());
        }
        let (start, end) = (self.last, self.last + size);
        if end > length {
            return Err(format!(
                "its jump table from {start} to {end} passes the end of the compiled object's \
                 .rodata, {length}"
            ));
        }
        for at in (0..size).step_by(4) {
            self.late.moved.insert(self.source + at, start + at);
            self.late.jump_words.insert(start + at);
        }
        self.last = end;
        self.source += size;
        Ok(())
    }
}

fn shown(dummy: &[u8; 4]) -> String {
    format!("{:08x}", u32::from_be_bytes(*dummy))
}
