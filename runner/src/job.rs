//! The jobs: which one stands at an index under a seed.

use crate::{
    blocks::{Scale, blocks},
    damage::{damage_entry, damage_lines, damage_object},
    merges,
    object::object,
    random::Random,
};
use std::{fmt, str::FromStr};

/// Which of the two calls a job is for.
#[derive(Clone, Copy, PartialEq)]
pub enum Kind {
    Draft,
    Merge,
}

impl FromStr for Kind {
    type Err = String;

    fn from_str(word: &str) -> Result<Kind, String> {
        match word {
            "draft" => Ok(Kind::Draft),
            "merge" => Ok(Kind::Merge),
            _ => Err(format!("neither draft nor merge: {word}")),
        }
    }
}

impl fmt::Display for Kind {
    fn fmt(&self, f: &mut fmt::Formatter<'_>) -> fmt::Result {
        f.write_str(match self {
            Kind::Draft => "draft",
            Kind::Merge => "merge",
        })
    }
}

#[derive(Clone, Default, PartialEq)]
pub struct Job {
    pub compiled: Vec<u8>,
    /// The prelude of a draft, the assembled object of a merge.
    pub second: Vec<u8>,
    pub blocks: Vec<u8>,
    /// What a merge gets besides.
    pub merge: Option<Settings>,
}

#[derive(Clone, Default, PartialEq)]
pub struct Settings {
    pub path: Vec<u8>,
    pub flag: u32,
    pub mode: u32,
}

impl Job {
    pub fn kind(&self) -> Kind {
        match self.merge {
            None => Kind::Draft,
            Some(_) => Kind::Merge,
        }
    }

    /// The files, and the names that they have in a folder.
    pub fn files(&self) -> Vec<(&'static str, &[u8])> {
        let second = match self.kind() {
            Kind::Draft => "prelude",
            Kind::Merge => "a.o",
        };
        let mut files = vec![
            ("c.o", &self.compiled[..]),
            (second, &self.second),
            ("blocks", &self.blocks),
        ];
        files.extend(self.merge.as_ref().map(|s| ("path", &s.path[..])));
        files
    }
}

const FILE_LIMIT: usize = 1_048_576;

/// Job `index` under `seed`.
pub fn job(kind: Kind, seed: u64, index: u64) -> Job {
    let random = &mut Random::new(seed, index);
    let mut job = whole(kind, random);
    if random.once_in(2) {
        let other = whole(kind, &mut Random::new(seed, index.wrapping_add(1)));
        for _ in 0..random.between(1, 3) {
            damage(random, &mut job, &other);
        }
    }
    if random.once_in(5000) {
        over_limits(random, &mut job);
    }
    // No room behind the bytes: under valgrind a read past their end is then seen.
    for file in [&mut job.compiled, &mut job.second, &mut job.blocks] {
        file.shrink_to_fit();
    }
    job
}

/// Damages one of a job's files.
fn damage(random: &mut Random, job: &mut Job, other: &Job) {
    let which = random.below(10);
    if job.kind() == Kind::Draft {
        return match which {
            0..=5 => damage_object(random, &mut job.compiled, &other.compiled),
            6..=8 => damage_lines(random, &mut job.blocks),
            _ => damage_lines(random, &mut job.second),
        };
    }
    match which {
        0 | 1 => damage_object(random, &mut job.compiled, &other.compiled),
        2 | 3 => damage_object(random, &mut job.second, &other.second),
        4 | 5 => damage_entry(random, &mut job.compiled),
        6 | 7 => damage_entry(random, &mut job.second),
        8 => damage_lines(random, &mut job.blocks),
        _ => damage_settings(random, job),
    }
}

/// Another path, flag or mode, mostly one that is refused.
fn damage_settings(random: &mut Random, job: &mut Job) {
    let Some(settings) = &mut job.merge else {
        return;
    };
    match random.below(8) {
        0 => {
            settings.path = ["p/".repeat(random.between(125, 129)).as_str(), "c.o"]
                .concat()
                .into()
        }
        1 => settings.path.push(*random.pick(&[0, 1, 127, 128, 255])),
        2 => settings.flag = *random.pick(&[2, 3, u32::MAX]),
        3 => settings.mode = *random.pick(&[4, 5, u32::MAX]),
        4 => settings.flag ^= 1,
        _ => settings.mode = random.below(4) as u32,
    }
}

/// A job without damage.
fn whole(kind: Kind, random: &mut Random) -> Job {
    match kind {
        Kind::Draft => whole_draft(random),
        Kind::Merge => merges::merge(random),
    }
}

fn whole_draft(random: &mut Random) -> Job {
    let scale = scale(random);
    let (symbols, blocks) = blocks(random, scale);
    let prelude = match random.below(4) {
        0 => vec![],
        1 => b".set noat\n.set noreorder".to_vec(),
        2 => b".set noat\n".to_vec(),
        _ => random.bytes(3),
    };
    Job {
        compiled: object(random, &symbols),
        second: prelude,
        blocks,
        merge: None,
    }
}

/// Most jobs are small; a few reach document 01's limits on blocks and symbols, or pass them.
fn scale(random: &mut Random) -> Scale {
    let (blocks, symbols, lines) = match random.below(4000) {
        0 => (1024, 900, 2),
        1 => (1025, 20, 1),
        2 => (30, 4040, 3),
        3 => (200, 300, 200),
        4..=60 => (60, 100, 20),
        _ => (random.below(6), random.below(10), random.below(5)),
    };
    Scale {
        blocks,
        symbols,
        lines,
    }
}

/// One of the three files at its limit, or past it.
fn over_limits(random: &mut Random, job: &mut Job) {
    let length = FILE_LIMIT + random.below(2);
    match random.below(3) {
        0 => job.compiled.resize(length, 0),
        1 => job.second.resize(length, b'#'),
        _ => {
            // The last line of assembly takes what is left.
            if let Some(end) = job.blocks.len().checked_sub(5) {
                let line = b"late=";
                let fill = length.saturating_sub(job.blocks.len() + line.len() + 1);
                job.blocks
                    .splice(end..end, [&line[..], &vec![b'#'; fill], b"\n"].concat());
            }
        }
    }
}

#[cfg(test)]
mod tests {
    use super::{Kind, whole};
    use crate::{
        port::{Port, Verdict},
        random::Random,
    };

    #[test]
    fn many_merges_without_damage_are_accepted() {
        let mut port = Port::new(1);
        let accepted = (0..500).filter(|&index| {
            let job = whole(Kind::Merge, &mut Random::new(2, index));
            let answer = port.answer(&job, &mut Random::new(1, index));
            matches!(answer, Ok(Verdict::Done(_)))
        });
        let accepted = accepted.count();
        assert!(accepted > 250, "{accepted} of 500");
    }
}
