//! Which blocks of the archive's code have been run. The archive is not instrumented, so its
//! blocks are found by `objdump` in this very program, and each gets a breakpoint that is taken
//! out when it is reached: what is known already runs at full speed.

use std::{
    collections::{BTreeMap, BTreeSet},
    env, io,
    process::Command,
};

unsafe extern "C" {
    fn traps_set(addresses: *const *mut u8, n: usize) -> i32;
    fn traps_hit() -> usize;
    fn traps_wait(i: usize) -> i32;
    /// The exported call, for its address alone.
    fn draft();
}

/// The function of each block that has a breakpoint.
pub struct Trace(Vec<String>);

impl Trace {
    pub fn blocks(&self) -> usize {
        self.0.len()
    }

    /// The functions with blocks that were not reached, and how many of how many.
    pub fn missed(&self) -> Vec<(&str, usize, usize)> {
        let mut counts: BTreeMap<&str, (usize, usize)> = BTreeMap::new();
        for (i, name) in self.0.iter().enumerate() {
            let (missed, all) = counts.entry(name).or_default();
            // SAFETY: it reads a byte of the program's own code.
            *missed += usize::from(unsafe { traps_wait(i) } != 0);
            *all += 1;
        }
        let counts = counts.into_iter().filter(|(_, (missed, _))| *missed > 0);
        counts
            .map(|(name, (missed, all))| (name, missed, all))
            .collect()
    }
}

/// Sets the breakpoints.
pub fn start() -> io::Result<Trace> {
    let listing = Command::new("objdump")
        .args(["-d", "-w", "--no-show-raw-insn"])
        .arg(env::current_exe()?)
        .output()?;
    let listing = String::from_utf8_lossy(&listing.stdout);
    let blocks = blocks(&listing);
    let linked =
        address_of(&listing, "draft").ok_or_else(|| io::Error::other("no draft in the program"))?;
    let moved = (draft as *const () as u64).wrapping_sub(linked);
    let addresses: Vec<*mut u8> = blocks
        .iter()
        .map(|at| at.wrapping_add(moved) as *mut u8)
        .collect();
    // SAFETY: each address is the first byte of an instruction of this program's own code.
    match unsafe { traps_set(addresses.as_ptr(), addresses.len()) } {
        0 => Err(io::Error::other("breakpoints cannot be set")),
        _ => Ok(Trace(functions(&listing, &blocks))),
    }
}

/// The function that each block is in.
fn functions(listing: &str, blocks: &BTreeSet<u64>) -> Vec<String> {
    let heads = listing.lines().filter_map(|line| {
        let (at, name) = line.strip_suffix(">:")?.split_once(" <")?;
        Some((u64::from_str_radix(at, 16).ok()?, name))
    });
    let heads: BTreeMap<u64, &str> = heads.collect();
    let name = |at: &u64| heads.range(..=at).next_back().map_or("", |(_, name)| name);
    blocks.iter().map(|at| name(at).to_string()).collect()
}

pub fn hits() -> usize {
    // SAFETY: it reads a number.
    unsafe { traps_hit() }
}

fn address_of(listing: &str, name: &str) -> Option<u64> {
    let head = format!(" <{name}>:");
    let line = listing.lines().find(|line| line.ends_with(&head))?;
    u64::from_str_radix(line.split(' ').next()?, 16).ok()
}

/// The functions of the archive have names with `::` that are not mangled, or are exported.
fn is_archive(name: &str) -> bool {
    name == "draft" || name == "merge" || name.contains("::") && !name.contains(['<', ' ', '$'])
}

/// Where blocks begin: at functions, at jumps' targets, and behind jumps and returns.
fn blocks(listing: &str) -> BTreeSet<u64> {
    let mut found = BTreeSet::new();
    let mut instructions = BTreeSet::new();
    let (mut inside, mut begins) = (false, false);
    for line in listing.lines() {
        if let Some(head) = line.strip_suffix(">:") {
            inside = head
                .split_once('<')
                .is_some_and(|(_, name)| is_archive(name));
            begins = inside;
            continue;
        }
        let Some((at, instruction)) = line.split_once(":\t") else {
            continue;
        };
        let (true, Ok(at)) = (inside, u64::from_str_radix(at.trim(), 16)) else {
            continue;
        };
        let mut words = instruction.split_whitespace();
        let (word, target) = (words.next().unwrap_or(""), words.next().unwrap_or(""));
        // Padding between blocks is never run.
        let padding = word.starts_with("nop") || word == "data16" || word == "cs" || word == "xchg";
        if begins && !padding {
            found.insert(at);
            begins = false;
        }
        instructions.insert(at);
        if word.starts_with('j') || word.starts_with("ret") {
            begins = true;
            found.extend(u64::from_str_radix(target, 16));
        }
    }
    found.intersection(&instructions).copied().collect()
}
