//! Makes merges: a compiled object, an assembled one and a block file that fit each other, with
//! path, flag and mode. What is wrong in some of them is what document 01 refuses by 8 to 20.

mod objects;
mod statics;

use crate::{
    job::{Job, Settings},
    object::{Index, SECTIONS, Symbol},
    random::Random,
};
use std::{collections::HashSet, mem};

const RODATA: usize = 2;
const LATE: &str = ".late_rodata";
const ABSOLUTE: u16 = 0xfff1;
const COMMON: u16 = 0xfff2;
const LOCAL: u8 = 0;
const GLOBAL: u8 = 16;
const WEAK: u8 = 32;

/// How large a merge is.
#[derive(Clone, Copy)]
struct Size {
    blocks: usize,
    /// Names besides those of blocks.
    names: usize,
    /// Entries of a relocation table, at most.
    relocations: usize,
    /// Entries of a debug file, at most.
    statics: usize,
}

/// Most are small; a few reach document 01's limits, or pass them.
fn size(random: &mut Random) -> Size {
    let (blocks, names, relocations, statics) = match random.below(16_000) {
        0 => (1024, 10, 20, 4),
        1 => (400, 100, 2000, 100),
        2 => (4, 6140, 500, 100),
        3 => (1, 5, 4, 9000),
        4..=60 => (60, 100, 60, 60),
        _ => (
            random.below(5),
            random.between(1, 12),
            random.between(1, 6),
            random.between(1, 8),
        ),
    };
    Size {
        blocks,
        names,
        relocations,
        statics,
    }
}

/// A whole merge.
pub fn merge(random: &mut Random) -> Job {
    let size = size(random);
    let faults = *random.pick(&[0, 0, 0, 60, 30, 12]);
    Maker::new(random, size, faults).job()
}

/// A name of the program and where it is defined: a section of C and a value.
struct Name {
    text: String,
    home: Option<(Index, u32)>,
}

/// What a late step moves.
#[derive(Default)]
struct Late {
    /// The bytes behind the blocks of C's .rodata.
    rodata: Vec<u8>,
    /// Where words stand in A's late span, and how long that is.
    words: Vec<u32>,
    length: u32,
    /// Words of jump tables, counted from the first byte of `rodata`.
    jumps: Vec<u32>,
}

struct Maker<'a> {
    random: &'a mut Random,
    size: Size,
    /// One in so many things is wrong; none where it is 0.
    faults: usize,
    file: Vec<u8>,
    /// Of each section of blocks: the end of its last block.
    ends: [usize; 4],
    /// Words of .text that blocks replace.
    replaced: Vec<u32>,
    late: Late,
    late_start: u32,
    names: Vec<Name>,
    compiled: Vec<Symbol>,
    assembled: Vec<Symbol>,
}

impl Maker<'_> {
    fn new(random: &mut Random, size: Size, faults: usize) -> Maker<'_> {
        let late_start = *random.pick(&[8, 8, 8, 4, 16]);
        Maker {
            random,
            size,
            faults,
            file: vec![],
            ends: [0; 4],
            replaced: vec![],
            late: Late::default(),
            late_start,
            names: vec![],
            compiled: vec![],
            assembled: vec![],
        }
    }

    /// Whether something is wrong here.
    fn wrong(&mut self) -> bool {
        self.faults != 0 && self.random.once_in(self.faults)
    }

    /// A number, or where something is wrong one near it.
    fn near(&mut self, n: u32) -> u32 {
        match self.wrong() {
            true => n.saturating_add_signed(*self.random.pick(&[1, 2, 4, -1, -4])),
            false => n,
        }
    }

    fn job(mut self) -> Job {
        for block in 0..self.size.blocks {
            self.block(block);
        }
        let held: Vec<&str> = self.held_sections();
        self.other_names(&held);
        self.symbols();
        let debug = self.debug_section(&held);
        let (compiled, assembled) = (
            self.compiled_object(&held, debug),
            self.assembled_object(&held),
        );
        let settings = self.settings();
        Job {
            compiled,
            second: assembled,
            blocks: self.file,
            merge: Some(settings),
        }
    }

    fn settings(&mut self) -> Settings {
        let long = "x".repeat(self.random.below(200));
        let path = match self.random.below(8) {
            0 => "src/board/locker.c".into(),
            1 => format!("build/{long}.o"),
            2 => "../a b.o".into(),
            _ => "c.o".to_string(),
        };
        Settings {
            path: path.into_bytes(),
            flag: self.random.below(2) as u32,
            mode: self.random.below(4) as u32,
        }
    }

    fn line(&mut self, line: String) {
        self.file.extend(line.bytes());
        self.file.push(b'\n');
    }

    /// A block: its lines, its labels in both objects, its glabels and its late words.
    fn block(&mut self, block: usize) {
        self.line(format!("desc=function {block}"));
        let mut live = true;
        let mut text = None;
        for (code, section) in SECTIONS.into_iter().enumerate() {
            let key = &section[1..];
            if self.random.once_in(if code == 0 { 5 } else { 2 }) {
                self.line(format!("{key}="));
                continue;
            }
            let unit = if code == 0 || self.random.once_in(3) {
                4
            } else {
                1
            };
            let place = self.ends[code].next_multiple_of(unit) + unit * self.random.below(4);
            let bytes = unit * self.random.between(1, 5);
            let place = self.near(place as u32) as usize;
            let align8 = match self.random.below(6) {
                0 => 8 - place % 8,
                _ => self.near(0) as usize % 9,
            };
            let label = format!("_asmpp_{}{block}", &key[..1]);
            self.line(format!("{key}={label} {bytes} {align8}"));
            // A label that is not there switches off the rest of the block.
            live &= !self.random.once_in(80);
            if live {
                self.span(code, &label, place, bytes);
                text = text.or((code == 0).then_some(place as u32));
            }
        }
        for i in 0..self.random.below(3) {
            let name = format!("routine{block}_{i}");
            self.line(format!("glabel={name}"));
            let value = text.unwrap_or(0) + 4 * i as u32;
            let home = Some((Index::Named(".text"), value));
            self.names.push(Name { text: name, home });
        }
        self.late_words(live);
        for key in ["asm", "late"] {
            for _ in 0..self.random.below(3) {
                self.line(format!("{key}=.word 1"));
            }
        }
        self.line("end=".into());
    }

    /// A taken line: its label in C, and the two of A.
    fn span(&mut self, code: usize, label: &str, place: usize, bytes: usize) {
        let index = Index::Named(SECTIONS[code]);
        let info = *self.random.pick(&[LOCAL, GLOBAL, GLOBAL + 1]);
        let symbol = |name: String, value: usize, index, info| Symbol {
            name,
            value: value as u32,
            index,
            info,
        };
        let labels = [
            symbol(format!("{label}_asm_start"), place, index, GLOBAL),
            symbol(format!("{label}_asm_end"), place + bytes, index, GLOBAL),
        ];
        self.compiled.push(symbol(label.into(), place, index, info));
        for mut label in labels {
            if self.wrong() && self.random.once_in(3) {
                match self.random.once_in(2) {
                    true => label.value += 1,
                    false => label.index = Index::Named(".data"),
                }
            }
            self.assembled.push(label);
        }
        if code == 0 {
            let words = (place..place + bytes).step_by(4);
            self.replaced.extend(words.map(|at| at as u32));
        }
        self.ends[code] = place + bytes;
    }

    /// Dummies and a jump table, in the block file and, where the block is live, in C's .rodata.
    fn late_words(&mut self, live: bool) {
        let dummies = *self.random.pick(&[0, 0, 0, 0, 1, 2, 2, 3]);
        let table = match dummies {
            0 if !self.wrong() => 0,
            _ => *self.random.pick(&[0, 0, 4, 8, 12, 10]),
        };
        let mut bytes = vec![];
        for k in 0..dummies {
            let filler = self.random.below(3) * *self.random.pick(&[4, 4, 1]);
            bytes.extend(self.random.bytes(filler));
            let word = self.random.word() as u32;
            self.line(format!("dummy={word:08x}"));
            if !self.wrong() {
                bytes.extend(word.to_be_bytes());
            }
            if k == 0 && dummies > 1 && self.random.once_in(2) {
                bytes.extend([0; 4]);
            }
        }
        self.line(format!("jtbl={table}"));
        if !live {
            return;
        }
        let late = &mut self.late;
        late.rodata.extend(bytes);
        let jumps = (0..table)
            .step_by(4)
            .map(|at| (late.rodata.len() + at) as u32);
        late.jumps.extend(jumps);
        late.rodata.extend(self.random.bytes(table));
        let length = (4 * dummies + table) as u32;
        let words = (0..length)
            .step_by(4)
            .map(|at| self.late_start + late.length + at);
        late.words.extend(words);
        late.length += length;
    }

    /// The sections of blocks that C has: those with blocks, and most others.
    fn held_sections(&mut self) -> Vec<&'static str> {
        let late = self.late.length > 0;
        let mut held = vec![];
        for (code, section) in SECTIONS.into_iter().enumerate() {
            let needed = self.ends[code] > 0 || code == RODATA && late;
            let there = needed || code == 0 || !self.random.once_in(6);
            if there && !(self.wrong() && self.wrong()) {
                held.push(section);
            }
        }
        held
    }

    /// Names of every kind, each with at most one place.
    fn other_names(&mut self, held: &[&'static str]) {
        let mut known = HashSet::new();
        for i in 0..self.size.names {
            let text = match self.random.below(12) {
                0 => "_gp_disp".into(),
                1 => format!("n{}:1", self.random.below(3)),
                2 => format!("_asmpp_other{i}"),
                3 => format!("name{i}{}", "_long".repeat(self.random.below(60))),
                _ => format!("name{i}"),
            };
            let home = match self.random.below(12) {
                0..=3 => None,
                4 => Some((Index::Stored(ABSOLUTE), self.random.below(9) as u32)),
                5 => Some((Index::Stored(COMMON), 4)),
                6 if !self.late.words.is_empty() => {
                    Some((Index::Named(LATE), *self.random.pick(&self.late.words)))
                }
                _ if held.is_empty() => None,
                _ => {
                    let &section = self.random.pick(held);
                    Some((Index::Named(section), 4 * self.random.below(50) as u32))
                }
            };
            if known.insert(text.clone()) {
                self.names.push(Name { text, home });
            }
        }
    }

    /// The names in both objects, defined or not; unnamed symbols; the labels of the late span.
    fn symbols(&mut self) {
        let names = mem::take(&mut self.names);
        for name in &names {
            let (in_c, in_a) = (self.random.below(3) > 0, self.random.below(3) > 0);
            let c_has = !matches!(name.home, Some((Index::Named(LATE), _)));
            let a_has = !matches!(name.home, Some((Index::Stored(COMMON), _)));
            if in_c {
                let symbol = self.symbol(name, c_has);
                self.compiled.push(symbol);
            }
            if in_a {
                let symbol = self.symbol(name, a_has);
                self.assembled.push(symbol);
            }
        }
        self.names = names;
        for _ in 0..self.random.below(3) {
            let unnamed = Symbol {
                name: String::new(),
                value: 0,
                index: Index::Named(".text"),
                info: if self.wrong() { GLOBAL } else { 3 },
            };
            self.assembled.push(unnamed.clone());
            self.compiled.push(unnamed);
        }
        if self.late.length > 0 {
            let (start, length) = (self.late_start, self.late.length);
            for (end, value) in [("start", start), ("end", start + length)] {
                let symbol = Symbol {
                    name: format!("_asmpp_late_rodata_{end}"),
                    value: self.near(value),
                    index: Index::Named(if self.wrong() { ".text" } else { LATE }),
                    info: GLOBAL,
                };
                self.assembled.push(symbol);
            }
        }
        if self.random.once_in(3) {
            self.random.shuffle(&mut self.compiled);
        }
        // Locals first, as a symbol table has them.
        self.assembled.sort_by_key(|symbol| symbol.info >= GLOBAL);
    }

    /// A symbol of a name, in an object that can define it or not.
    fn symbol(&mut self, name: &Name, can: bool) -> Symbol {
        let defined = name.home.filter(|_| can && self.random.below(3) > 0);
        let kind = *self.random.pick(&[0, 0, 1, 2, 3]);
        let (index, value) = defined.unwrap_or((Index::Stored(0), 0));
        let bind = match defined {
            Some(_) => *self.random.pick(&[LOCAL, LOCAL, GLOBAL, GLOBAL, WEAK]),
            None if self.wrong() => LOCAL,
            None => *self.random.pick(&[GLOBAL, GLOBAL, WEAK]),
        };
        let value = match index {
            Index::Named(LATE) if self.wrong() || self.wrong() => value / 8 * 2,
            _ => self.near(value),
        };
        Symbol {
            name: name.text.clone(),
            value,
            index: if self.wrong() {
                Index::Stored(0xff03)
            } else {
                index
            },
            info: bind + kind,
        }
    }
}
