//! The two objects of a merge: sections, relocation tables and what is wrong with them.

use super::{GLOBAL, LATE, Maker, RODATA};
use crate::{
    debug::DEBUG,
    object::{
        Entry, Index, NOBITS, PROGBITS, Parts, SECTIONS, Section, Symbol, Table, object_of, section,
    },
};
use std::mem;

const REGINFO: u32 = 0x7000_0006;
const GPTAB: u32 = 0x7000_0003;

impl Maker<'_> {
    /// Entries at these offsets, or where there are none anywhere below `most`, for symbols that
    /// are in the result; at the offsets of `free` for any symbol.
    fn entries(&mut self, symbols: &[Symbol], at: &[u32], free: &[u32], most: usize) -> Vec<Entry> {
        let kept = |symbol: &Symbol| !symbol.name.starts_with("_asmpp_");
        let fit: Vec<usize> = (1..=symbols.len())
            .filter(|&i| kept(&symbols[i - 1]))
            .collect();
        let mut entries = vec![];
        for _ in 0..self.random.below(self.size.relocations + 1) {
            let offset = match at {
                [] => 4 * self.random.below(most / 4 + 1) as u32,
                _ => *self.random.pick(at),
            };
            let offset = self.near(offset);
            let symbol = match fit.is_empty() || self.wrong() || free.contains(&offset) {
                true => self.random.below(symbols.len() + 2),
                false => *self.random.pick(&fit),
            };
            if fit.is_empty() && self.faults == 0 && !free.contains(&offset) {
                continue;
            }
            entries.push(Entry {
                offset,
                symbol,
                kind: self.random.below(256) as u8,
                addend: self.random.word() as u32,
            });
        }
        entries
    }

    /// Bytes of a section that blocks reach to `end`.
    fn bytes(&mut self, end: usize) -> Vec<u8> {
        let more = self.random.below(5) * *self.random.pick(&[4, 4, 1]);
        let length = self.near((end + more) as u32) as usize;
        self.random.bytes(length.min(1 << 22))
    }

    pub fn compiled_object(&mut self, held: &[&'static str], debug: Option<Section>) -> Vec<u8> {
        let mut sections = vec![];
        let mut tables = vec![];
        let mut symbols = mem::take(&mut self.compiled);
        for &name in held {
            let code = SECTIONS.iter().position(|&s| s == name).expect("it is one");
            let mut part = section(name, if name == ".bss" { NOBITS } else { PROGBITS });
            (part.flags, part.align) = (3, *self.random.pick(&[0, 1, 4, 4, 8, 16, 3, 256]));
            let mut free = vec![];
            if name == ".bss" {
                part.size = self.ends[code] + self.random.below(40);
            } else {
                part.data = self.bytes(self.ends[code]);
            }
            match code {
                0 => free.clone_from(&self.replaced),
                RODATA if self.late.length > 0 => {
                    // Late words stand behind the last block.
                    let start = part.data.len() as u32;
                    free.extend(self.late.jumps.iter().map(|at| start + at));
                    part.data.extend(&self.late.rodata);
                    let more = self.random.below(9);
                    part.data.extend(self.random.bytes(more));
                }
                _ => (),
            }
            if name != ".bss" && self.random.below(3) > 0 {
                let rela = self.random.once_in(4);
                let both = self.random.once_in(10);
                for rela in if both { vec![false, true] } else { vec![rela] } {
                    let entries = self.entries(&symbols, &[], &free, part.data.len());
                    tables.push(Table {
                        target: name,
                        goal: if self.wrong() { ".bss" } else { name },
                        rela,
                        entries,
                    });
                }
            }
            sections.push(part);
        }
        for (name, kind) in [
            (".reginfo", REGINFO),
            (".comment", PROGBITS),
            (".pdr", PROGBITS),
            ("", PROGBITS),
        ] {
            if self.random.once_in(if kind == REGINFO { 2 } else { 6 }) {
                let mut part = section(name, kind);
                part.data = self.random.bytes(24);
                sections.push(part);
            }
        }
        if sections.iter().any(|part| part.name == ".pdr") {
            let entries = match self.wrong() {
                true => self.entries(&symbols, &[], &[], 24),
                false => vec![],
            };
            tables.push(Table {
                target: ".pdr",
                goal: ".pdr",
                rela: false,
                entries,
            });
        }
        self.random.shuffle(&mut sections);
        if self.random.once_in(12) {
            // A second section of a name.
            let &name = self.random.pick(&SECTIONS);
            let mut part = section(name, PROGBITS);
            part.data = self.random.bytes(8);
            let there = sections.iter().any(|other| other.name == part.name);
            sections.extend(there.then_some(part));
        }
        let mut last = vec![];
        if self.random.once_in(4) {
            let mut part = section(".gptab.data", GPTAB);
            part.data = self.random.bytes(16);
            last.push(part);
        }
        match debug {
            Some(debug) if self.random.once_in(4) => sections.insert(0, debug),
            Some(debug) => last.push(debug),
            None => (),
        }
        if let (Some(part), true) = (last.last(), self.wrong()) {
            // The flag may drop it.
            let index = Index::Named(if part.kind == DEBUG {
                ".mdebug"
            } else {
                ".gptab.data"
            });
            symbols.extend(symbols.first().cloned().map(|symbol| Symbol {
                name: "far".into(),
                index,
                ..symbol
            }));
        }
        let locals = self.random.below(symbols.len() + 2) as u32;
        let parts = Parts {
            sections,
            last,
            symbols,
            tables,
            locals,
            merged: None,
        };
        object_of(self.random, parts)
    }

    pub fn assembled_object(&mut self, held: &[&'static str]) -> Vec<u8> {
        let mut sections = vec![];
        let mut tables = vec![];
        let mut symbols = mem::take(&mut self.assembled);
        for (code, name) in SECTIONS.into_iter().enumerate() {
            let mut part = section(name, if name == ".bss" { NOBITS } else { PROGBITS });
            part.align = *self.random.pick(&[1, 4, 16]);
            if name == ".bss" {
                part.size = self.ends[code];
            } else if held.contains(&name) && (self.ends[code] > 0 || self.random.once_in(2)) {
                part.data = self.bytes(self.ends[code]);
            }
            // Symbols may stand in it, and it may hold nothing.
            let needed = self.ends[code] > 0 || held.contains(&name);
            if needed && !(self.wrong() && self.wrong()) {
                self.assembled_table(name, &symbols, &[], part.data.len(), &mut tables);
                sections.push(part);
            }
        }
        if self.late.length > 0 || self.random.once_in(20) {
            let mut part = section(LATE, PROGBITS);
            let length = (self.late_start + self.late.length) as usize;
            let more = 4 * self.random.below(2);
            if self.late.length > 0 {
                part.data = self.random.bytes(length + more);
                let words = self.late.words.clone();
                self.assembled_table(LATE, &symbols, &words, 0, &mut tables);
            }
            sections.push(part);
        }
        let mut part = section(".reginfo", REGINFO);
        part.data = self.random.bytes(24);
        if !self.wrong() {
            sections.push(part);
        }
        if self.random.once_in(3) {
            self.random.shuffle(&mut sections);
        }
        let mut last = vec![];
        if self.random.once_in(20) {
            // A second section of a name, which may have a symbol.
            let mut part = section(".data", PROGBITS);
            part.data = self.random.bytes(4);
            last.push(part);
            if self.wrong() || self.wrong() {
                symbols.push(Symbol {
                    name: "second".into(),
                    value: 0,
                    index: Index::Last(".data"),
                    info: GLOBAL,
                });
            }
        }
        let locals = 1 + symbols.iter().filter(|symbol| symbol.info < GLOBAL).count() as u32;
        let parts = Parts {
            sections,
            last,
            symbols,
            tables,
            locals: self.near(locals),
            merged: None,
        };
        object_of(self.random, parts)
    }

    /// A table of A for one of its sections, where it has one.
    fn assembled_table(
        &mut self,
        target: &'static str,
        symbols: &[Symbol],
        at: &[u32],
        most: usize,
        tables: &mut Vec<Table>,
    ) {
        if self.random.once_in(3) || target == ".bss" && !self.random.once_in(20) {
            return;
        }
        let rela = self.random.once_in(4);
        let entries = self.entries(symbols, at, &[], most);
        tables.push(Table {
            target,
            goal: target,
            rela,
            entries,
        });
    }
}
