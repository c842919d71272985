//! The statics of a merge.

use super::Maker;
use crate::{
    debug::{DEBUG, Debug},
    object::{Index, SECTIONS, Section, section},
};

impl Maker<'_> {
    /// A debug section with files of statics, where C has one.
    pub fn debug_section(&mut self, held: &[&'static str]) -> Option<Section> {
        if held.is_empty() || self.random.once_in(3) {
            return None;
        }
        let mut debug = Debug::default();
        for _ in 0..self.random.below(3) {
            let entries = self.debug_entries(held, &mut debug.strings);
            debug.files.push(entries);
        }
        let mut part = section(".mdebug", DEBUG);
        (part.data, part.offsets) = debug.bytes(self.random);
        if self.wrong() {
            part.data[0] ^= 1;
        }
        part.align = *self.random.pick(&[1, 4, 16]);
        Some(part)
    }

    /// The entries of a file: statics in scopes of any depth.
    fn debug_entries(&mut self, held: &[&'static str], strings: &mut Vec<u8>) -> Vec<[u32; 3]> {
        const FILE: u32 = 11;
        const STATIC: u32 = 2;
        const STATIC_PROCEDURE: u32 = 14;
        const END: u32 = 8;
        let other = |kind: u32| [0, 0, kind << 26];
        let mut entries = vec![other(FILE)];
        let mut level = 1;
        for _ in 0..self.random.below(self.size.statics + 1) {
            match self.random.below(10) {
                0 | 1 => {
                    let opens = *self.random.pick(&[6, 7, 11, 26, 27, 28]);
                    entries.push(other(opens));
                    level += 1;
                }
                2 | 3 if level > 1 || self.random.once_in(20) => {
                    entries.push(other(END));
                    level -= 1;
                }
                4 => {
                    let kind = *self.random.pick(&[1, 3, 5, 9, 10, 13]);
                    entries.push(other(kind));
                }
                _ => {
                    let (text, section, value) = self.static_of(held, level > 1);
                    let kind = *self
                        .random
                        .pick(&[STATIC, STATIC, STATIC, STATIC_PROCEDURE]);
                    let storage = match section {
                        _ if self.wrong() => 9,
                        ".text" => 1,
                        ".data" => 2,
                        ".bss" => 3,
                        _ => 15,
                    };
                    let bits = kind << 26 | storage << 21 | self.random.below(1 << 20) as u32;
                    entries.push([strings.len() as u32, value, bits]);
                    strings.extend(text.bytes().chain([0]));
                    level += i32::from(kind == STATIC_PROCEDURE);
                }
            }
        }
        if self.wrong() {
            return entries;
        }
        while level != 0 {
            entries.push(other(if level > 0 { END } else { 6 }));
            level -= level.signum();
        }
        entries
    }

    /// Name, section and value of a static; `counted` ones have a number behind their name.
    fn static_of(&mut self, held: &[&'static str], counted: bool) -> (String, &'static str, u32) {
        let section = *self.random.pick(held);
        let value = 4 * self.random.below(60) as u32;
        if !counted && !self.random.once_in(4) && !self.names.is_empty() {
            let name = self.random.pick(&self.names);
            if let Some((Index::Named(section), value)) = name.home
                && SECTIONS.contains(&section)
            {
                return (name.text.clone(), section, self.near(value));
            }
        }
        let text = match (counted, self.random.below(400)) {
            (_, 0) => "s".repeat(1023 + self.random.below(3)),
            (true, _) => format!("n{}", self.random.below(3)),
            (false, _) => format!("static{}", self.random.word() as u32),
        };
        (text, section, value)
    }
}
