//! Makes block files of every shape, and the symbols that place their blocks.

use crate::{
    object::{Index, SECTIONS, Symbol},
    random::Random,
};

/// How large a job is: blocks, and symbols that no block names.
#[derive(Clone, Copy)]
pub struct Scale {
    pub blocks: usize,
    pub symbols: usize,
    /// Lines of assembly in a block, at most.
    pub lines: usize,
}

const ASSEMBLY: [&str; 8] = [
    "jr $ra",
    "nop",
    "lui $a0, %hi(table)",
    "glabel inner",
    ".section .rodata",
    "",
    "  addiu $sp, $sp, -24 # =",
    ".word 0x12345678",
];

/// Symbols and the block file that goes with them. Places ascend in each section, but for one
/// block in a hundred; labels, sizes and alignments are as document 01 asks, but for a few.
pub fn blocks(random: &mut Random, scale: Scale) -> (Vec<Symbol>, Vec<u8>) {
    let mut symbols = other_symbols(random, scale.symbols);
    let mut file = vec![];
    let mut ends = [0usize; 4];
    for block in 0..scale.blocks {
        file.extend(format!("desc=function {block}\n").bytes());
        for (code, section) in SECTIONS.iter().enumerate() {
            let key = &section[1..];
            file.extend(format!("{key}=").bytes());
            if random.once_in(if code == 0 { 4 } else { 2 }) {
                file.push(b'\n');
                continue;
            }
            let place = ends[code] + 4 * random.below(5) + random.below(8) / 7;
            let place = match random.below(20_000) {
                // A place that was passed already.
                0..200 => random.below(64),
                // A draft of many nops, or of more than 4 GiB.
                200..204 => place + 4 * random.below(1 << 21),
                204..206 => 0xffff_f000 + 4 * random.below(0x3f0),
                _ => place,
            };
            let size = if random.once_in(100) {
                0
            } else {
                4 * random.between(1, 6)
            };
            let size = size + random.below(9) / 8;
            let align8 = match random.below(20) {
                0 => random.below(9),
                1..=4 => 8 - place % 8,
                _ => 0,
            };
            ends[code] = place + size;
            let label = format!("_asmpp_{}{block}", &key[..1]);
            file.extend(format!("{label} {size} {align8}\n").bytes());
            if !random.once_in(60) {
                let name = *random.pick(&SECTIONS);
                let index = Index::Named(if random.once_in(20) { name } else { section });
                let (value, info) = (place as u32, *random.pick(&[0u8, 1, 2, 16, 17, 18]));
                symbols.push(Symbol {
                    name: label,
                    value,
                    index,
                    info,
                });
            }
        }
        rest_of_block(random, scale, &mut file);
    }
    if random.once_in(3) {
        random.shuffle(&mut symbols);
    }
    (symbols, file)
}

/// The lines behind a block's four sections.
fn rest_of_block(random: &mut Random, scale: Scale, file: &mut Vec<u8>) {
    for i in 0..random.below(3) {
        file.extend(format!("glabel=routine{i}\n").bytes());
    }
    for _ in 0..random.below(3) * random.below(2) {
        file.extend(format!("dummy={:08x}\n", random.word() as u32).bytes());
    }
    file.extend(format!("jtbl={}\n", 4 * random.below(4) * random.below(2)).bytes());
    for key in ["asm", "late"] {
        for _ in 0..random.below(scale.lines + 1) {
            file.extend(format!("{key}={}\n", random.pick(&ASSEMBLY)).bytes());
        }
    }
    file.extend(b"end=\n");
}

/// Duplicate names, undefined, absolute, common and unnamed symbols, and `_asmpp_` ones.
fn other_symbols(random: &mut Random, n: usize) -> Vec<Symbol> {
    (0..n)
        .map(|i| Symbol {
            name: match random.below(10) {
                0 => String::new(),
                1 => "_gp_disp".into(),
                2 => format!("_asmpp_{}", random.below(9)),
                3 => format!(
                    "_asmpp_{}{}",
                    random.pick(&["t", "d", "r", "b"]),
                    random.below(4)
                ),
                4..=6 => format!("name{}", random.below(6)),
                _ => format!("symbol_{i}"),
            },
            value: random.below(200) as u32,
            index: match random.below(8) {
                0 => Index::Stored(0),
                1 => Index::Stored(0xfff1),
                2 => Index::Stored(*random.pick(&[0xff00, 0xff03, 0xfff2, 0xfffe])),
                _ => Index::Named(SECTIONS[random.below(4)]),
            },
            info: *random.pick(&[0, 1, 2, 3, 16, 17, 18, 32, 34, 0xd3]),
        })
        .collect()
}
